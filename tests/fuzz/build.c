/*
 * Builds of an image from four parts. Bytes 2 and 3 of an input are the length of the
 * nodes, 4 and 5 that of the mounts, 6 and 7 that of the entries, which follow in this
 * order; the rest is the text.
 *
 *   byte  0      bit 0 lends what is empty as a null pointer; bit 1 cuts the parts to
 *                whole records and mends what directories have as their first
 *   byte  1      the length of the buffer: 0 to 127 itself; 128 and on the image's
 *                own less 64 and on, so 192 is just enough
 *
 * What must be answered is worked out here: rules 1 and 3 from the parts' lengths and
 * those that their records declare, rules 4 to 7 by ventolaire_check over the parts put
 * behind each other as they are, and the image byte by byte.
 */

#include "fuzz.h"

#define HEAD ((size_t)20)
#define NODE ((size_t)12)
#define MOUNT ((size_t)8)
#define ENTRY ((size_t)8)
#define MOST ((size_t)VENTOLAIRE_IMAGE_MAX)

/* What a build is asked for besides nodes, mounts and entries, which are lent where a
 * call lends image, path and open_how. */
struct build {
    const uint8_t *text, *text_before;
    size_t text_len, room;
    bool is_null;
};

/* The bytes of the buffer before a build, from MARGIN on, and of those before it. */
#define MARGIN ((size_t)64)
static uint8_t filling[MARGIN + MOST + 64];
static struct fence buffer_fence;

static const uint8_t *lend(const struct build *build, const uint8_t *bytes, size_t len)
{
    return build->is_null && len == 0 ? NULL : bytes;
}

/* The buffer that the last build had. */
static uint8_t *buffer_of(const struct build *build)
{
    return buffer_fence.end - build->room;
}

/* A build into a buffer that is filled before, and looked at behind the image. */
static size_t ask(const struct lent *lent, const void *about, bool accepted,
                  uint64_t *out, size_t out_len)
{
    const struct build *build = about;
    (void)accepted;
    uint8_t *filled = place(buffer_fence, filling, MARGIN + build->room);
    uint8_t *buffer = filled + MARGIN;
    bool no_buffer = build->is_null && build->room == 0;
    size_t numbers = ventolaire_build(
        lend(build, lent->image, lent->image_len), lent->image_len,
        lend(build, lent->path, lent->path_len), lent->path_len,
        lend(build, lent->how, lent->how_len), lent->how_len,
        lend(build, build->text, build->text_len), build->text_len,
        no_buffer ? NULL : buffer, build->room, out, out_len);

    bool is_written = numbers != 0 && out[VENTOLAIRE_BUILD_ERRNO] == 0;
    size_t len = is_written ? (size_t)out[VENTOLAIRE_BUILD_BYTES] : 0;
    require(len <= build->room, "an image longer than its buffer");
    require(memcmp(filled, filling, MARGIN) == 0
                && memcmp(buffer + len, filling + MARGIN + len, build->room - len) == 0,
            "bytes of the buffer were changed that are not the image's");
    require(memcmp(build->text, build->text_before, build->text_len) == 0,
            "the text was changed");
    return numbers;
}

/* A build that answers with just so many numbers. */
static void ask_once(const struct lent *lent, const struct build *build, uint64_t *answer)
{
    require(ask(lent, build, false, answer, VENTOLAIRE_BUILD_LEN) == VENTOLAIRE_BUILD_LEN,
            "wrong count of an answer");
    require_unchanged(lent);
}

static bool is_link(const uint8_t *node)
{
    return number_at(node, 2) == 3;
}

/* How long the image would be. */
static uint64_t length_of(const struct lent *lent)
{
    size_t nodes = lent->image_len / NODE, entries = lent->how_len / ENTRY;
    uint64_t len = HEAD + NODE * nodes + MOUNT * (lent->path_len / MOUNT) + ENTRY * entries;
    for (size_t i = 0; i < nodes; i++)
        if (is_link(lent->image + NODE * i))
            len += number_at(lent->image + NODE * i + 8, 4);
    for (size_t i = 0; i < entries; i++)
        len += number_at(lent->how + ENTRY * i + 4, 2);
    return len;
}

/* Whether the counts, and records that are cut short, break rule 3. */
static bool is_miscounted(const struct lent *lent)
{
    size_t nodes = lent->image_len / NODE, mounts = lent->path_len / MOUNT;
    bool is_cut = lent->image_len % NODE + lent->path_len % MOUNT + lent->how_len % ENTRY != 0;
    return is_cut || nodes < 1 || nodes > 4096 || mounts < 1 || mounts > 256
           || lent->how_len / ENTRY > 4096;
}

/* An image of whole records, the text as it is. Its length. */
static size_t put_together(const struct lent *lent, const uint8_t *text, size_t text_len,
                           uint8_t *image)
{
    uint8_t *mounts = image + HEAD + lent->image_len, *entries = mounts + lent->path_len;
    size_t len = HEAD + lent->image_len + lent->path_len + lent->how_len + text_len;
    memcpy(image, "TOC1", 4);
    put_number(image + 4, lent->image_len / NODE, 2);
    put_number(image + 6, lent->path_len / MOUNT, 2);
    put_number(image + 8, lent->how_len / ENTRY, 2);
    put_number(image + 10, 0, 2);
    put_number(image + 12, text_len, 4);
    put_number(image + 16, len, 4);
    memcpy(image + HEAD, lent->image, lent->image_len);
    memcpy(mounts, lent->path, lent->path_len);
    memcpy(entries, lent->how, lent->how_len);
    memcpy(entries + lent->how_len, text, text_len);
    return len;
}

/* The rule that the parts break, and its record; false where that is not known. */
static bool expect_rule(const struct lent *lent, const struct build *build, uint64_t *checked)
{
    static uint8_t image[MOST];
    checked[VENTOLAIRE_CHECK_RECORD] = 0;
    checked[VENTOLAIRE_CHECK_RULE] = 1;
    if (length_of(lent) > MOST)
        return true;
    checked[VENTOLAIRE_CHECK_RULE] = 3;
    if (is_miscounted(lent))
        return true;
    /* A long text that is hardly used is too long to be put behind the records. */
    if (HEAD + lent->image_len + lent->path_len + lent->how_len + build->text_len > MOST)
        return false;
    size_t len = put_together(lent, build->text, build->text_len, image);
    ventolaire_check(image, len, checked, VENTOLAIRE_CHECK_LEN);
    return true;
}

/* Where a name or body is copied from, and where to. */
struct copied {
    const struct build *build;
    uint8_t *text;
    size_t len;
};

/* Copies one, and renews its offset. */
static void copy_text(struct copied *copied, uint8_t *offset, uint64_t len)
{
    uint64_t from = number_at(offset, 4);
    require(from + len <= copied->build->text_len, "a name or body outside was written");
    memcpy(copied->text + copied->len, copied->build->text + from, (size_t)len);
    put_number(offset, copied->len, 4);
    copied->len += (size_t)len;
}

/* The image that must be written. Its length is known to be no more than MOST. */
static size_t spell(const struct lent *lent, const struct build *build, uint8_t *image)
{
    size_t records = HEAD + lent->image_len + lent->path_len + lent->how_len;
    uint8_t *nodes = image + HEAD, *entries = nodes + lent->image_len + lent->path_len;
    struct copied copied = {build, image + records, 0};
    put_together(lent, build->text, 0, image);
    for (uint8_t *entry = entries; entry < copied.text; entry += ENTRY)
        copy_text(&copied, entry, number_at(entry + 4, 2));
    for (uint8_t *node = nodes; node < nodes + lent->image_len; node += NODE)
        if (is_link(node))
            copy_text(&copied, node + 4, number_at(node + 8, 4));
    put_number(image + 12, copied.len, 4);
    put_number(image + 16, records + copied.len, 4);
    return records + copied.len;
}

/* What holds of every answer: its numbers are in range. */
static void require_form(const uint64_t *answer, const struct lent *lent)
{
    uint64_t error = answer[VENTOLAIRE_BUILD_ERRNO], rule = answer[VENTOLAIRE_BUILD_RULE];
    uint64_t record = answer[VENTOLAIRE_BUILD_RECORD], bytes = answer[VENTOLAIRE_BUILD_BYTES];
    if (error != VENTOLAIRE_EUCLEAN) {
        require(error == 0 || error == VENTOLAIRE_ERANGE, "no such errno of a build");
        require(rule == 0 && record == 0, "a rule or record without EUCLEAN");
        require(bytes >= 40 && bytes <= MOST, "no image has this length");
        return;
    }
    uint64_t nodes = lent->image_len / NODE;
    const uint64_t records[] = {0, 1, 0, 1, nodes + 1, lent->how_len / ENTRY,
                                lent->path_len / MOUNT, nodes};
    require(rule < sizeof records / sizeof *records && record < records[rule],
            "no such rule, or no such record");
    require(bytes == 0, "EUCLEAN with a length");
}

/* That a buffer of a length changes nothing but whether the image is written. */
static void require_room(const struct lent *lent, struct build build, size_t too_short,
                         const uint64_t *verdict, const uint8_t *image)
{
    uint64_t answer[OUT_ROOM], expected[VENTOLAIRE_BUILD_LEN];
    struct question question = {ask, &build, VENTOLAIRE_BUILD_LEN};
    memcpy(expected, verdict, sizeof expected);
    if (verdict[VENTOLAIRE_BUILD_ERRNO] == 0 && build.room < verdict[VENTOLAIRE_BUILD_BYTES])
        expected[VENTOLAIRE_BUILD_ERRNO] = VENTOLAIRE_ERANGE;
    answer_to(question, lent, false, too_short, answer);
    require(memcmp(answer, expected, sizeof expected) == 0, "another answer with another buffer");
    ask_once(lent, &build, answer);
    require(memcmp(answer, expected, sizeof expected) == 0, "another answer when asked again");
    if (answer[VENTOLAIRE_BUILD_ERRNO] == 0)
        require(memcmp(buffer_of(&build), image, (size_t)answer[VENTOLAIRE_BUILD_BYTES]) == 0,
                "another image in another buffer");
}

/* That the parts of a written image give it again. */
static void require_again(const struct lent *from, const uint8_t *image, size_t len)
{
    uint64_t answer[VENTOLAIRE_BUILD_LEN];
    const uint8_t *mounts = image + HEAD + from->image_len, *entries = mounts + from->path_len;
    struct lent lent = *from;
    lent.image_before = image + HEAD;
    lent.path_before = mounts;
    lent.how_before = entries;
    lent.image = (uint8_t *)(uintptr_t)lent.image_before;
    lent.path = (uint8_t *)(uintptr_t)mounts;
    lent.how = (uint8_t *)(uintptr_t)entries;
    struct build build = {.text = entries + from->how_len, .room = len};
    build.text_before = build.text;
    build.text_len = (size_t)(image + len - build.text);
    ask_once(&lent, &build, answer);
    require(answer[VENTOLAIRE_BUILD_ERRNO] == 0 && answer[VENTOLAIRE_BUILD_BYTES] == len
                && memcmp(buffer_of(&build), image, len) == 0,
            "a written image's parts give another image");
}

/* The image that was written: it is the one, it is accepted, and its parts give it. */
static size_t require_image(const struct lent *lent, const struct build *build, uint8_t *image)
{
    uint64_t checked[VENTOLAIRE_CHECK_LEN];
    size_t len = spell(lent, build, image);
    require(memcmp(buffer_of(build), image, len) == 0, "another image than must be written");
    ventolaire_check(image, len, checked, VENTOLAIRE_CHECK_LEN);
    require(checked[VENTOLAIRE_CHECK_RULE] == 0, "the check refuses a written image");
    require_again(lent, image, len);
    return len;
}

/* Whole records, and directories whose first is the sum of earlier ones' counts. */
static void mend(struct lent *lent, uint8_t *nodes)
{
    uint64_t sum = 0;
    lent->image_len -= lent->image_len % NODE;
    lent->path_len -= lent->path_len % MOUNT;
    lent->how_len -= lent->how_len % ENTRY;
    for (uint8_t *node = nodes; node < nodes + lent->image_len; node += NODE)
        if (number_at(node, 2) == 1) {
            put_number(node + 4, sum, 4);
            sum += number_at(node + 8, 4);
        }
}

/* The parts of an input, lent. */
static void lend_parts(const uint8_t *head, const uint8_t *data, size_t size,
                       struct lent *lent, struct build *build)
{
    static struct fence fences[4];
    static uint8_t nodes[1 << 16];
    if (buffer_fence.end == NULL) {
        buffer_fence = make_fence();
        for (size_t i = 0; i < 4; i++)
            fences[i] = make_fence();
        for (size_t i = 0; i < sizeof filling; i++)
            filling[i] = (uint8_t)(31 * i + i / 256 + 7);
    }
    lent->image_len = (size_t)number_at(head + 2, 2);
    lent->path_len = (size_t)number_at(head + 4, 2);
    lent->how_len = (size_t)number_at(head + 6, 2);
    const uint8_t *given = cut(&data, &size, &lent->image_len);
    lent->path_before = cut(&data, &size, &lent->path_len);
    lent->how_before = cut(&data, &size, &lent->how_len);
    build->text_before = data;
    build->text_len = size;
    lent->image_before = memcpy(nodes, given, lent->image_len);
    if (head[0] & 2)
        mend(lent, nodes);
    lent->image = place(fences[0], lent->image_before, lent->image_len);
    lent->path = place(fences[1], lent->path_before, lent->path_len);
    lent->how = place(fences[2], lent->how_before, lent->how_len);
    build->text = place(fences[3], build->text_before, build->text_len);
    build->is_null = head[0] & 1;
}

/* The length of the buffer that byte 1 tells, with an image of this length. */
static size_t room_of(uint8_t byte, size_t len)
{
    if (byte < 128)
        return byte;
    return byte < 192 ? len - (len < 192u - byte ? len : 192u - byte) : len + (byte - 192u);
}

/* Counts an answer by its rule, its record and the lengths of image and text. */
static void note_build(const uint64_t *answer, const struct build *build)
{
    uint64_t record = answer[VENTOLAIRE_BUILD_RECORD];
    size_t kind = 6 * 8 + (size_t)answer[VENTOLAIRE_BUILD_RULE];
    kind = kind * 64 + (size_t)(record < 63 ? record : 63);
    kind = kind * 32 + digits(answer[VENTOLAIRE_BUILD_BYTES]);
    note(kind * 32 + digits(build->text_len));
}

void run_build(const uint8_t *head, const uint8_t *data, size_t size, size_t too_short)
{
    static uint8_t image[MOST];
    struct lent lent = {0};
    struct build build = {.room = MOST};
    uint64_t answer[VENTOLAIRE_BUILD_LEN], checked[VENTOLAIRE_CHECK_LEN];
    lend_parts(head, data, size, &lent, &build);
    ask_once(&lent, &build, answer);
    require_form(answer, &lent);
    require(answer[VENTOLAIRE_BUILD_ERRNO] != VENTOLAIRE_ERANGE, "ERANGE with the most room");
    if (expect_rule(&lent, &build, checked))
        require(answer[VENTOLAIRE_BUILD_RULE] == checked[VENTOLAIRE_CHECK_RULE]
                    && answer[VENTOLAIRE_BUILD_RECORD] == checked[VENTOLAIRE_CHECK_RECORD],
                "another rule or record than the parts break");

    size_t len = 0;
    if (answer[VENTOLAIRE_BUILD_ERRNO] == 0) {
        require(answer[VENTOLAIRE_BUILD_BYTES] == length_of(&lent), "another length");
        len = require_image(&lent, &build, image);
        for (build.room = len - 1; build.room <= len; build.room++)
            require_room(&lent, build, too_short, answer, image);
    }
    build.room = room_of(head[1], len);
    require_room(&lent, build, too_short, answer, image);
    note_build(answer, &build);
}
