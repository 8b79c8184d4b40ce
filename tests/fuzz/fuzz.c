/*
 * Fuzzes the C interface: any bytes as image, path and open_how, any numbers as
 * descriptors, any name looked up in any directory, any parts built into an image, any
 * edits of what is outside of what a handle leads to.
 *
 * One input is 8 bytes, then the path, the open_how and the image:
 *
 *   byte  0      bit 0 the mark; bit 1 mend the image's header; bits 2 to 4 a
 *                length of `out` that is too short; bit 5 calls on descriptors;
 *                bit 6 a lookup; bit 7 a build; bits 6 and 7 a part
 *   byte  1      the mount
 *   bytes 2, 3   the node
 *   bytes 4, 5   length of the path     (numbers are little-endian, and lengths
 *   bytes 6, 7   length of the open_how  are cut to what is there)
 *
 * With bit 5 set, calls stand in the path's place (descriptors.c says how), and in
 * the open_how's the numbers of slots, 8 bytes each; without any, descriptors are
 * started. With bit 6 alone of these, the path is a name that is looked up, and bytes
 * 1 to 3 tell the directory (lookup.c). With bit 7 alone, all bytes are those of a
 * build (build.c). With bits 6 and 7 the image ends where its header says, and edits of
 * it follow (part.c).
 *
 * The library is not instrumented. So that reads beyond what is lent are seen
 * all the same, each part ends where a page begins that nobody may touch; and
 * so that the fuzzer learns what is new, the answers are its coverage.
 */

#define _DEFAULT_SOURCE

#include <stdio.h>
#include <sys/mman.h>
#include <unistd.h>

#include "fuzz.h"

void fail(const char *what)
{
    fprintf(stderr, "fuzz: %s\n", what);
    abort();
}

/* Longer than any image that can be accepted. */
#define ROOM ((size_t)1 << 17)

struct fence make_fence(void)
{
    size_t page = (size_t)sysconf(_SC_PAGESIZE);
    uint8_t *start = mmap(NULL, ROOM + page, PROT_READ | PROT_WRITE,
                          MAP_PRIVATE | MAP_ANONYMOUS, -1, 0);
    require(start != MAP_FAILED, "no memory");
    require(mprotect(start + ROOM, page, PROT_NONE) == 0, "no guard page");
    return (struct fence){start + ROOM};
}

uint8_t *place(struct fence fence, const uint8_t *bytes, size_t len)
{
    return len == 0 ? fence.end : memcpy(fence.end - len, bytes, len);
}

/* One bucket for each kind of answer, read by libFuzzer. */
#define CHECKS (8 * 256)
#define ANSWERS (1 << 15)
__attribute__((section("__libfuzzer_extra_counters"))) static uint8_t counters[CHECKS + ANSWERS];

size_t digits(uint64_t number)
{
    size_t bits = 0;
    for (; number != 0; number >>= 1)
        bits++;
    return bits;
}

static void note_check(const uint64_t *checked)
{
    uint64_t rule = checked[VENTOLAIRE_CHECK_RULE];
    uint64_t record = checked[VENTOLAIRE_CHECK_RECORD];
    counters[(rule & 7) * 256 + (record < 256 ? record : 255)]++;
}

void note(size_t kind)
{
    counters[CHECKS + kind * 2654435761u % ANSWERS]++;
}

void note_answer(size_t kind, const uint64_t *answer)
{
    kind = kind * 128 + (size_t)answer[VENTOLAIRE_ANSWER_ERRNO];
    kind = kind * 64 + (size_t)answer[VENTOLAIRE_ANSWER_LINKS];
    kind = kind * 32 + digits(answer[VENTOLAIRE_ANSWER_COMPONENTS]);
    note(kind * 256 + (size_t)(answer[VENTOLAIRE_ANSWER_DETAIL] & 255));
}

#define GUARD UINT64_C(0xA55A3CC3F00F9669)

void prepare(uint64_t out[OUT_ROOM])
{
    for (size_t i = 0; i < OUT_ROOM; i++)
        out[i] = GUARD;
}

void require_untouched(const uint64_t out[OUT_ROOM], size_t from)
{
    for (size_t i = from; i < OUT_ROOM; i++)
        require(out[i] == GUARD, "numbers behind the answer were written");
}

void require_unchanged(const struct lent *lent)
{
    require(memcmp(lent->image, lent->image_before, lent->image_len) == 0,
            "the image was changed");
    require(memcmp(lent->path, lent->path_before, lent->path_len) == 0,
            "the path was changed");
    require(memcmp(lent->how, lent->how_before, lent->how_len) == 0,
            "the open_how was changed");
}

void answer_to(struct question question, const struct lent *lent, bool accepted,
               size_t too_short, uint64_t answer[OUT_ROOM])
{
    uint64_t again[OUT_ROOM];
    prepare(answer);
    require(question.ask(lent, question.about, false, answer, question.len) == question.len,
            "wrong count of an answer");
    require_untouched(answer, question.len);
    require_unchanged(lent);

    prepare(again);
    require(question.ask(lent, question.about, accepted, again, OUT_ROOM) == question.len,
            "wrong count with more room, or over an accepted table");
    require(memcmp(answer, again, sizeof again) == 0,
            "another answer with more room, or over an accepted table");
    require_unchanged(lent);

    prepare(again);
    uint64_t *out = too_short == 0 ? NULL : again;
    require(question.ask(lent, question.about, false, out, too_short) == 0
                && (!accepted || question.ask(lent, question.about, true, out, too_short) == 0),
            "an answer was written into too little room");
    require_untouched(again, 0);
    require_unchanged(lent);
}

uint64_t number_at(const uint8_t *bytes, size_t len)
{
    uint64_t number = 0;
    while (len-- > 0)
        number = number << 8 | bytes[len];
    return number;
}

void put_number(uint8_t *bytes, uint64_t number, size_t len)
{
    for (; len-- > 0; number >>= 8)
        *bytes++ = (uint8_t)number;
}

const uint8_t *cut(const uint8_t **data, size_t *size, size_t *len)
{
    const uint8_t *front = *data;
    if (*len > *size)
        *len = *size;
    *data += *len;
    *size -= *len;
    return front;
}

/* Sets right what rules 2 and 3 ask of the header, as far as its counts allow. */
static void mend(uint8_t *image, size_t len)
{
    if (len < 20)
        return;
    uint64_t records = 12 * number_at(image + 4, 2) + 8 * number_at(image + 6, 2)
                       + 8 * number_at(image + 8, 2);
    memcpy(image, "TOC1", 4);
    put_number(image + 10, 0, 2);
    if (20 + records <= len)
        put_number(image + 12, len - 20 - records, 4);
    put_number(image + 16, len, 4);
}

/* With room for the first nine or eleven errnos alone, these are written. */
static void require_errnos(size_t room)
{
    static const size_t counts[] = {9, 11, VENTOLAIRE_ERRNOS_LEN};
    uint64_t errnos[OUT_ROOM + VENTOLAIRE_ERRNOS_LEN];
    size_t written = 0;
    for (size_t i = 0; i < sizeof counts / sizeof *counts; i++)
        if (room >= counts[i])
            written = counts[i];
    prepare(errnos + written);
    require(ventolaire_errnos(room == 0 ? NULL : errnos, room) == written,
            "wrong count of errnos");
    require_untouched(errnos + written, 0);
}

static bool is_known(uint64_t error)
{
    uint64_t errnos[VENTOLAIRE_ERRNOS_LEN];
    ventolaire_errnos(errnos, VENTOLAIRE_ERRNOS_LEN);
    for (size_t i = 0; i < VENTOLAIRE_ERRNOS_LEN; i++)
        if (errnos[i] == error)
            return true;
    return false;
}

void require_answer(const uint64_t *answer)
{
    uint64_t error = answer[VENTOLAIRE_ANSWER_ERRNO];
    uint64_t detail = answer[VENTOLAIRE_ANSWER_DETAIL];
    require(error == 0 || is_known(error), "no such errno");
    require(answer[VENTOLAIRE_ANSWER_COMPONENTS] <= 83968, "too many components");
    require(answer[VENTOLAIRE_ANSWER_LINKS] <= 40, "too many links");
    require(detail == VENTOLAIRE_NO_DETAIL || (error == VENTOLAIRE_EINVAL && detail < 128),
            "no such detail");
    require(error == 0
                || (answer[VENTOLAIRE_ANSWER_MOUNT] == 0 && answer[VENTOLAIRE_ANSWER_NODE] == 0),
            "a refusal with a place");
}

void require_place(const uint64_t *answer, const struct lent *lent)
{
    require(answer[VENTOLAIRE_ANSWER_NODE] < number_at(lent->image + 4, 2), "no such node");
    require(answer[VENTOLAIRE_ANSWER_MOUNT] < number_at(lent->image + 6, 2), "no such mount");
}

bool check(const struct lent *lent, bool is_noted)
{
    uint64_t checked[OUT_ROOM];
    prepare(checked);
    require(ventolaire_check(lent->image, lent->image_len, NULL, 0) == 0
                && ventolaire_check(lent->image, lent->image_len, checked, 1) == 0,
            "check wrote into too little room");
    require_untouched(checked, 0);
    require(ventolaire_check(lent->image, lent->image_len, checked, VENTOLAIRE_CHECK_LEN)
                == VENTOLAIRE_CHECK_LEN,
            "wrong count from check");
    require_untouched(checked, VENTOLAIRE_CHECK_LEN);
    require_unchanged(lent);

    uint64_t rule = checked[VENTOLAIRE_CHECK_RULE];
    require(rule <= 7, "no such rule");
    require(rule > 3 || checked[VENTOLAIRE_CHECK_RECORD] == 0, "a record with rules 0 to 3");
    if (is_noted)
        note_check(checked);
    return rule == 0;
}

size_t resolve(const struct lent *lent, const void *about, bool accepted,
               uint64_t *out, size_t out_len)
{
    const struct handle *handle = about;
    return (accepted ? ventolaire_resolve_accepted : ventolaire_resolve)(
        lent->image, lent->image_len, handle->mount, handle->node, handle->mark,
        lent->path, lent->path_len, lent->how, lent->how_len, out, out_len);
}

/* Where the path is absolute, IN_ROOT is not set and the handle has no mark, any other
 * handle without one gives the same answer. An open_how that is too short has no IN_ROOT. */
static void require_unchecked(const struct lent *lent, const struct handle *handle, bool accepted,
                              const uint64_t *answer)
{
    bool in_root = lent->how_len >= VENTOLAIRE_HOW_SIZE
                   && (number_at(lent->how + 16, 8) & VENTOLAIRE_RESOLVE_IN_ROOT) != 0;
    if (lent->path_len == 0 || lent->path[0] != '/' || in_root || handle->mark)
        return;
    /* An input's numbers are below 2^16, so these are out of range. */
    struct handle other = {~handle->mount, ~handle->node, false};
    uint64_t its[VENTOLAIRE_ANSWER_LEN];
    resolve(lent, &other, accepted, its, VENTOLAIRE_ANSWER_LEN);
    require(memcmp(answer, its, sizeof its) == 0,
            "another answer with another handle, and the handle is not to be checked");
}

static void run_call(const struct lent *lent, struct handle handle, bool accepted,
                     size_t too_short)
{
    uint64_t answer[OUT_ROOM];
    struct question question = {resolve, &handle, VENTOLAIRE_ANSWER_LEN};
    answer_to(question, lent, accepted, too_short, answer);
    require_answer(answer);
    require((answer[VENTOLAIRE_ANSWER_ERRNO] == VENTOLAIRE_EUCLEAN) == !accepted,
            "check and resolve judge the table differently");
    if (answer[VENTOLAIRE_ANSWER_ERRNO] == 0)
        require_place(answer, lent);

    require_unchecked(lent, &handle, accepted, answer);
    require_errnos((handle.mount + handle.node) % (VENTOLAIRE_ERRNOS_LEN + 2));
    note_answer(0, answer);
}

enum kind { CALL,
            SCRIPT,
            LOOKUP,
            PART };

/* What an input that is no build asks for. */
static enum kind kind_of(const uint8_t *head)
{
    if (head[0] & 32)
        return SCRIPT;
    if (head[0] & 64)
        return head[0] & 128 ? PART : LOOKUP;
    return CALL;
}

static struct fence image_fence, path_fence, how_fence;

/* What an input's kind asks of what is lent; the tail is behind the image. */
static void run_kind(const struct lent *lent, const uint8_t *head,
                     const uint8_t *tail, size_t tail_len)
{
    struct handle handle = {head[1], number_at(head + 2, 2), head[0] & 1};
    size_t too_short = head[0] >> 2 & 7;
    /* How an image is refused is for other kinds than parts to find out. */
    bool accepted = check(lent, kind_of(head) != PART);
    if (kind_of(head) == SCRIPT) {
        struct script script = {.path = path_fence, .how = how_fence, .accepted = accepted};
        script.calls = lent->path_before;
        script.calls_len = lent->path_len;
        script.numbers = lent->how_before;
        script.numbers_len = lent->how_len;
        script.too_short = too_short % VENTOLAIRE_REPLY_LEN;
        run_script(script, *lent);
    } else if (kind_of(head) == LOOKUP) {
        run_lookup(lent, head, accepted, too_short % VENTOLAIRE_LOOKUP_LEN);
    } else if (kind_of(head) == PART) {
        run_part(lent, handle, accepted, tail, tail_len, too_short % VENTOLAIRE_ANSWER_LEN);
    } else {
        run_call(lent, handle, accepted, too_short % VENTOLAIRE_ANSWER_LEN);
    }
}

/* How long the image is that a tail follows: as long as its header says, by its counts
 * if it is to be mended. */
static size_t length_in_front(const uint8_t *data, size_t size, bool is_mended)
{
    if (size < 20)
        return size;
    uint64_t len = number_at(data + 16, 4);
    if (is_mended)
        len = 20 + 12 * number_at(data + 4, 2) + 8 * number_at(data + 6, 2)
              + 8 * number_at(data + 8, 2) + number_at(data + 12, 4);
    return len < size ? (size_t)len : size;
}

/* What an input has in its parts, and what lends them. */
static void run(const uint8_t *head, const uint8_t *data, size_t size)
{
    if (image_fence.end == NULL) {
        image_fence = make_fence();
        path_fence = make_fence();
        how_fence = make_fence();
    }
    struct lent lent = {0};
    lent.path_len = (size_t)number_at(head + 4, 2);
    lent.how_len = (size_t)number_at(head + 6, 2);
    lent.path_before = cut(&data, &size, &lent.path_len);
    lent.how_before = cut(&data, &size, &lent.how_len);
    lent.image_len = kind_of(head) == PART ? length_in_front(data, size, head[0] & 2) : size;
    const uint8_t *given = cut(&data, &size, &lent.image_len);

    uint8_t *image = malloc(lent.image_len + 1);
    require(image != NULL, "no memory");
    memcpy(image, given, lent.image_len);
    if (head[0] & 2)
        mend(image, lent.image_len);
    lent.image_before = image;
    lent.image = place(image_fence, image, lent.image_len);
    lent.path = place(path_fence, lent.path_before, lent.path_len);
    lent.how = place(how_fence, lent.how_before, lent.how_len);
    run_kind(&lent, head, data, size);
    free(image);
}

int LLVMFuzzerTestOneInput(const uint8_t *data, size_t size)
{
    if (size < 8 || size > ROOM)
        return 0;
    if ((data[0] & 0xE0) == 0x80)
        run_build(data, data + 8, size - 8, (data[0] >> 2 & 7) % VENTOLAIRE_BUILD_LEN);
    else
        run(data, data + 8, size - 8);
    return 0;
}
