/*
 * Lookups of a name in one directory. The name stands in the path's place, and the
 * directory's number has its lower 16 bits where a handle has its node. What is
 * above them is told by byte 1: 0 to 127 itself; 128 to 254 for 2^32, 2 * 2^32 and
 * so on; 255 for all bits set.
 *
 * What must be answered is worked out here from the image's bytes: the entry by
 * going through all of them, how many names were compared by halving alone.
 */

#include "fuzz.h"

static uint64_t directory_of(const uint8_t *head)
{
    uint64_t low = number_at(head + 2, 2), high = head[1];
    if (high < 128)
        return high << 16 | low;
    return high < 255 ? (high - 127) << 32 | low : UINT64_MAX << 16 | low;
}

/* The entries of a directory of an accepted image, and the text of their names. */
struct listing {
    const uint8_t *entries, *text;
    uint64_t first, count;
};

static struct listing list(const uint8_t *image, uint64_t node)
{
    const uint8_t *nodes = image + 20, *record = nodes + 12 * node;
    const uint8_t *mounts = nodes + 12 * number_at(image + 4, 2);
    const uint8_t *entries = mounts + 8 * number_at(image + 6, 2);
    struct listing listing = {.first = number_at(record + 4, 4), .count = number_at(record + 8, 4)};
    listing.entries = entries + 8 * listing.first;
    listing.text = entries + 8 * number_at(image + 8, 2);
    return listing;
}

/* Below 0 if the name that is looked up comes before that of an entry, above 0 if
 * after it, 0 if they are equal. */
static int order(const struct lent *lent, const struct listing *listing, uint64_t at)
{
    const uint8_t *entry = listing->entries + 8 * at;
    const uint8_t *name = listing->text + number_at(entry, 4);
    size_t len = (size_t)number_at(entry + 4, 2), i = 0;
    while (i < len && i < lent->path_len && lent->path[i] == name[i])
        i++;
    if (i < len && i < lent->path_len)
        return lent->path[i] < name[i] ? -1 : 1;
    return (i < lent->path_len) - (i < len);
}

static uint64_t halve(const struct lent *lent, const struct listing *listing)
{
    uint64_t from = 0, left = listing->count, compared = 0;
    while (left > 0) {
        uint64_t before = (left - 1) / 2; /* of two middles the earlier */
        int side = order(lent, listing, from + before);
        compared++;
        if (side == 0)
            break;
        if (side > 0)
            from += before + 1;
        left = side < 0 ? before : left - before - 1;
    }
    return compared;
}

/* What a lookup must answer. */
static void expect(const struct lent *lent, uint64_t node, bool accepted, uint64_t *answer)
{
    memset(answer, 0, sizeof(uint64_t[VENTOLAIRE_LOOKUP_LEN]));
    answer[VENTOLAIRE_LOOKUP_ERRNO] = VENTOLAIRE_EUCLEAN;
    if (!accepted)
        return;
    answer[VENTOLAIRE_LOOKUP_ERRNO] = VENTOLAIRE_EBADF;
    if (node >= number_at(lent->image + 4, 2))
        return;
    answer[VENTOLAIRE_LOOKUP_ERRNO] = VENTOLAIRE_ENOTDIR;
    if (number_at(lent->image + 20 + 12 * node, 2) != 1)
        return;
    answer[VENTOLAIRE_LOOKUP_ERRNO] = VENTOLAIRE_ENOENT;
    struct listing listing = list(lent->image, node);
    answer[VENTOLAIRE_LOOKUP_COMPARED] = halve(lent, &listing);
    require(answer[VENTOLAIRE_LOOKUP_COMPARED] <= digits(listing.count),
            "more names compared than the directory's count has binary digits");
    for (uint64_t i = 0; i < listing.count; i++)
        if (order(lent, &listing, i) == 0) {
            answer[VENTOLAIRE_LOOKUP_ERRNO] = 0;
            answer[VENTOLAIRE_LOOKUP_ENTRY] = listing.first + i;
            answer[VENTOLAIRE_LOOKUP_NODE] = number_at(listing.entries + 8 * i + 6, 2);
        }
}

static size_t look_up(const struct lent *lent, const void *about, bool accepted,
                      uint64_t *out, size_t out_len)
{
    const uint64_t *node = about;
    return (accepted ? ventolaire_lookup_accepted : ventolaire_lookup)(
        lent->image, lent->image_len, *node, lent->path, lent->path_len, out, out_len);
}

/* Whether the name can be a component of a path. */
static bool is_component(const struct lent *lent)
{
    size_t len = lent->path_len;
    return len > 0 && len <= 255 && memchr(lent->path, 0, len) == NULL
           && memchr(lent->path, '/', len) == NULL
           && !(len <= 2 && memcmp(lent->path, "..", len) == 0);
}

/* A walk of one component finds what the lookup in its handle's directory does, and
 * stands on it unless it is covered. */
static void require_walk(const struct lent *lent, uint64_t node, const uint64_t *looked_up)
{
    uint64_t answer[VENTOLAIRE_ANSWER_LEN];
    uint8_t how[VENTOLAIRE_HOW_SIZE];
    ventolaire_how(how, VENTOLAIRE_O_PATH | VENTOLAIRE_O_NOFOLLOW, 0);
    ventolaire_resolve_accepted(lent->image, lent->image_len, 0, node, false,
                                lent->path, lent->path_len, how, sizeof how,
                                answer, VENTOLAIRE_ANSWER_LEN);
    if (answer[VENTOLAIRE_ANSWER_ERRNO] == VENTOLAIRE_EBADF) /* no handle in mount 0 */
        return;
    require(answer[VENTOLAIRE_ANSWER_ERRNO] == looked_up[VENTOLAIRE_LOOKUP_ERRNO],
            "a walk finds a name and a lookup does not, or the other way round");
    require(answer[VENTOLAIRE_ANSWER_MOUNT] != 0
                || answer[VENTOLAIRE_ANSWER_NODE] == looked_up[VENTOLAIRE_LOOKUP_NODE],
            "a walk finds another node than a lookup");
}

static void require_expected(const uint64_t *answer, const uint64_t *expected)
{
    require(answer[VENTOLAIRE_LOOKUP_ERRNO] == expected[VENTOLAIRE_LOOKUP_ERRNO],
            "another error than a lookup must have");
    require(answer[VENTOLAIRE_LOOKUP_ENTRY] == expected[VENTOLAIRE_LOOKUP_ENTRY]
                && answer[VENTOLAIRE_LOOKUP_NODE] == expected[VENTOLAIRE_LOOKUP_NODE],
            "another entry or node");
    require(answer[VENTOLAIRE_LOOKUP_COMPARED] == expected[VENTOLAIRE_LOOKUP_COMPARED],
            "another number of names compared");
}

/* Counts an answer by its error, the names compared and the size of the directory. */
static void note_lookup(const uint64_t *answer, uint64_t count)
{
    size_t kind = 5 * 128 + (size_t)answer[VENTOLAIRE_LOOKUP_ERRNO];
    kind = kind * 16 + (size_t)answer[VENTOLAIRE_LOOKUP_COMPARED];
    note(kind * 16 + digits(count));
}

void run_lookup(const struct lent *lent, const uint8_t *head, bool accepted, size_t too_short)
{
    uint64_t node = directory_of(head);
    uint64_t expected[VENTOLAIRE_LOOKUP_LEN], answer[OUT_ROOM];
    struct question question = {look_up, &node, VENTOLAIRE_LOOKUP_LEN};
    expect(lent, node, accepted, expected);
    answer_to(question, lent, accepted, too_short, answer);
    require_expected(answer, expected);

    uint64_t error = answer[VENTOLAIRE_LOOKUP_ERRNO];
    bool searched = error == 0 || error == VENTOLAIRE_ENOENT;
    if (searched && is_component(lent))
        require_walk(lent, node, answer);
    note_lookup(answer, searched ? list(lent->image, node).count : 0);
}
