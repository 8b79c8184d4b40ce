/*
 * What lies outside makes no difference (RULES 20). An input is that of a call whose image is
 * as long as its header says; what stands behind it is:
 *
 *   byte  0      for descriptors: bits 0 to 5 the one that holds the handle, as do those
 *                below; bit 6 asks for the mark; bit 7 has all 64 hold it
 *   bytes 1 on   edits, 6 bytes each (edits.h), that make a second image (edits.c)
 *
 * The places reachable from the handle are worked out from an image's bytes, and so is
 * whether two images have them in common. A place that is found is among them. Where they are
 * in common, resolve's answers over both images are equal, and opens through descriptors
 * that hold the handle come to the same, as do opens through what these give.
 */

#include <stdio.h>

#include "edits.h"
#include "part.h"

struct table table_of(uint8_t *image)
{
    struct table table = {.nodes = image + 20, .text_len = number_at(image + 12, 4)};
    table.node_count = number_at(image + 4, 2);
    table.mount_count = number_at(image + 6, 2);
    table.entry_count = number_at(image + 8, 2);
    table.mounts = table.nodes + 12 * table.node_count;
    table.entries = table.mounts + 8 * table.mount_count;
    table.text = table.entries + 8 * table.entry_count;
    return table;
}

bool is_under(const struct table *table, uint64_t node, uint64_t above)
{
    while (node != above && parent_of(table, node) != node)
        node = parent_of(table, node);
    return node == above;
}

/* Marks what mounts cover, or takes these marks away. */
static void mark_covers(struct part *part, bool is_set)
{
    for (uint64_t mount = 1; mount < part->table.mount_count; mount++) {
        const uint8_t *record = part->table.mounts + 8 * mount;
        uint64_t at = number_at(record + 2, 2) * NODES + number_at(record + 4, 2);
        part->cover[at] = is_set ? (uint8_t)mount : 0;
    }
}

static void begin(struct part *part, uint8_t *image)
{
    part->table = table_of(image);
    part->count = 0;
    mark_covers(part, true);
}

/* Whether 7.4 does not refuse a handle. */
static bool is_good(const struct part *part, const struct handle *handle)
{
    const struct table *table = &part->table;
    return handle->mount < table->mount_count && handle->node < table->node_count
           && kind_of(table, handle->node) == DIRECTORY
           && is_under(table, handle->node, root_of(table, handle->mount))
           && part->cover[handle->mount * NODES + handle->node] == 0;
}

static void reach(struct part *part, uint64_t mount, uint64_t node)
{
    size_t at = (size_t)(mount * NODES + node);
    if (part->is_in[at])
        return;
    part->is_in[at] = true;
    part->has_node[node] = true;
    part->places[part->count++] = (uint32_t)at;
}

/* The places that a handle leads to (20.2). */
static void find_part(struct part *part, const struct handle *handle)
{
    const struct table *table = &part->table;
    part->mount = handle->mount;
    part->node = handle->node;
    reach(part, handle->mount, handle->node);
    for (size_t i = 0; i < part->count; i++) {
        size_t at = part->places[i];
        uint64_t mount = at / NODES, node = at % NODES;
        if (part->cover[at] != 0) {
            reach(part, part->cover[at], root_of(table, part->cover[at]));
        } else if (kind_of(table, node) == DIRECTORY) {
            const uint8_t *entry = table->entries + 8 * first_of(table, node);
            part->has_names[node] = true;
            for (uint64_t left = count_of(table, node); left > 0; left--, entry += 8)
                reach(part, mount, number_at(entry + 6, 2));
        }
    }
}

static void forget(struct part *part)
{
    mark_covers(part, false);
    for (size_t i = 0; i < part->count; i++) {
        size_t node = part->places[i] % NODES;
        part->is_in[part->places[i]] = false;
        part->has_node[node] = part->has_names[node] = false;
    }
}

static bool same_text(const struct table *one, uint64_t at, uint64_t len,
                      const struct table *other, uint64_t other_at, uint64_t other_len)
{
    return len == other_len && memcmp(one->text + at, other->text + other_at, (size_t)len) == 0;
}

/* The same names to the same nodes, in their order (20.4b). */
static bool same_names(const struct table *one, const struct table *other, uint64_t node)
{
    const uint8_t *a = one->entries + 8 * first_of(one, node);
    const uint8_t *b = other->entries + 8 * first_of(other, node);
    uint64_t count = count_of(one, node);
    if (count != count_of(other, node))
        return false;
    for (uint64_t i = 0; i < count; i++, a += 8, b += 8)
        if (number_at(a + 6, 2) != number_at(b + 6, 2)
            || !same_text(one, number_at(a, 4), number_at(a + 4, 2),
                          other, number_at(b, 4), number_at(b + 4, 2)))
            return false;
    return true;
}

/* What two tables are asked for at a place (20.4). */
static bool same_at(const struct part *one, const struct part *other, size_t at)
{
    const struct table *a = &one->table, *b = &other->table;
    uint64_t node = at % NODES, cover = one->cover[at];
    if (node >= b->node_count || kind_of(a, node) != kind_of(b, node)
        || other->cover[at] != cover)
        return false;
    if (cover != 0)
        return root_of(a, cover) == root_of(b, cover);
    if (kind_of(a, node) == DIRECTORY)
        return same_names(a, b, node);
    return kind_of(a, node) != SYMBOLIC
           || same_text(a, first_of(a, node), count_of(a, node),
                        b, first_of(b, node), count_of(b, node));
}

static bool in_common(const struct part *one, const struct part *other)
{
    for (size_t i = 0; i < one->count; i++)
        if (!same_at(one, other, one->places[i]))
            return false;
    return true;
}

/* Whether BENEATH, IN_ROOT or a mark is set. An open_how that is too short has no resolve. */
static bool is_scoped(const struct lent *lent, bool mark)
{
    const uint64_t bits = VENTOLAIRE_RESOLVE_BENEATH | VENTOLAIRE_RESOLVE_IN_ROOT;
    return mark
           || (lent->how_len >= VENTOLAIRE_HOW_SIZE && (number_at(lent->how + 16, 8) & bits) != 0);
}

static void require_inside(const struct part *part, const uint64_t *answer)
{
    uint64_t mount = answer[VENTOLAIRE_ANSWER_MOUNT], node = answer[VENTOLAIRE_ANSWER_NODE];
    require(answer[VENTOLAIRE_ANSWER_ERRNO] != 0
                || (mount < MOUNTS && node < NODES && part->is_in[mount * NODES + node]),
            "a place is found that is not reachable from the handle");
}

/* One of the two tables, with the handle's part of it and resolve's answer over it. */
struct side {
    struct lent lent;
    struct part part;
    uint64_t answer[OUT_ROOM];
};

static struct side first, second;

/* The part and the answer, if the handle is good. */
static bool ask(struct side *side, const struct handle *handle, size_t too_short)
{
    struct question question = {resolve, handle, VENTOLAIRE_ANSWER_LEN};
    begin(&side->part, side->lent.image);
    if (!is_good(&side->part, handle))
        return false;
    find_part(&side->part, handle);
    answer_to(question, &side->lent, true, too_short, side->answer);
    require_answer(side->answer);
    require_inside(&side->part, side->answer);
    return true;
}

typedef ventolaire_descriptors slots;

/* The number of a slot that holds a handle. The header does not tell it: that it is the one
 * is seen by an open of "." through it, and by a mark set on it. */
static uint64_t slot_of(const struct handle *handle)
{
    return 1 + handle->mark + 2 * handle->node + (handle->mount << 32);
}

static void require_held(const struct lent *lent, const struct handle *handle)
{
    const struct handle marked = {handle->mount, handle->node, true};
    uint64_t reply[VENTOLAIRE_REPLY_LEN];
    uint8_t how[VENTOLAIRE_HOW_SIZE];
    slots table = {{slot_of(handle)}};
    ventolaire_how(how, 0, 0);
    ventolaire_open_accepted(lent->image, lent->image_len, &table, 0, false,
                             (const uint8_t *)".", 1, how, sizeof how,
                             reply, VENTOLAIRE_REPLY_LEN);
    require(reply[VENTOLAIRE_REPLY_ERRNO] == 0 && reply[VENTOLAIRE_REPLY_MOUNT] == handle->mount
                && reply[VENTOLAIRE_REPLY_NODE] == handle->node,
            "a slot's number does not hold the handle that it is taken for");
    ventolaire_set_mark(lent->image, lent->image_len, &table, 0, reply, VENTOLAIRE_REPLY_LEN);
    require(table.slots[0] == slot_of(&marked), "a slot's number has another mark");
}

/* A number, the mark that it has, and whether one is asked for what is opened. */
struct opening {
    uint64_t number;
    bool mark, is_asked;
};

/* Opens once, and once more without the table check. */
static void open_in(const struct lent *lent, const struct opening *opening, slots *table,
                    uint64_t *reply)
{
    uint64_t again[VENTOLAIRE_REPLY_LEN];
    slots copy = *table;
    ventolaire_open(lent->image, lent->image_len, table, opening->number, opening->is_asked,
                    lent->path, lent->path_len, lent->how, lent->how_len,
                    reply, VENTOLAIRE_REPLY_LEN);
    ventolaire_open_accepted(lent->image, lent->image_len, &copy,
                             opening->number, opening->is_asked,
                             lent->path, lent->path_len, lent->how, lent->how_len,
                             again, VENTOLAIRE_REPLY_LEN);
    require(memcmp(reply, again, sizeof again) == 0 && memcmp(table, &copy, sizeof copy) == 0,
            "another reply over an accepted table");
    require_unchanged(lent);
}

/* Up to three opens over both tables, each through the number that the last has given, and a
 * mark set there. */
static void require_opens(struct opening opening, slots table)
{
    uint64_t reply[VENTOLAIRE_REPLY_LEN], its[VENTOLAIRE_REPLY_LEN];
    const struct lent *one = &first.lent, *other = &second.lent;
    slots its_table = table;
    for (int made = 0; made < 3 && is_scoped(one, opening.mark); made++) {
        open_in(one, &opening, &table, reply);
        open_in(other, &opening, &its_table, its);
        require(memcmp(reply, its, sizeof its) == 0,
                "another reply to an open, and the tables differ outside alone");
        require(memcmp(&table, &its_table, sizeof table) == 0,
                "other slots after an open, and the tables differ outside alone");
        require_inside(&first.part, reply);
        if (reply[VENTOLAIRE_REPLY_ERRNO] != 0)
            break;
        opening.number = reply[VENTOLAIRE_REPLY_DESCRIPTOR];
        opening.mark = opening.is_asked;
    }
    ventolaire_set_mark(one->image, one->image_len, &table, opening.number,
                        reply, VENTOLAIRE_REPLY_LEN);
    ventolaire_set_mark(other->image, other->image_len, &its_table, opening.number,
                        its, VENTOLAIRE_REPLY_LEN);
    require(memcmp(reply, its, sizeof its) == 0 && memcmp(&table, &its_table, sizeof table) == 0,
            "a mark set comes to something else, and the tables differ outside alone");
    require_unchanged(one);
    require_unchanged(other);
}

/* Opens from the slots that byte 0 behind the image tells. */
static void open_both(const struct handle *handle, uint8_t byte)
{
    struct opening opening = {byte & 63, handle->mark, byte >> 6 & 1};
    slots table = {{0}};
    for (size_t i = 0; i < VENTOLAIRE_DESCRIPTORS; i++)
        if (i <= opening.number || byte >= 128)
            table.slots[i] = slot_of(handle);
    require_held(&first.lent, handle);
    require_opens(opening, table);
}

enum outcome { NOT_CONFINED,
               NOT_EDITED,
               SECOND_REFUSED,
               HANDLE_NOT_GOOD,
               NOT_IN_COMMON,
               COMMON_EARLY,
               COMMON_REFUSED,
               COMMON_FOUND,
               OUTCOMES };

static unsigned long totals[OUTCOMES];

static void tell_totals(void)
{
    static const char *const words[OUTCOMES] = {
        "not confined", "not edited", "second table refused", "handle not good in it",
        "not in common", "in common and refused before a component is taken",
        "in common and refused on the way", "in common and found"};
    for (size_t i = 0; i < OUTCOMES; i++)
        fprintf(stderr, "part: %lu %s\n", totals[i], words[i]);
}

/* Counts what came of an input: by outcome with the answer, with each kind of edit that
 * took, and with how many places there are. An open_how's bits are no matter of parts. */
static void note_outcome(enum outcome outcome, uint64_t *answer, uint64_t took, size_t places)
{
    static bool is_told;
    if (!is_told)
        is_told = atexit(tell_totals) == 0;
    totals[outcome]++;
    answer[VENTOLAIRE_ANSWER_DETAIL] = VENTOLAIRE_NO_DETAIL;
    note_answer(7 + outcome, answer);
    for (size_t kind = 0; kind < EDIT_KINDS; kind++)
        if (took >> kind & 1)
            note((15 * OUTCOMES + outcome) * EDIT_KINDS + kind);
    note((16 * OUTCOMES + outcome) * 32 + digits(places));
}

/* Both handles are good, and both answers are there. */
static enum outcome compare(const struct handle *handle, uint8_t byte)
{
    bool is_common = in_common(&first.part, &second.part);
    require(is_common == in_common(&second.part, &first.part)
                && (!is_common || first.part.count == second.part.count),
            "a part is in common one way alone");
    if (!is_common)
        return NOT_IN_COMMON;
    require(memcmp(first.answer, second.answer, sizeof first.answer) == 0,
            "another answer, and the tables differ outside alone");
    open_both(handle, byte);
    if (first.answer[VENTOLAIRE_ANSWER_ERRNO] == 0)
        return COMMON_FOUND;
    return first.answer[VENTOLAIRE_ANSWER_COMPONENTS] == 0 ? COMMON_EARLY : COMMON_REFUSED;
}

static enum outcome run_second(const struct handle *handle, uint8_t byte, size_t too_short)
{
    enum outcome outcome = HANDLE_NOT_GOOD;
    if (!check(&second.lent, false))
        return SECOND_REFUSED;
    if (ask(&second, handle, too_short))
        outcome = compare(handle, byte);
    forget(&second.part);
    return outcome;
}

/* Whether there is a second image, and it differs from the first. */
static bool edit(const uint8_t *edits, size_t edits_len, uint64_t *took)
{
    static struct fence fence;
    static uint8_t image[VENTOLAIRE_IMAGE_MAX];
    if (fence.end == NULL)
        fence = make_fence();
    size_t len = make_second(&first.part, first.lent.image, first.lent.image_len,
                             edits, edits_len, image, took);
    second.lent = first.lent;
    second.lent.image_before = image;
    second.lent.image_len = len;
    second.lent.image = place(fence, image, len);
    return len != first.lent.image_len || memcmp(image, first.lent.image, len) != 0;
}

void run_part(const struct lent *lent, struct handle handle, bool accepted,
              const uint8_t *tail, size_t tail_len, size_t too_short)
{
    enum outcome outcome = NOT_CONFINED;
    uint64_t took = 0;
    size_t one = 1;
    const uint8_t *byte = cut(&tail, &tail_len, &one);
    first.lent = *lent;
    first.part.count = 0;
    memset(first.answer, 0, sizeof first.answer);
    if (accepted && is_scoped(lent, handle.mark)) {
        if (ask(&first, &handle, too_short))
            outcome = edit(tail, tail_len, &took)
                          ? run_second(&handle, one == 0 ? 0 : *byte, too_short)
                          : NOT_EDITED;
        forget(&first.part);
    }
    note_outcome(outcome, first.answer, took, first.part.count);
}
