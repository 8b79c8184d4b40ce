/* Edits of entries, of names and bodies, and of where these lie in the text (edits.h). */

#include "second.h"

static bool is_free(const struct second *second, uint64_t node)
{
    return is_directory(second, node) && !second->part->has_names[node];
}

static bool is_filled(const struct second *second, uint64_t node)
{
    return is_free(second, node) && count_of(&second->table, node) != 0;
}

static bool is_link_outside(const struct second *second, uint64_t node)
{
    return kind_of(&second->table, node) == SYMBOLIC && !second->part->has_node[node];
}

bool set_body(struct second *second, uint64_t node, uint64_t which)
{
    static const char *const bodies[] = {"/", "..", "../..", "/lab/cal", ".", "cal", "tare/", "a"};
    const char *body = bodies[which % (sizeof bodies / sizeof *bodies)];
    uint64_t offset;
    if (!append(second, body, strlen(body), &offset))
        return false;
    put_fields(second->table.nodes + 12 * node, offset, strlen(body));
    return true;
}

/* An entry of a free directory. */
static bool pick_entry(const struct second *second, const struct edit *edit,
                       uint64_t *directory, uint64_t *entry)
{
    if (!pick_node(second, edit->a, is_filled, directory))
        return false;
    *entry = first_of(&second->table, *directory) + edit->b % count_of(&second->table, *directory);
    return true;
}

bool edit_name(struct second *second, const struct edit *edit)
{
    uint64_t directory, entry, offset;
    uint8_t name[256];
    if (!pick_entry(second, edit, &directory, &entry))
        return false;
    uint8_t *record = second->table.entries + 8 * entry;
    size_t len = (size_t)number_at(record + 4, 2);
    memcpy(name, second->table.text + number_at(record, 4), len);
    if (edit->value < 64 && len > 1)
        len--;
    else if (edit->value < 128 && len < 255)
        name[len++] = edit->value;
    else
        name[len - 1] = edit->value;
    if (!append(second, name, len, &offset))
        return false;
    record = second->table.entries + 8 * entry;
    put_number(record, offset, 4);
    put_number(record + 4, len, 2);
    return true;
}

bool edit_lead(struct second *second, const struct edit *edit)
{
    uint64_t directory, entry, node;
    if (!pick_entry(second, edit, &directory, &entry)
        || !pick_node(second, edit->value, is_leaf, &node))
        return false;
    put_number(second->table.entries + 8 * entry + 6, node, 2);
    return true;
}

bool edit_body(struct second *second, const struct edit *edit)
{
    uint64_t link;
    return pick_node(second, edit->a, is_link_outside, &link) && set_body(second, link, edit->b);
}

/* Has the directories behind one begin so many entries later. */
static void move_entries(struct second *second, uint64_t directory, uint64_t by)
{
    for (uint64_t node = directory + 1; node < second->table.node_count; node++)
        if (is_directory(second, node)) {
            uint64_t first = first_of(&second->table, node) + by;
            put_number(second->table.nodes + 12 * node + 4, first, 4);
        }
    uint64_t count = count_of(&second->table, directory) + by;
    put_number(second->table.nodes + 12 * directory + 8, count, 4);
}

/* The new name comes after all that begin with letters, or before them. */
bool edit_add_entry(struct second *second, const struct edit *edit)
{
    const uint8_t name[2] = {edit->value < 128 ? 1 : 255, (uint8_t)(1 + edit->value % 16)};
    uint64_t directory, node, offset;
    if (second->table.entry_count == 4096
        || !pick_node(second, edit->a, is_free, &directory)
        || !pick_node(second, edit->b, is_leaf, &node)
        || !append(second, name, sizeof name, &offset))
        return false;
    uint64_t behind = edit->value < 128 ? 0 : count_of(&second->table, directory);
    uint64_t at = first_of(&second->table, directory) + behind;
    if (!grow(second, second->table.entries + 8 * at, 8, ENTRY_FIELD, 1))
        return false;
    uint8_t *record = second->table.entries + 8 * at;
    put_number(record, offset, 4);
    put_number(record + 4, sizeof name, 2);
    put_number(record + 6, node, 2);
    move_entries(second, directory, 1);
    return true;
}

bool edit_drop_entry(struct second *second, const struct edit *edit)
{
    uint64_t directory, entry;
    if (!pick_entry(second, edit, &directory, &entry))
        return false;
    drop(second, second->table.entries + 8 * entry, 8, ENTRY_FIELD);
    move_entries(second, directory, UINT64_MAX);
    return true;
}

bool edit_shift(struct second *second, const struct edit *edit)
{
    uint64_t by = 1 + edit->a % 16;
    if (!grow(second, second->table.text, (size_t)by, TEXT_FIELD, by))
        return false;
    memset(second->table.text, edit->value, (size_t)by);
    for (uint64_t i = 0; i < second->table.entry_count; i++) {
        uint8_t *record = second->table.entries + 8 * i;
        put_number(record, number_at(record, 4) + by, 4);
    }
    for (uint64_t node = 0; node < second->table.node_count; node++)
        if (is_symbolic(second, node))
            put_number(second->table.nodes + 12 * node + 4, first_of(&second->table, node) + by, 4);
    return true;
}

bool edit_move(struct second *second, const struct edit *edit)
{
    static uint8_t bytes[VENTOLAIRE_IMAGE_MAX];
    uint64_t node, offset;
    size_t len, at = (size_t)(second->table.entries - second->image);
    if (edit->value % 2 == 0 && second->table.entry_count != 0) {
        at += 8 * (size_t)(edit->a % second->table.entry_count);
        len = (size_t)number_at(second->image + at + 4, 2);
    } else if (pick_node(second, edit->a, is_symbolic, &node)) {
        at = 20 + 12 * (size_t)node + 4;
        len = (size_t)number_at(second->image + at + 4, 4);
    } else {
        return false;
    }
    memcpy(bytes, second->table.text + number_at(second->image + at, 4), len);
    if (!append(second, bytes, len, &offset))
        return false;
    put_number(second->image + at, offset, 4);
    return true;
}
