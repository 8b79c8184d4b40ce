/* Edits of nodes and mounts (edits.h). */

#include "second.h"

static bool is_leaf_outside(const struct second *second, uint64_t node)
{
    return is_leaf(second, node) && !second->part->has_node[node];
}

static bool is_magic(const struct second *second, uint64_t node)
{
    return kind_of(&second->table, node) == MAGIC;
}

static bool is_target(const struct second *second, uint64_t node)
{
    return is_directory(second, node) || kind_of(&second->table, node) == FILE_NODE;
}

static bool is_on_nothing(const struct second *second, uint64_t mount)
{
    const uint8_t *record = second->table.mounts + 8 * mount;
    return mount != 0
           && !second->part->is_in[number_at(record + 2, 2) * NODES + number_at(record + 4, 2)];
}

/* The target that an edit wishes, or the next that the table check allows. */
static bool find_target(const struct second *second, const struct edit *edit,
                        uint64_t *mount, uint64_t *node)
{
    const struct table *table = &second->table;
    if (!pick_node(second, edit->b, is_target, node))
        return false;
    for (uint64_t i = 0; i < table->mount_count; i++) {
        *mount = (edit->value + i) % table->mount_count;
        if (!is_directory(second, *node) || is_under(table, *node, root_of(table, *mount)))
            return true;
    }
    return false;
}

/* Makes a node a file, a symbolic link or a magic link. */
static bool set_leaf(struct second *second, uint64_t node, const struct edit *edit,
                     enum node_kind kind)
{
    uint64_t first = 0, count = 0;
    if (kind == MAGIC && !find_target(second, edit, &first, &count))
        return false;
    uint8_t *record = second->table.nodes + 12 * node;
    put_number(record, kind, 2);
    put_fields(record, first, count);
    return kind != SYMBOLIC || set_body(second, node, edit->b);
}

bool edit_target(struct second *second, const struct edit *edit)
{
    uint64_t link, mount, node;
    if (!pick_node(second, edit->a, is_magic, &link)
        || !find_target(second, edit, &mount, &node))
        return false;
    put_fields(second->table.nodes + 12 * link, mount, node);
    return true;
}

bool edit_kind(struct second *second, const struct edit *edit)
{
    uint64_t node;
    return pick_node(second, edit->a, is_leaf_outside, &node)
           && set_leaf(second, node, edit, FILE_NODE + edit->value % 3);
}

/* A directory on which a mount may be put, by the table check, with nothing of the part
 * covered. */
static bool find_point(const struct second *second, uint64_t mount, uint64_t from,
                       uint64_t *point)
{
    const struct table *table = &second->table;
    uint64_t root = root_of(table, mount);
    for (uint64_t i = 0; i < table->node_count; i++) {
        *point = (from + i) % table->node_count;
        if (is_directory(second, *point) && *point != root && is_under(table, *point, root)
            && !second->part->is_in[mount * NODES + *point])
            return true;
    }
    return false;
}

bool edit_mount(struct second *second, const struct edit *edit)
{
    uint64_t mount, node;
    if (!pick(second, second->table.mount_count, edit->a, is_on_nothing, &mount))
        return false;
    uint8_t *record = second->table.mounts + 8 * mount;
    uint64_t parent = edit->value / 2 % mount;
    if (edit->value % 2 == 0) {
        if (!pick_node(second, edit->b, is_directory, &node))
            return false;
        put_number(record, node, 2);
        return true;
    }
    if (!find_point(second, parent, edit->b, &node))
        return false;
    put_number(record + 2, parent, 2);
    put_number(record + 4, node, 2);
    return true;
}

/* A directory that the handle's is under, so many steps above it, or the top. */
static uint64_t above_handle(const struct second *second, uint64_t steps)
{
    uint64_t node = second->part->node;
    while (steps-- > 0 && parent_of(&second->table, node) != node)
        node = parent_of(&second->table, node);
    return node;
}

static bool set_root(struct second *second, const struct edit *edit, uint64_t mount)
{
    uint64_t node = above_handle(second, edit->a % 8);
    if (mount != second->part->mount && !pick_node(second, edit->a, is_directory, &node))
        return false;
    put_number(second->table.mounts + 8 * mount, node, 2);
    if (mount == 0)
        put_number(second->table.mounts + 4, node, 2);
    return true;
}

bool edit_root(struct second *second, const struct edit *edit)
{
    return set_root(second, edit, 0);
}

bool edit_handle_root(struct second *second, const struct edit *edit)
{
    return set_root(second, edit, second->part->mount);
}

/* Leads all names of a directory's entries that are a node's elsewhere. */
static bool unname(struct second *second, uint64_t directory, uint64_t node)
{
    uint64_t first = first_of(&second->table, directory), leaf;
    for (uint64_t i = 0; i < count_of(&second->table, directory); i++) {
        uint8_t *entry = second->table.entries + 8 * (first + i);
        if (number_at(entry + 6, 2) != node)
            continue;
        if (second->part->has_names[directory] || !pick_node(second, i, is_leaf, &leaf))
            return false;
        put_number(entry + 6, leaf, 2);
    }
    return true;
}

bool edit_parent(struct second *second, const struct edit *edit)
{
    struct table *table = &second->table;
    uint64_t node = second->part->node, parent;
    if (edit->value % 3 == 1)
        node = root_of(table, edit->a % table->mount_count);
    if (edit->value % 3 == 2 && !pick_node(second, edit->a, is_directory, &node))
        return false;
    uint64_t old = parent_of(table, node);
    if (!pick(second, node + 1, edit->b, is_directory, &parent)
        || (old != node && !unname(second, old, node)))
        return false;
    put_number(table->nodes + 12 * node + 2, parent, 2);
    return true;
}

bool edit_add_node(struct second *second, const struct edit *edit)
{
    uint64_t node = second->table.node_count, parent = node;
    if (node == NODES || !grow(second, second->table.mounts, 12, NODE_FIELD, 1))
        return false;
    uint8_t *record = second->table.nodes + 12 * node;
    if (edit->value % 4 != 0)
        return set_leaf(second, node, edit, FILE_NODE + edit->value % 4 - 1);
    put_number(record, DIRECTORY, 2);
    pick_node(second, edit->b, is_directory, &parent);
    put_number(record + 2, parent, 2);
    put_fields(record, second->table.entry_count, 0);
    return true;
}

bool edit_drop_node(struct second *second, const struct edit *edit)
{
    (void)edit;
    if (second->table.node_count == 1)
        return false;
    drop(second, second->table.mounts - 12, 12, NODE_FIELD);
    return true;
}

bool edit_add_mount(struct second *second, const struct edit *edit)
{
    uint64_t mount = second->table.mount_count, root, point;
    if (mount == MOUNTS
        || !pick_node(second, edit->a, is_directory, &root)
        || !find_point(second, edit->value % mount, edit->b, &point)
        || !grow(second, second->table.entries, 8, MOUNT_FIELD, 1))
        return false;
    uint8_t *record = second->table.mounts + 8 * mount;
    put_number(record, root, 2);
    put_number(record + 2, edit->value % mount, 2);
    put_number(record + 4, point, 2);
    return true;
}

bool edit_drop_mount(struct second *second, const struct edit *edit)
{
    uint64_t last = second->table.mount_count - 1;
    (void)edit;
    if (last == second->part->mount || !is_on_nothing(second, last))
        return false;
    drop(second, second->table.entries - 8, 8, MOUNT_FIELD);
    return true;
}
