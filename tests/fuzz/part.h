/* What part.c and edits.c use: the records of an image, and the part of it that a handle
 * leads to. */
#ifndef PART_H
#define PART_H

#include "fuzz.h"

/* The records of an accepted image. */
struct table {
    uint8_t *nodes, *mounts, *entries, *text;
    uint64_t node_count, mount_count, entry_count, text_len;
};

struct table table_of(uint8_t *image);

enum node_kind { DIRECTORY = 1,
                 FILE_NODE,
                 SYMBOLIC,
                 MAGIC };

static inline uint64_t kind_of(const struct table *table, uint64_t node)
{
    return number_at(table->nodes + 12 * node, 2);
}

static inline uint64_t parent_of(const struct table *table, uint64_t node)
{
    return number_at(table->nodes + 12 * node + 2, 2);
}

/* A directory's first entry, where a body begins, or a target's mount. */
static inline uint64_t first_of(const struct table *table, uint64_t node)
{
    return number_at(table->nodes + 12 * node + 4, 4);
}

static inline uint64_t count_of(const struct table *table, uint64_t node)
{
    return number_at(table->nodes + 12 * node + 8, 4);
}

static inline uint64_t root_of(const struct table *table, uint64_t mount)
{
    return number_at(table->mounts + 8 * mount, 2);
}

/* Whether a directory is another, or below it. */
bool is_under(const struct table *table, uint64_t node, uint64_t above);

/* Numbers of nodes and mounts are below these in an accepted image. */
#define NODES 4096
#define MOUNTS 256

/* The places that are reachable from a handle: a list of them, as MOUNT * NODES + NODE, and
 * marks for each place and node. All marks are cleared by way of the lists. */
struct part {
    struct table table;
    uint64_t mount, node;
    size_t count;
    uint32_t places[MOUNTS * NODES];
    bool is_in[MOUNTS * NODES];
    uint8_t cover[MOUNTS * NODES]; /* the mount on a place, 0 for none */
    bool has_node[NODES];          /* through some mount */
    bool has_names[NODES];         /* the same, and uncovered there */
};

/* Makes a second image of the one that a part is of, by the edits of an input. Returns
 * its length, and tells which kinds of edits took, a bit for each. */
size_t make_second(const struct part *part, const uint8_t *image, size_t image_len,
                   const uint8_t *edits, size_t edits_len, uint8_t *second, uint64_t *took);

#endif
