/* What the files of edits use: the second image as it is made (edits.c), the edits of nodes
 * and mounts (edits_nodes.c) and those of names and bodies (edits_texts.c). */
#ifndef SECOND_H
#define SECOND_H

#include "edits.h"
#include "part.h"

struct second {
    const struct part *part;
    uint8_t *image;
    size_t len;
    struct table table;
};

struct edit {
    unsigned kind;
    uint8_t value;
    uint64_t a, b;
};

/* Where the header counts nodes, mounts, entries and the bytes of the text. */
enum { NODE_FIELD = 4,
       MOUNT_FIELD = 6,
       ENTRY_FIELD = 8,
       TEXT_FIELD = 12 };

/* Makes room for bytes, zeros at first, and has the header count so many more; takes the
 * bytes of one record away; puts bytes behind the text, and tells where. */
bool grow(struct second *second, uint8_t *at, size_t len, size_t field, uint64_t more);
void drop(struct second *second, uint8_t *at, size_t len, size_t field);
bool append(struct second *second, const void *bytes, size_t len, uint64_t *offset);

typedef bool suits(const struct second *second, uint64_t number);

/* The first of so many numbers, or of the nodes', that suits, from one on and going round. */
bool pick(const struct second *second, uint64_t count, uint64_t from, suits *does,
          uint64_t *picked);
bool pick_node(const struct second *second, uint64_t from, suits *does, uint64_t *picked);

suits is_directory, is_leaf, is_symbolic;

/* Writes a node's first and count. */
void put_fields(uint8_t *node, uint64_t first, uint64_t count);

/* Gives a link one of a few bodies. */
bool set_body(struct second *second, uint64_t node, uint64_t which);

/* An edit; false if there is nothing that it can be made of. */
typedef bool make(struct second *second, const struct edit *edit);

make edit_target, edit_kind, edit_mount, edit_root, edit_handle_root, edit_parent,
    edit_add_node, edit_drop_node, edit_add_mount, edit_drop_mount;
make edit_name, edit_lead, edit_body, edit_add_entry, edit_drop_entry, edit_shift, edit_move;

#endif
