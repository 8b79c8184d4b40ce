/*
 * Makes the second image of a part's input (part.c): a copy of the first, with edits that
 * mostly leave the handle's part and the table check's verdict alone. edits.h has them all.
 *
 * An edit that the table check refuses is taken back, unless it is to be kept; then all but
 * the first two kinds are passed over, since they want an accepted image. Nothing else is
 * made sure of: what an edit did to the part is worked out by part.c, from the bytes.
 */

#include "second.h"

bool grow(struct second *second, uint8_t *at, size_t len, size_t field, uint64_t more)
{
    if (second->len + len > VENTOLAIRE_IMAGE_MAX)
        return false;
    memmove(at + len, at, (size_t)(second->image + second->len - at));
    memset(at, 0, len);
    second->len += len;
    put_number(second->image + field, number_at(second->image + field, 4) + more, 4);
    put_number(second->image + 16, second->len, 4);
    second->table = table_of(second->image);
    return true;
}

void drop(struct second *second, uint8_t *at, size_t len, size_t field)
{
    second->len -= len;
    memmove(at, at + len, (size_t)(second->image + second->len - at));
    put_number(second->image + field, number_at(second->image + field, 2) - 1, 2);
    put_number(second->image + 16, second->len, 4);
    second->table = table_of(second->image);
}

bool append(struct second *second, const void *bytes, size_t len, uint64_t *offset)
{
    *offset = second->table.text_len;
    if (!grow(second, second->image + second->len, len, TEXT_FIELD, len))
        return false;
    memcpy(second->table.text + *offset, bytes, len);
    return true;
}

bool pick(const struct second *second, uint64_t count, uint64_t from, suits *does,
          uint64_t *picked)
{
    for (uint64_t i = 0; i < count; i++) {
        *picked = (from + i) % count;
        if (does(second, *picked))
            return true;
    }
    return false;
}

bool pick_node(const struct second *second, uint64_t from, suits *does, uint64_t *picked)
{
    return pick(second, second->table.node_count, from, does, picked);
}

bool is_directory(const struct second *second, uint64_t node)
{
    return kind_of(&second->table, node) == DIRECTORY;
}

bool is_leaf(const struct second *second, uint64_t node)
{
    return !is_directory(second, node);
}

bool is_symbolic(const struct second *second, uint64_t node)
{
    return kind_of(&second->table, node) == SYMBOLIC;
}

void put_fields(uint8_t *node, uint64_t first, uint64_t count)
{
    put_number(node + 4, first, 4);
    put_number(node + 8, count, 4);
}

static bool edit_byte(struct second *second, const struct edit *edit)
{
    second->image[edit->a % second->len] = edit->value;
    return true;
}

static bool edit_number(struct second *second, const struct edit *edit)
{
    put_number(second->image + 2 * (edit->a % (second->len / 2)), edit->b, 2);
    return true;
}

static make *const makes[EDIT_KINDS] = {
    [EDIT_BYTE] = edit_byte,
    [EDIT_NUMBER] = edit_number,
    [EDIT_TARGET] = edit_target,
    [EDIT_NAME] = edit_name,
    [EDIT_LEAD] = edit_lead,
    [EDIT_BODY] = edit_body,
    [EDIT_KIND] = edit_kind,
    [EDIT_MOUNT] = edit_mount,
    [EDIT_ROOT] = edit_root,
    [EDIT_HANDLE_ROOT] = edit_handle_root,
    [EDIT_PARENT] = edit_parent,
    [EDIT_ADD_ENTRY] = edit_add_entry,
    [EDIT_DROP_ENTRY] = edit_drop_entry,
    [EDIT_ADD_NODE] = edit_add_node,
    [EDIT_DROP_NODE] = edit_drop_node,
    [EDIT_ADD_MOUNT] = edit_add_mount,
    [EDIT_DROP_MOUNT] = edit_drop_mount,
    [EDIT_SHIFT] = edit_shift,
    [EDIT_MOVE] = edit_move,
};

static bool is_accepted(const struct second *second)
{
    uint64_t checked[VENTOLAIRE_CHECK_LEN];
    ventolaire_check(second->image, second->len, checked, VENTOLAIRE_CHECK_LEN);
    return checked[VENTOLAIRE_CHECK_RULE] == 0;
}

/* Makes one edit, or none; whether the image is another now. */
static bool try(struct second *second, const struct edit *edit, bool is_kept)
{
    static uint8_t before[VENTOLAIRE_IMAGE_MAX];
    size_t len = second->len;
    memcpy(before, second->image, len);
    bool is_made = makes[edit->kind](second, edit) && (is_kept || is_accepted(second));
    if (!is_made) {
        memcpy(second->image, before, len);
        second->len = len;
    }
    second->table = table_of(second->image);
    return second->len != len || memcmp(before, second->image, len) != 0;
}

size_t make_second(const struct part *part, const uint8_t *image, size_t image_len,
                   const uint8_t *edits, size_t edits_len, uint8_t *image2, uint64_t *took)
{
    memcpy(image2, image, image_len);
    struct second second = {part, image2, image_len, table_of(image2)};
    bool sound = true;
    *took = 0;
    for (int i = 0; i < EDITS && edits_len >= EDIT_LEN; i++) {
        struct edit edit = {edits[0] % EDIT_KEPT % EDIT_KINDS, edits[1],
                            number_at(edits + 2, 2), number_at(edits + 4, 2)};
        bool is_kept = edits[0] >= EDIT_KEPT;
        edits += EDIT_LEN;
        edits_len -= EDIT_LEN;
        if (!sound && edit.kind > EDIT_NUMBER)
            continue;
        if (try(&second, &edit, is_kept || !sound))
            *took |= UINT64_C(1) << edit.kind;
        sound = sound && (!is_kept || is_accepted(&second));
    }
    return second.len;
}
