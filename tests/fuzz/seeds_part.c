/* Inputs of part.c: calls that stay at their handle, with edits of the image behind it. */

#include <stdio.h>
#include <string.h>

#include "../../examples/c/bench_tree.h"
#include "edits.h"
#include "seeds.h"
#include "ventolaire.h"

enum {
    NONE,
    LAB_RENAMED,
    LAB_ELSEWHERE,
    FD_TO_POOL,
    FD_TO_TOP,
    ENTRY_IN_TOP,
    ENTRY_IN_POOL,
    FILE_ADDED,
    DIRECTORY_ADDED,
    MOUNT_ADDED,
    CAL_ON_POOL,
    POOL_MOVED,
    POOL_DROPPED,
    RUN_A_LINK,
    ROOT_AT_HANDLE,
    ROOT_ELSEWHERE,
    HANDLE_TO_TOP,
    POOL_UNDER_TOP,
    TEXT_SHIFTED,
    NAME_MOVED,
    NAME_CHANGED,
    REFUSED
};

/* Edits of the bench tree: kind, value, A and B. */
static const uint8_t edits[][EDIT_LEN] = {
    [LAB_RENAMED] = {EDIT_NAME, 'x', 0, 0, 0, 0},
    [LAB_ELSEWHERE] = {EDIT_LEAD, 3, 0, 0, 0, 0},
    [FD_TO_POOL] = {EDIT_TARGET, 1, 0, 0, 8, 0},
    [FD_TO_TOP] = {EDIT_TARGET, 0, 0, 0, 0, 0},
    [ENTRY_IN_TOP] = {EDIT_ADD_ENTRY, 0, 0, 0, 9, 0},
    [ENTRY_IN_POOL] = {EDIT_ADD_ENTRY, 240, 7, 0, 3, 0},
    [FILE_ADDED] = {EDIT_ADD_NODE, 1, 0, 0, 0, 0},
    [DIRECTORY_ADDED] = {EDIT_ADD_NODE, 0, 0, 0, 2, 0},
    [MOUNT_ADDED] = {EDIT_ADD_MOUNT, 0, 1, 0, 1, 0},
    [CAL_ON_POOL] = {EDIT_MOUNT, 0, 1, 0, 2, 0},
    [POOL_MOVED] = {EDIT_MOUNT, 1, 1, 0, 1, 0},
    [POOL_DROPPED] = {EDIT_DROP_MOUNT, 0, 0, 0, 0, 0},
    [RUN_A_LINK] = {EDIT_KIND, 1, 9, 0, 2, 0},
    [ROOT_AT_HANDLE] = {EDIT_ROOT, 0, 0, 0, 0, 0},
    [ROOT_ELSEWHERE] = {EDIT_ROOT, 0, 1, 0, 0, 0},
    [HANDLE_TO_TOP] = {EDIT_PARENT, 0, 0, 0, 0, 0},
    [POOL_UNDER_TOP] = {EDIT_PARENT, 1, 1, 0, 0, 0},
    [TEXT_SHIFTED] = {EDIT_SHIFT, 'x', 0, 0, 0, 0},
    [NAME_MOVED] = {EDIT_MOVE, 0, 1, 0, 0, 0},
    [NAME_CHANGED] = {EDIT_BYTE, 'd', 263 % 256, 263 / 256, 0, 0}, /* of "cal", inside */
    [REFUSED] = {EDIT_KEPT + EDIT_BYTE, 'X', 0, 0, 0, 0},
};

#define BENEATH VENTOLAIRE_RESOLVE_BENEATH
#define IN_ROOT VENTOLAIRE_RESOLVE_IN_ROOT

/* Byte 0 behind the image, and the edits that follow it. */
static const struct {
    uint8_t mount, node, mark;
    const char *path;
    uint8_t resolve, slots, edits[3];
} parts[] = {
    {0, 1, 0, "pool/../cal", BENEATH, 0, {FILE_ADDED, ENTRY_IN_TOP, NAME_MOVED}},
    {0, 1, 0, "cal/tare", BENEATH, 5, {TEXT_SHIFTED}},
    {0, 1, 0, "cal/up", BENEATH, 0, {LAB_RENAMED, FILE_ADDED}},
    {0, 1, 0, "/lab", BENEATH, 1, {LAB_RENAMED}},
    {0, 1, 0, "cal/abs", BENEATH, 0, {LAB_ELSEWHERE}},
    {0, 1, 0, "cal/fd", BENEATH, 0, {FD_TO_POOL}},
    {0, 1, 0, "pool/\xff\x01", BENEATH, 0, {ENTRY_IN_POOL}},
    {0, 2, 0, "..", BENEATH, 0, {CAL_ON_POOL}},
    {0, 2, 0, "..", BENEATH, 128, {HANDLE_TO_TOP}},
    {0, 2, 0, "tare", BENEATH, 128, {POOL_DROPPED, RUN_A_LINK, DIRECTORY_ADDED}},
    {0, 1, 0, "/", IN_ROOT, 0, {ENTRY_IN_TOP}},
    {0, 1, 0, "cal/abs", IN_ROOT, 0, {LAB_RENAMED}},
    {0, 1, 0, "cal/fd", IN_ROOT, 0, {FD_TO_TOP}},
    {0, 1, 0, "cal/up", IN_ROOT, 64, {ROOT_AT_HANDLE, POOL_UNDER_TOP}},
    {0, 2, 0, "..", IN_ROOT, 3, {POOL_MOVED}},
    {0, 2, 0, ".", IN_ROOT, 62, {MOUNT_ADDED}},
    {1, 8, 0, "/run", IN_ROOT, 2, {ROOT_ELSEWHERE}},
    {0, 1, 1, "/lab/cal", 0, 0, {LAB_RENAMED}},
    {0, 1, 1, "cal/abs", 0, 0, {LAB_RENAMED}},
    {0, 1, 1, "cal/up", 0, 0, {ENTRY_IN_TOP, ROOT_AT_HANDLE}},
    {0, 1, 1, "cal/fd", 0, 0, {FD_TO_POOL}},
    {0, 1, 0, "cal", BENEATH, 0, {NAME_CHANGED}},
    {0, 1, 0, "cal", BENEATH, 0, {REFUSED}},
    {0, 1, 0, "cal", BENEATH, 0, {NONE}},
    {0, 1, 0, "cal", 0, 0, {LAB_RENAMED}},
};

static bool write_part(const char *folder, size_t i)
{
    uint8_t how[VENTOLAIRE_HOW_SIZE], image[sizeof bench_tree + 1 + 3 * EDIT_LEN];
    size_t path_len = strlen(parts[i].path), len = sizeof bench_tree;
    uint8_t head[8] = {192 | parts[i].mark, parts[i].mount, parts[i].node, 0,
                       (uint8_t)path_len, 0, sizeof how, 0};
    char name[8];
    ventolaire_how(how, 0, parts[i].resolve);
    memcpy(image, bench_tree, len);
    image[len++] = parts[i].slots;
    for (size_t at = 0; at < 3 && parts[i].edits[at] != NONE; at++, len += EDIT_LEN)
        memcpy(image + len, edits[parts[i].edits[at]], EDIT_LEN);
    snprintf(name, sizeof name, "%u", (unsigned)i);
    return write_input(folder, "part", name, head, (struct bytes){parts[i].path, path_len},
                       (struct bytes){how, sizeof how}, (struct bytes){image, len});
}

bool write_parts(const char *folder)
{
    for (size_t i = 0; i < sizeof parts / sizeof *parts; i++)
        if (!write_part(folder, i))
            return false;
    return true;
}

/* Whether an input is a call with BENEATH, IN_ROOT or the mark. */
static bool stays(const uint8_t *input, size_t size)
{
    if (size < 8 || input[0] >= 32)
        return false;
    size_t resolve = 8 + (input[4] | (size_t)input[5] << 8) + 16;
    bool has_resolve = (input[6] | input[7] << 8) >= VENTOLAIRE_HOW_SIZE && resolve < size;
    return (input[0] & 1) != 0 || (has_resolve && (input[resolve] & (BENEATH | IN_ROOT)) != 0);
}

bool write_again(const char *folder, const char *name, size_t i)
{
    static uint8_t input[1 << 16];
    const char *slash = strrchr(name, '/');
    FILE *file = fopen(name, "rb");
    if (file == NULL) {
        perror(name);
        return false;
    }
    size_t size = fread(input, 1, sizeof input - 1 - 3 * EDIT_LEN, file);
    fclose(file);
    if (!stays(input, size))
        return true;
    input[0] |= 192;
    input[size++] = (uint8_t)i;
    /* Each has three kinds of edits that follow each other in edits.h. */
    for (size_t at = 0; at < 3; at++, size += EDIT_LEN) {
        const uint8_t edit[EDIT_LEN] = {(uint8_t)((i + at) % EDIT_KINDS), (uint8_t)(i * 37),
                                        (uint8_t)(i / 2), 0, (uint8_t)(i / 3)};
        memcpy(input + size, edit, EDIT_LEN);
    }
    const struct bytes rest = {input + 8, size - 8}, nothing = {"", 0};
    return write_input(folder, "part", slash == NULL ? name : slash + 1, input,
                       rest, nothing, nothing);
}
