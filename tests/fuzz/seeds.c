/* Writes inputs to start fuzzing from into a folder: the bench tree's image with
 * paths of different kinds, with slots of any numbers and calls on them, and with
 * names that are looked up, also in a larger directory; its parts, to be built; and itself
 * with edits outside of what a handle leads to (seeds_part.c). See fuzz.c, descriptors.c,
 * lookup.c, build.c and part.c for what an input looks like. */

#include <stdio.h>
#include <string.h>

#include "../../examples/c/bench_tree.h"
#include "seeds.h"
#include "ventolaire.h"

static const struct {
    const char *path;
    uint32_t flags;
    uint8_t resolve;
} seeds[] = {
    {"cal/tare", 0, 0},
    {"pool/run", 0, VENTOLAIRE_RESOLVE_NO_XDEV},
    {"pool/../cal/.", VENTOLAIRE_O_DIRECTORY, VENTOLAIRE_RESOLVE_BENEATH},
    {"cal/abs", 0, VENTOLAIRE_RESOLVE_IN_ROOT},
    {"/lab/cal/up/lab//cal/t", VENTOLAIRE_O_CLOEXEC, 0},
    {"cal/loop", 0, 0},
    {"cal/fd", VENTOLAIRE_O_PATH | VENTOLAIRE_O_NOFOLLOW, VENTOLAIRE_RESOLVE_NO_MAGICLINKS},
    {"cal/fd", 0, VENTOLAIRE_RESOLVE_NO_SYMLINKS},
    {"../lab/cal/fd/..", 0, 0x80},
};

/* dup, set_mark and close of 0, 1 and 63, and opens of "." by 0, 62 and 2^32, the
 * first two of which ask for the mark. */
static const uint8_t calls[] = {
    1, 0, 3, 0, 2, 0, 1, 1, 3, 1, 2, 1, 1, 63, 3, 63, 2, 63,
    4, 0, 1, 0, 24, 0, '.', 0, 0, 1, 0, 0, 0, 0, 0, 0, 0, 0, 0, 0, 0, 0, 0, 0, 0, 0, 0, 0, 0, 0, 0,
    4, 62, 1, 0, 0, 0, '.',
    0, 128, 1, 0, 0, 0, '.'};

/* Slots that are open: each slot, every second or third, with this number. */
static const struct {
    uint64_t number;
    unsigned step;
} filled[] = {
    {UINT64_MAX, 1},
    {1, 2},
    {UINT64_C(1) << 63, 1},
    {0x10001, 3},
};

/* Names that are looked up in the bench tree, and the bytes 1 to 3 of their inputs. */
static const struct {
    const char *name;
    uint8_t directory[3];
} names[] = {
    {"loop", {0, 2, 0}},
    {"tar", {0, 2, 0}},
    {"tares", {0, 2, 0}},
    {"pool", {0, 1, 0}},
    {"run", {0, 7, 0}},
    {"cal", {0, 3, 0}},
    {"cal", {0, 12, 0}},
    {"cal", {1, 1, 0}},
    {"cal", {128, 1, 0}},
};

/* Names of the directory below: so many times `a`, then so many times `b`. */
static const struct {
    size_t first, second;
} runs[] = {
    {14, 1},
    {7, 9},
    {7, 18},
    {0, 17},
    {0, 18},
};

/* A table whose top has 255 names for one file, all of them in one text: up to 14
 * times `a`, then 1 to 17 times `b`. Those with more `a` come first. */
#define NAMES 255
#define TEXT (14 + 17)

static uint8_t many[20 + 2 * 12 + 8 + 8 * NAMES + TEXT];

static void fill_many(void)
{
    static const uint8_t head[20] = {
        'T', 'O', 'C', '1', 2, 0, 1, 0, NAMES, 0, 0, 0, TEXT, 0, 0, 0,
        sizeof many & 255, sizeof many >> 8, 0, 0};
    static const uint8_t nodes[24] = {1, 0, 0, 0, 0, 0, 0, 0, NAMES, 0, 0, 0, 2};
    uint8_t *entry = many + 20 + 24 + 8;
    memcpy(many, head, sizeof head);
    memcpy(many + 20, nodes, sizeof nodes);
    for (int at = 0; at < 15; at++)
        for (int b = 1; b <= 17; b++, entry += 8) {
            entry[0] = (uint8_t)at;
            entry[4] = (uint8_t)(14 - at + b);
            entry[6] = 1;
        }
    memset(entry, 'a', 14);
    memset(entry + 14, 'b', 17);
}

/* Builds of the bench tree: the bytes 0 and 1 of their inputs. A room of 0 to 3 numbers
 * is tried, and a buffer that is just enough, one byte too short, longer, and empty. */
static const uint8_t builds[][2] = {
    {128, 192},
    {128 | 1 << 2, 191},
    {128 | 2 << 2 | 2, 255},
    {128 | 3 << 2 | 1, 0},
};

static const struct bytes nothing = {"", 0};
static const struct bytes bench = {bench_tree, sizeof bench_tree};

static bool put(FILE *file, struct bytes part)
{
    return fwrite(part.bytes, 1, part.len, file) == part.len;
}

bool write_input(const char *folder, const char *kind, const char *name, const uint8_t head[8],
                 struct bytes first, struct bytes second, struct bytes image)
{
    char path[4096];
    snprintf(path, sizeof path, "%s/%s-%s", folder, kind, name);
    FILE *file = fopen(path, "wb");
    if (file == NULL
        || !put(file, (struct bytes){head, 8})
        || !put(file, first)
        || !put(file, second)
        || !put(file, image)
        || fclose(file) != 0) {
        perror(path);
        return false;
    }
    return true;
}

static bool write_numbered(const char *folder, const char *kind, size_t i, const uint8_t head[8],
                           struct bytes first, struct bytes second, struct bytes image)
{
    char name[8];
    snprintf(name, sizeof name, "%u", (unsigned)i);
    return write_input(folder, kind, name, head, first, second, image);
}

static bool write_call(const char *folder, size_t i)
{
    size_t path_len = strlen(seeds[i].path);
    /* Every second header is mended; the handle is (0,1). */
    uint8_t head[8] = {(uint8_t)(i % 2 * 2), 0, 1, 0, (uint8_t)path_len, 0,
                       VENTOLAIRE_HOW_SIZE, 0};
    uint8_t how[VENTOLAIRE_HOW_SIZE];
    ventolaire_how(how, seeds[i].flags, seeds[i].resolve);
    return write_numbered(folder, "seed", i, head, (struct bytes){seeds[i].path, path_len},
                          (struct bytes){how, sizeof how}, bench);
}

static bool write_slots(const char *folder, size_t i)
{
    uint8_t numbers[8 * VENTOLAIRE_DESCRIPTORS] = {0};
    uint8_t head[8] = {32, 0, 0, 0, sizeof calls, 0, 0, sizeof numbers >> 8};
    for (size_t slot = 0; slot < VENTOLAIRE_DESCRIPTORS; slot += filled[i].step)
        for (size_t at = 0; at < 8; at++)
            numbers[8 * slot + at] = (uint8_t)(filled[i].number >> 8 * at);
    return write_numbered(folder, "slots", i, head, (struct bytes){calls, sizeof calls},
                          (struct bytes){numbers, sizeof numbers}, bench);
}

static bool write_lookup(const char *folder, size_t i)
{
    const uint8_t *directory = names[i].directory;
    size_t len = strlen(names[i].name);
    /* A room of 0 to 3 numbers is tried too. */
    uint8_t head[8] = {(uint8_t)(64 | i % 4 << 2), directory[0], directory[1], directory[2],
                       (uint8_t)len};
    return write_numbered(folder, "lookup", i, head, (struct bytes){names[i].name, len},
                          nothing, bench);
}

static bool write_run(const char *folder, size_t i)
{
    uint8_t name[64];
    size_t len = runs[i].first + runs[i].second;
    uint8_t head[8] = {64, 0, 0, 0, (uint8_t)len};
    memset(name, 'a', runs[i].first);
    memset(name + runs[i].first, 'b', runs[i].second);
    return write_numbered(folder, "run", i, head, (struct bytes){name, len}, nothing,
                          (struct bytes){many, sizeof many});
}

static bool write_build(const char *folder, size_t i)
{
    /* The lengths of 12 nodes, 2 mounts and 10 entries. */
    uint8_t head[8] = {builds[i][0], builds[i][1], 12 * 12, 0, 2 * 8, 0, 10 * 8};
    return write_numbered(folder, "build", i, head, nothing, nothing,
                          (struct bytes){bench_tree + 20, sizeof bench_tree - 20});
}

/* A build with as many mounts as are copied in larger steps, and with a body of 7 bytes. No
 * directory is named. */
#define POINTS 20

static bool write_mounts(const char *folder)
{
    static uint8_t nodes[12 * (POINTS + 2)], mounts[8 * (POINTS + 1)];
    static const char body[] = "../../.";
    const uint8_t head[8] = {128, 192, sizeof nodes & 255, sizeof nodes >> 8, sizeof mounts};
    for (uint8_t i = 0; i <= POINTS; i++) {
        nodes[12 * i] = 1;
        mounts[8 * i + 4] = i;
    }
    nodes[12 * (POINTS + 1)] = 3;
    nodes[12 * (POINTS + 1) + 8] = sizeof body - 1;
    return write_input(folder, "build", "mounts", head, (struct bytes){nodes, sizeof nodes},
                       (struct bytes){mounts, sizeof mounts},
                       (struct bytes){body, sizeof body - 1});
}

static bool write_all(const char *folder)
{
    for (size_t i = 0; i < sizeof seeds / sizeof *seeds; i++)
        if (!write_call(folder, i))
            return false;
    for (size_t i = 0; i < sizeof filled / sizeof *filled; i++)
        if (!write_slots(folder, i))
            return false;
    for (size_t i = 0; i < sizeof names / sizeof *names; i++)
        if (!write_lookup(folder, i))
            return false;
    fill_many();
    for (size_t i = 0; i < sizeof runs / sizeof *runs; i++)
        if (!write_run(folder, i))
            return false;
    for (size_t i = 0; i < sizeof builds / sizeof *builds; i++)
        if (!write_build(folder, i))
            return false;
    return write_mounts(folder) && write_parts(folder);
}

int main(int argc, char **argv)
{
    if (argc == 2 && strcmp(argv[1], "--help") == 0) {
        printf("seeds FOLDER: writes inputs to start fuzzing from into a folder\n"
               "seeds FOLDER INPUT..: writes those of the inputs that are calls with BENEATH,\n"
               "IN_ROOT or the mark there once more, with edits of the image\n");
        return 0;
    }
    if (argc < 2) {
        fprintf(stderr, "usage: seeds FOLDER [INPUT..]\n");
        return 2;
    }
    for (int i = 2; i < argc; i++)
        if (!write_again(argv[1], argv[i], (size_t)i))
            return 1;
    return argc > 2 || write_all(argv[1]) ? 0 : 1;
}
