/*
 * The bench tree, a small table image:
 *
 *   mount 0                          mount 1, on (0,7)
 *   0 /                              8 /
 *   `-- 1 lab                        `-- 9 run
 *       |-- 2 cal
 *       |   |-- 3 tare
 *       |   |-- 4 up -> ../..
 *       |   |-- 5 abs -> /lab/cal/tare
 *       |   |-- 6 loop -> loop
 *       |   |-- 10 fd, a magic link to (0,3)
 *       |   `-- 11 t -> tare/
 *       `-- 7 pool
 *
 * Written by tests/cases/write.
 */
#ifndef BENCH_TREE_H
#define BENCH_TREE_H

#include <stdint.h>

/* clang-format off */
static const uint8_t bench_tree[] = {
    'T', 'O', 'C', '1',
    /* Counts of nodes, mounts and entries, zero; lengths of the text and of all. */
    12, 0, 2, 0, 10, 0, 0, 0,
    56, 0, 0, 0, 60, 1, 0, 0,
    /* Nodes: kind, parent, first, count. */
    1, 0, 0, 0, 0, 0, 0, 0, 1, 0, 0, 0,   /* 0 top: directory, parent 0 */
    1, 0, 0, 0, 1, 0, 0, 0, 2, 0, 0, 0,   /* 1 "lab": directory, parent 0 */
    1, 0, 1, 0, 3, 0, 0, 0, 6, 0, 0, 0,   /* 2 "cal": directory, parent 1 */
    2, 0, 0, 0, 0, 0, 0, 0, 0, 0, 0, 0,   /* 3 "tare": file */
    3, 0, 0, 0, 10, 0, 0, 0, 5, 0, 0, 0,  /* 4 "up": link to ../.. */
    3, 0, 0, 0, 17, 0, 0, 0, 13, 0, 0, 0, /* 5 "abs": link to /lab/cal/tare */
    3, 0, 0, 0, 33, 0, 0, 0, 4, 0, 0, 0,  /* 6 "loop": link to loop */
    1, 0, 1, 0, 9, 0, 0, 0, 0, 0, 0, 0,   /* 7 "pool": directory, parent 1 */
    1, 0, 8, 0, 9, 0, 0, 0, 1, 0, 0, 0,   /* 8 second top: directory, parent 8 */
    2, 0, 0, 0, 0, 0, 0, 0, 0, 0, 0, 0,   /* 9 "run": file */
    4, 0, 0, 0, 0, 0, 0, 0, 3, 0, 0, 0,   /* 10 "fd": magic link to (0,3) */
    3, 0, 0, 0, 50, 0, 0, 0, 5, 0, 0, 0,  /* 11 "t": link to tare/ */
    /* Mounts: root, parent mount, mount point, zero. */
    0, 0, 0, 0, 0, 0, 0, 0, /* 0: root 0 */
    8, 0, 0, 0, 7, 0, 0, 0, /* 1: root 8, on (0,7) */
    /* Entries: place and length of the name, node. */
    0, 0, 0, 0, 3, 0, 1, 0,   /* 0: "lab" in 0 */
    3, 0, 0, 0, 3, 0, 2, 0,   /* 1: "cal" in 1 */
    41, 0, 0, 0, 4, 0, 7, 0,  /* 2: "pool" in 1 */
    30, 0, 0, 0, 3, 0, 5, 0,  /* 3: "abs" in 2 */
    48, 0, 0, 0, 2, 0, 10, 0, /* 4: "fd" in 2 */
    37, 0, 0, 0, 4, 0, 6, 0,  /* 5: "loop" in 2 */
    55, 0, 0, 0, 1, 0, 11, 0, /* 6: "t" in 2 */
    6, 0, 0, 0, 4, 0, 3, 0,   /* 7: "tare" in 2 */
    15, 0, 0, 0, 2, 0, 4, 0,  /* 8: "up" in 2 */
    45, 0, 0, 0, 3, 0, 9, 0,  /* 9: "run" in 8 */
    /* Text. */
    'l', 'a', 'b',
    'c', 'a', 'l',
    't', 'a', 'r', 'e',
    '.', '.', '/', '.', '.',
    'u', 'p',
    '/', 'l', 'a', 'b', '/', 'c', 'a', 'l', '/', 't', 'a', 'r', 'e',
    'a', 'b', 's',
    'l', 'o', 'o', 'p',
    'l', 'o', 'o', 'p',
    'p', 'o', 'o', 'l',
    'r', 'u', 'n',
    'f', 'd',
    't', 'a', 'r', 'e', '/',
    't',
};
/* clang-format on */

#endif
