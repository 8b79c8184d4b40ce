/* What the parts of the fuzz target use: the resolver's (fuzz.c), the descriptors'
 * (descriptors.c), that of lookups (lookup.c), that of builds (build.c) and that of what a
 * handle leads to (part.c). */
#ifndef FUZZ_H
#define FUZZ_H

#include <stdbool.h>
#include <stdint.h>
#include <stdlib.h>
#include <string.h>

#include "ventolaire.h"

#define require(holds, what) \
    do { \
        if (!(holds)) \
            fail(what); \
    } while (0)

void fail(const char *what);

/* Bytes to lend, with the page behind them out of bounds. */
struct fence {
    uint8_t *end;
};

struct fence make_fence(void);
uint8_t *place(struct fence fence, const uint8_t *bytes, size_t len);

/* What is lent to a call, and copies of it. */
struct lent {
    uint8_t *image, *path, *how;
    const uint8_t *image_before, *path_before, *how_before;
    size_t image_len, path_len, how_len;
};

void require_unchanged(const struct lent *lent);

/* An output with guard words behind the numbers offered. */
#define OUT_ROOM (VENTOLAIRE_REPLY_LEN + 4)

void prepare(uint64_t out[OUT_ROOM]);
void require_untouched(const uint64_t out[OUT_ROOM], size_t from);

/* A function of the library that answers with `len` numbers, and what it is asked about
 * besides what is lent: a handle, or a directory. */
struct question {
    size_t (*ask)(const struct lent *lent, const void *about, bool accepted,
                  uint64_t *out, size_t out_len);
    const void *about;
    size_t len;
};

/* Its answer, asked for with just enough room; once more with more room and, where the
 * table is accepted, without its check; and with too little room. */
void answer_to(struct question question, const struct lent *lent, bool accepted,
               size_t too_short, uint64_t answer[OUT_ROOM]);

uint64_t number_at(const uint8_t *bytes, size_t len);
void put_number(uint8_t *bytes, uint64_t number, size_t len);

/* Cuts up to `len` bytes off the front. */
const uint8_t *cut(const uint8_t **data, size_t *size, size_t *len);

/* What holds of all answers, the numbers of ventolaire_resolve's; and of the place
 * in one, over an accepted table. */
void require_answer(const uint64_t *answer);
void require_place(const uint64_t *answer, const struct lent *lent);

/* A handle as the caller gives it. */
struct handle {
    uint64_t mount, node;
    bool mark;
};

/* Asks ventolaire_resolve about a handle, or ventolaire_resolve_accepted. */
size_t resolve(const struct lent *lent, const void *about, bool accepted,
               uint64_t *out, size_t out_len);

/* Whether the table is accepted; the verdict may be counted as a kind of answer. */
bool check(const struct lent *lent, bool is_noted);

/* How many binary digits a number has. */
size_t digits(uint64_t number);

/* Counts a kind of answer as something that was reached. */
void note(size_t kind);
void note_answer(size_t kind, const uint64_t *answer);

/* Calls of an input on descriptors over the image of `lent`, with slots that these
 * numbers give, or that are started if there are none. Paths and open_hows are lent
 * by fences. */
struct script {
    const uint8_t *calls, *numbers;
    size_t calls_len, numbers_len, too_short;
    struct fence path, how;
    bool accepted;
    /* What a slot has for mount 0's root, without the mark and with it, if the table
     * is accepted. */
    uint64_t roots[2];
};

void run_script(struct script script, struct lent lent);

/* The lookup of the path's bytes in the directory that an input's first bytes tell. */
void run_lookup(const struct lent *lent, const uint8_t *head, bool accepted, size_t too_short);

/* A call over the image and over a second one, made of it by what stands behind it in the
 * input, its tail. */
void run_part(const struct lent *lent, struct handle handle, bool accepted,
              const uint8_t *tail, size_t tail_len, size_t too_short);

/* The build of an image from the parts that follow an input's first bytes. */
void run_build(const uint8_t *head, const uint8_t *data, size_t size, size_t too_short);

#endif
