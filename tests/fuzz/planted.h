/* What planted.c uses of planted_part.c: the faults that part.c must see. */
#ifndef PLANTED_H
#define PLANTED_H

#include "ventolaire.h"

typedef size_t resolver(const uint8_t *, size_t, uint64_t, uint64_t, bool,
                        const uint8_t *, size_t, const uint8_t *, size_t, uint64_t *, size_t);
typedef size_t opener(const uint8_t *, size_t, ventolaire_descriptors *, uint64_t, bool,
                      const uint8_t *, size_t, const uint8_t *, size_t, uint64_t *, size_t);

/* What a resolver is asked. */
struct asked {
    const uint8_t *image;
    size_t image_len;
    uint64_t mount, node;
    bool mark;
    const uint8_t *path;
    size_t path_len;
    const uint8_t *how;
    size_t how_len;
};

size_t resolve_outside(resolver *real, struct asked asked, uint64_t *out, size_t out_len);

/* An open through a number, and what it has made of the slots. */
size_t open_outside(opener *real, struct asked asked, ventolaire_descriptors *table,
                    uint64_t number, uint64_t *out, size_t out_len);

/* Whether a mark that was set is not there after all. */
bool is_mark_lost(const uint8_t *image, size_t image_len);

#endif
