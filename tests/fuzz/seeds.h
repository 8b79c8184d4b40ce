/* What the files of the program `seeds` use: see seeds.c. */
#ifndef SEEDS_H
#define SEEDS_H

#include <stdbool.h>
#include <stddef.h>
#include <stdint.h>

struct bytes {
    const void *bytes;
    size_t len;
};

/* Writes an input of three parts, KIND-NAME, into a folder. */
bool write_input(const char *folder, const char *kind, const char *name, const uint8_t head[8],
                 struct bytes first, struct bytes second, struct bytes image);

/* Writes the inputs of part.c over the bench tree; and one of an input in a file, if that is
 * a call that stays at its handle. */
bool write_parts(const char *folder);
bool write_again(const char *folder, const char *name, size_t i);

#endif
