/* Builds a table from records of its own and resolves a path in it. */

#include <inttypes.h>
#include <stdbool.h>
#include <stdint.h>
#include <stdio.h>
#include <string.h>

#include "ventolaire.h"

/* A directory that names another, "lab", and a link, "t"; in "lab" stands a file, "tare".
 * All names, and the body of the link, are parts of one text. */
static const uint8_t text[] = {'l', 'a', 'b', '/', 't', 'a', 'r', 'e'};

static uint8_t nodes[4 * 12], entries[3 * 8];
static const uint8_t mounts[8] = {0}; /* mount 0, whose root and point is node 0 */

static void put(uint8_t *to, uint32_t number, int width)
{
    for (int i = 0; i < width; i++)
        to[i] = (uint8_t)(number >> (8 * i));
}

static void node(int number, uint32_t kind, uint32_t parent, uint32_t first, uint32_t count)
{
    uint8_t *record = nodes + 12 * number;
    put(record, kind, 2);
    put(record + 2, parent, 2);
    put(record + 4, first, 4);
    put(record + 8, count, 4);
}

static void entry(int number, uint32_t offset, uint32_t length, uint32_t named)
{
    uint8_t *record = entries + 8 * number;
    put(record, offset, 4);
    put(record + 4, length, 2);
    put(record + 6, named, 2);
}

static void describe(void)
{
    node(0, 1, 0, 0, 2); /* a directory: its entries are two, from 0 on */
    node(1, 1, 0, 2, 1); /* another, in the first */
    node(2, 2, 0, 0, 0); /* a file */
    node(3, 3, 0, 0, 8); /* a symbolic link to "lab/tare" */
    entry(0, 0, 3, 1);   /* "lab" */
    entry(1, 4, 1, 3);   /* "t" */
    entry(2, 4, 4, 2);   /* "tare" */
}

/* The bytes of the image, 0 if it is refused. Prints what is answered. */
static size_t build(const char *what, size_t text_len, uint8_t *buffer, size_t buffer_len)
{
    uint64_t out[VENTOLAIRE_BUILD_LEN];
    ventolaire_build(nodes, sizeof nodes, mounts, sizeof mounts, entries, sizeof entries,
                     text, text_len, buffer, buffer_len, out, VENTOLAIRE_BUILD_LEN);

    const uint64_t error = out[VENTOLAIRE_BUILD_ERRNO];
    const char *name = ventolaire_error_name(error);
    printf("%s", what);
    if (error != 0)
        printf(": %s (%" PRIu64 ")", name ? name : "unknown errno", error);
    if (error == VENTOLAIRE_EUCLEAN)
        printf("; rule %" PRIu64 ", record %" PRIu64 "\n",
               out[VENTOLAIRE_BUILD_RULE], out[VENTOLAIRE_BUILD_RECORD]);
    else
        printf("; bytes %" PRIu64 "%s", out[VENTOLAIRE_BUILD_BYTES], error ? "\n" : "");
    return error == 0 ? (size_t)out[VENTOLAIRE_BUILD_BYTES] : 0;
}

int main(void)
{
    static uint8_t image[VENTOLAIRE_IMAGE_MAX];
    describe();
    build("no room", sizeof text, NULL, 0); /* asks how long the image is */
    build("no last byte of text", sizeof text - 1, image, sizeof image);
    const size_t len = build("built", sizeof text, image, sizeof image);
    if (len == 0)
        return 1;
    /* Names first, in the order of the entries, then the body; nothing is shared. */
    printf(", text %.16s\n", (const char *)image + len - 16);

    /* What was built is accepted. */
    const char *path = "t";
    uint8_t how[VENTOLAIRE_HOW_SIZE];
    ventolaire_how(how, 0, 0);
    uint64_t out[VENTOLAIRE_ANSWER_LEN];
    ventolaire_resolve_accepted(image, len, 0, 0, false, (const uint8_t *)path, strlen(path),
                                how, sizeof how, out, VENTOLAIRE_ANSWER_LEN);
    printf("%s: (%" PRIu64 ",%" PRIu64 "); components %" PRIu64 ", links %" PRIu64 "\n",
           path, out[VENTOLAIRE_ANSWER_MOUNT], out[VENTOLAIRE_ANSWER_NODE],
           out[VENTOLAIRE_ANSWER_COMPONENTS], out[VENTOLAIRE_ANSWER_LINKS]);
    return out[VENTOLAIRE_ANSWER_ERRNO] != 0;
}
