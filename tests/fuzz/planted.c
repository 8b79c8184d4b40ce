/*
 * Faults between the fuzz target and the library, one for each number FAULT, put
 * there by the linker's --wrap: the target must fail with each of them, and must
 * not with FAULT 0. The script `faults` builds and runs them.
 */

#include <string.h>

#include "planted.h"

typedef ventolaire_descriptors slots;

size_t __real_ventolaire_start(const uint8_t *, size_t, slots *, uint64_t *, size_t);
size_t __real_ventolaire_dup(slots *, uint64_t, uint64_t *, size_t);
size_t __real_ventolaire_close(slots *, uint64_t, uint64_t *, size_t);
size_t __real_ventolaire_set_mark(const uint8_t *, size_t, slots *, uint64_t, uint64_t *, size_t);
size_t __real_ventolaire_lookup(const uint8_t *, size_t, uint64_t, const uint8_t *, size_t,
                                uint64_t *, size_t);
size_t __real_ventolaire_lookup_accepted(const uint8_t *, size_t, uint64_t,
                                         const uint8_t *, size_t, uint64_t *, size_t);

opener __real_ventolaire_open, __real_ventolaire_open_accepted;
resolver __real_ventolaire_resolve, __real_ventolaire_resolve_accepted;

static bool is_done(size_t written, const uint64_t *out)
{
    return written != 0 && out[VENTOLAIRE_REPLY_ERRNO] == 0;
}

size_t __wrap_ventolaire_start(const uint8_t *image, size_t image_len, slots *table,
                               uint64_t *out, size_t out_len)
{
    size_t written = __real_ventolaire_start(image, image_len, table, out, out_len);
    if (FAULT == 1 && written != 0) /* descriptor 5 is open */
        table->slots[5] = 1;
    if (FAULT == 2 && written != 0) /* descriptor 0 is closed */
        table->slots[0] = 0;
    return written;
}

size_t __wrap_ventolaire_dup(slots *table, uint64_t number, uint64_t *out, size_t out_len)
{
    if (FAULT == 3) /* the number's low bits alone */
        number %= VENTOLAIRE_DESCRIPTORS;
    size_t written = __real_ventolaire_dup(table, number, out, out_len);
    bool done = is_done(written, out);
    if (FAULT == 4 && done) /* another handle */
        table->slots[out[VENTOLAIRE_REPLY_DESCRIPTOR]] ^= 1 << 20;
    if (FAULT == 5 && written != 0 && !done && number < VENTOLAIRE_DESCRIPTORS)
        table->slots[number] = 0; /* a refusal closes */
    if (FAULT == 6 && done) {
        /* the highest that is free */
        size_t given = out[VENTOLAIRE_REPLY_DESCRIPTOR], highest = VENTOLAIRE_DESCRIPTORS - 1;
        uint64_t handle = table->slots[given];
        table->slots[given] = 0;
        while (table->slots[highest] != 0)
            highest--;
        table->slots[highest] = handle;
        out[VENTOLAIRE_REPLY_DESCRIPTOR] = highest;
    }
    return written;
}

size_t __wrap_ventolaire_close(slots *table, uint64_t number, uint64_t *out, size_t out_len)
{
    slots before = *table;
    size_t written = __real_ventolaire_close(table, number, out, out_len);
    if (FAULT == 7) /* nothing is closed */
        *table = before;
    return written;
}

size_t __wrap_ventolaire_set_mark(const uint8_t *image, size_t image_len, slots *table,
                                  uint64_t number, uint64_t *out, size_t out_len)
{
    static unsigned marked;
    slots before = *table;
    size_t written = __real_ventolaire_set_mark(image, image_len, table, number, out, out_len);
    bool done = is_done(written, out);
    if (FAULT == 8 && done) /* the mark is shared */
        for (size_t i = 0; i < VENTOLAIRE_DESCRIPTORS; i++)
            if (table->slots[i] != 0)
                table->slots[i] = table->slots[number];
    if (FAULT == 9 && done && marked++ % 2 == 1) /* not the same each time */
        table->slots[number] ^= 2;
    if (is_mark_lost(image, image_len))
        *table = before;
    return written;
}

size_t __wrap_ventolaire_open(const uint8_t *image, size_t image_len, slots *table,
                              uint64_t number, bool mark, const uint8_t *path, size_t path_len,
                              const uint8_t *how, size_t how_len, uint64_t *out, size_t out_len)
{
    bool asked = FAULT == 10 ? false : mark; /* the mark is not asked for */
    struct asked all = {image, image_len, 0, 0, asked, path, path_len, how, how_len};
    size_t written = open_outside(__real_ventolaire_open, all, table, number, out, out_len);
    if (FAULT == 14 && is_done(written, out)) /* what is opened is what was opened through */
        table->slots[out[VENTOLAIRE_REPLY_DESCRIPTOR]] = table->slots[number];
    bool is_full = true;
    for (size_t i = 0; i < VENTOLAIRE_DESCRIPTORS; i++)
        is_full = is_full && table->slots[i] != 0;
    if (FAULT == 11 && written != 0 && is_full && mark) /* EMFILE before all else */
        memcpy(out, (uint64_t[VENTOLAIRE_REPLY_LEN]){VENTOLAIRE_EMFILE, VENTOLAIRE_NO_DETAIL},
               sizeof(uint64_t[VENTOLAIRE_REPLY_LEN]));
    if (FAULT == 12 && written != 0 && out[VENTOLAIRE_REPLY_ERRNO] == VENTOLAIRE_EMFILE)
        out[VENTOLAIRE_REPLY_COMPONENTS] = 1; /* EMFILE with counts */
    return written;
}

size_t __wrap_ventolaire_open_accepted(const uint8_t *image, size_t image_len, slots *table,
                                       uint64_t number, bool mark,
                                       const uint8_t *path, size_t path_len,
                                       const uint8_t *how, size_t how_len,
                                       uint64_t *out, size_t out_len)
{
    struct asked all = {image, image_len, 0, 0, mark, path, path_len, how, how_len};
    size_t written = open_outside(__real_ventolaire_open_accepted, all, table, number,
                                  out, out_len);
    if (FAULT == 13 && is_done(written, out)) /* another handle than with the check */
        table->slots[out[VENTOLAIRE_REPLY_DESCRIPTOR]] ^= 4;
    if (FAULT == 14 && is_done(written, out)) /* in both */
        table->slots[out[VENTOLAIRE_REPLY_DESCRIPTOR]] = table->slots[number];
    return written;
}

/* The first entry of a directory, which was found to be one. */
static uint64_t first_of(const uint8_t *image, uint64_t node)
{
    const uint8_t *first = image + 20 + 12 * node + 4;
    return first[0] | (uint64_t)first[1] << 8;
}

/* What is asked of both functions that look a name up. */
static void change_asked(uint64_t *node, const uint8_t *name, size_t *name_len)
{
    if (FAULT == 15) /* the directory's low 16 bits alone */
        *node &= 0xFFFF;
    if (FAULT == 16) /* the low 32 */
        *node &= 0xFFFFFFFF;
    if (FAULT == 17 && *name_len > 0 && memchr(name, 0, *name_len) != NULL)
        *name_len = strlen((const char *)name); /* a zero byte ends it */
    if (FAULT == 18 && *name_len > 255)         /* the name's first 255 bytes alone */
        *name_len = 255;
    if (FAULT == 19) /* the low 8 bits of its length */
        *name_len &= 255;
    if (FAULT == 20) /* a byte behind the name is read */
        (void)*(const volatile uint8_t *)(name + *name_len);
    if (FAULT == 21 && *name_len > 0) /* the name is changed */
        ((uint8_t *)(uintptr_t)name)[*name_len - 1] ^= 1;
}

/* What both of them answer. */
static void change_answer(const uint8_t *image, uint64_t node, uint64_t *out, size_t out_len)
{
    uint64_t error = out[VENTOLAIRE_LOOKUP_ERRNO];
    bool is_found = error == 0, is_absent = error == VENTOLAIRE_ENOENT;
    if (FAULT == 22 && is_found) /* the entry by its place in the directory */
        out[VENTOLAIRE_LOOKUP_ENTRY] -= first_of(image, node);
    if (FAULT == 23 && is_found) /* the node in place of the entry */
        out[VENTOLAIRE_LOOKUP_ENTRY] = out[VENTOLAIRE_LOOKUP_NODE];
    if (FAULT == 24 && is_found) /* the equal name is not counted */
        out[VENTOLAIRE_LOOKUP_COMPARED]--;
    if (FAULT == 25 && is_absent) /* only an equal name is counted */
        out[VENTOLAIRE_LOOKUP_COMPARED] = 0;
    if (FAULT == 26 && is_absent && out[VENTOLAIRE_LOOKUP_COMPARED] > 2) /* one name too many */
        out[VENTOLAIRE_LOOKUP_COMPARED]++;
    if (FAULT == 27 && is_absent) /* a refusal with an entry */
        out[VENTOLAIRE_LOOKUP_ENTRY] = 1;
    if (FAULT == 28 && error == VENTOLAIRE_ENOTDIR) /* a count without a search */
        out[VENTOLAIRE_LOOKUP_COMPARED] = 1;
    if (FAULT == 29 && error == VENTOLAIRE_ENOTDIR) /* another error */
        out[VENTOLAIRE_LOOKUP_ERRNO] = VENTOLAIRE_EBADF;
    if (FAULT == 30 && error == VENTOLAIRE_EUCLEAN && node > 4096) /* EBADF before all else */
        out[VENTOLAIRE_LOOKUP_ERRNO] = VENTOLAIRE_EBADF;
    if (FAULT == 31 && is_found && out[VENTOLAIRE_LOOKUP_ENTRY] == first_of(image, node)) {
        /* the first name is not found */
        out[VENTOLAIRE_LOOKUP_ERRNO] = VENTOLAIRE_ENOENT;
        out[VENTOLAIRE_LOOKUP_ENTRY] = out[VENTOLAIRE_LOOKUP_NODE] = 0;
    }
    if (FAULT == 32 && out_len > VENTOLAIRE_LOOKUP_LEN) /* a number behind the answer */
        out[VENTOLAIRE_LOOKUP_LEN] = 0;
}

size_t __wrap_ventolaire_lookup(const uint8_t *image, size_t image_len, uint64_t node,
                                const uint8_t *name, size_t name_len,
                                uint64_t *out, size_t out_len)
{
    change_asked(&node, name, &name_len);
    size_t written = __real_ventolaire_lookup(image, image_len, node, name, name_len,
                                              out, out_len);
    if (written != 0)
        change_answer(image, node, out, out_len);
    if (FAULT == 33 && written == 0 && out_len > 0) /* written into too little room */
        out[0] = 0;
    return written;
}

size_t __wrap_ventolaire_lookup_accepted(const uint8_t *image, size_t image_len, uint64_t node,
                                         const uint8_t *name, size_t name_len,
                                         uint64_t *out, size_t out_len)
{
    change_asked(&node, name, &name_len);
    size_t written = __real_ventolaire_lookup_accepted(image, image_len, node, name, name_len,
                                                       out, out_len);
    if (written != 0)
        change_answer(image, node, out, out_len);
    if (FAULT == 34 && written != 0) /* no count without the check */
        out[VENTOLAIRE_LOOKUP_COMPARED] = 0;
    return written;
}

/* What refuses a handle that is checked whatever the path, over an accepted table. */
static uint64_t refused_by(const uint8_t *image, uint64_t node)
{
    bool in_range = node < (image[4] | (uint64_t)image[5] << 8);
    if (FAULT == 35 && !in_range) /* by its range */
        return VENTOLAIRE_EBADF;
    if (FAULT == 36 && in_range && image[20 + 12 * node] != 1) /* by its kind */
        return VENTOLAIRE_ENOTDIR;
    return 0;
}

static size_t resolve_by(resolver *real, const uint8_t *image, size_t image_len,
                         uint64_t mount, uint64_t node, bool mark,
                         const uint8_t *path, size_t path_len,
                         const uint8_t *how, size_t how_len, uint64_t *out, size_t out_len)
{
    size_t passed = 0;
    if (FAULT == 37 && path_len > 1 && path[0] == '/') /* an absolute path begins at the handle */
        passed = 1;
    struct asked asked = {image, image_len, mount, node, mark, path + passed, path_len - passed,
                          how, how_len};
    size_t written = resolve_outside(real, asked, out, out_len);
    bool accepted = written != 0 && out[VENTOLAIRE_ANSWER_ERRNO] != VENTOLAIRE_EUCLEAN;
    uint64_t error = accepted ? refused_by(image, node) : 0;
    if (error != 0)
        memcpy(out, (uint64_t[VENTOLAIRE_ANSWER_LEN]){error, VENTOLAIRE_NO_DETAIL},
               sizeof(uint64_t[VENTOLAIRE_ANSWER_LEN]));
    return written;
}

size_t __wrap_ventolaire_resolve(const uint8_t *image, size_t image_len,
                                 uint64_t mount, uint64_t node, bool mark,
                                 const uint8_t *path, size_t path_len,
                                 const uint8_t *how, size_t how_len,
                                 uint64_t *out, size_t out_len)
{
    return resolve_by(__real_ventolaire_resolve, image, image_len, mount, node, mark,
                      path, path_len, how, how_len, out, out_len);
}

size_t __wrap_ventolaire_resolve_accepted(const uint8_t *image, size_t image_len,
                                          uint64_t mount, uint64_t node, bool mark,
                                          const uint8_t *path, size_t path_len,
                                          const uint8_t *how, size_t how_len,
                                          uint64_t *out, size_t out_len)
{
    return resolve_by(__real_ventolaire_resolve_accepted, image, image_len, mount, node, mark,
                      path, path_len, how, how_len, out, out_len);
}

/* The parts of a build, and its buffer. */
struct parts {
    const uint8_t *nodes, *mounts, *entries, *text;
    size_t nodes_len, mounts_len, entries_len, text_len;
    uint8_t *buffer;
    size_t buffer_len;
};

size_t __real_ventolaire_build(const uint8_t *, size_t, const uint8_t *, size_t,
                               const uint8_t *, size_t, const uint8_t *, size_t,
                               uint8_t *, size_t, uint64_t *, size_t);

static uint64_t number_at(const uint8_t *bytes, size_t len)
{
    uint64_t number = 0;
    while (len-- > 0)
        number = number << 8 | bytes[len];
    return number;
}

static void put_number(uint8_t *bytes, uint64_t number, size_t len)
{
    for (; len-- > 0; number >>= 8)
        *bytes++ = (uint8_t)number;
}

/* What is asked of a build. */
static void change_parts(struct parts *parts)
{
    static uint8_t changed[1 << 16];
    if (FAULT == 38) { /* a record cut short is no fault */
        parts->nodes_len -= parts->nodes_len % 12;
        parts->mounts_len -= parts->mounts_len % 8;
        parts->entries_len -= parts->entries_len % 8;
    }
    if (FAULT == 39 && parts->entries_len < 8) /* one alone is none */
        parts->entries_len = 0;
    if (FAULT == 40 && parts->text_len > 0) /* the text's last byte is not seen */
        parts->text_len--;
    if (FAULT == 41) /* a byte behind the text is read */
        (void)*(const volatile uint8_t *)(parts->text + parts->text_len);
    if (FAULT == 42) /* a byte behind the entries is read */
        (void)*(const volatile uint8_t *)(parts->entries + parts->entries_len);
    if (FAULT == 43 && parts->text_len > 0) /* the text is changed */
        ((uint8_t *)(uintptr_t)parts->text)[parts->text_len - 1] ^= 1;
    if (FAULT == 44 && parts->mounts_len > 0) /* the mounts are changed */
        ((uint8_t *)(uintptr_t)parts->mounts)[parts->mounts_len - 1] ^= 1;
    if (FAULT == 45 && parts->nodes_len >= 12 && parts->nodes_len <= sizeof changed) {
        /* what a directory has as its first is written, not checked */
        memcpy(changed, parts->nodes, parts->nodes_len);
        uint64_t sum = 0;
        for (size_t at = 0; at + 12 <= parts->nodes_len; at += 12)
            if (number_at(changed + at, 2) == 1) {
                put_number(changed + at + 4, sum, 4);
                sum += number_at(changed + at + 8, 4);
            }
        parts->nodes = changed;
    }
    if (FAULT == 46 && parts->entries_len <= sizeof changed) {
        /* an offset's low 16 bits alone */
        memcpy(changed, parts->entries, parts->entries_len);
        for (size_t at = 0; at + 8 <= parts->entries_len; at += 8)
            put_number(changed + at + 2, 0, 2);
        parts->entries = changed;
    }
}

/* What stands where in a written image. */
struct written {
    uint8_t *nodes, *entries, *text;
    size_t nodes_len, entries_len, text_len;
};

static struct written written_in(const struct parts *parts)
{
    uint8_t *image = parts->buffer;
    struct written in = {.nodes = image + 20};
    in.nodes_len = 12 * (size_t)number_at(image + 4, 2);
    in.entries = in.nodes + in.nodes_len + 8 * (size_t)number_at(image + 6, 2);
    in.entries_len = 8 * (size_t)number_at(image + 8, 2);
    in.text = in.entries + in.entries_len;
    in.text_len = (size_t)number_at(image + 12, 4);
    return in;
}

/* The image that a build has written. */
static void change_image(const struct parts *parts, size_t len)
{
    struct written in = written_in(parts);
    if (FAULT == 47 && len < parts->buffer_len) /* a byte behind it */
        parts->buffer[len] = 0;
    if (FAULT == 48 && in.entries_len > 0) /* a name's offset is the caller's */
        memcpy(in.entries, parts->entries, 4);
    if (FAULT == 49) /* a body's offset is the caller's */
        for (size_t at = 0; at < in.nodes_len; at += 12)
            if (number_at(in.nodes + at, 2) == 3)
                memcpy(in.nodes + at + 4, parts->nodes + at + 4, 4);
    if (FAULT == 50) /* the target mount of a magic link is written anew */
        for (size_t at = 0; at < in.nodes_len; at += 12)
            if (number_at(in.nodes + at, 2) == 4)
                put_number(in.nodes + at + 4, 0, 4);
    if (FAULT == 51 && in.text_len > 0) /* the last byte of the text is left out */
        in.text[in.text_len - 1] = 0;
    if (FAULT == 52) /* the text's length is the caller's */
        put_number(parts->buffer + 12, parts->text_len, 4);
    if (FAULT == 53) /* the whole length is not written */
        put_number(parts->buffer + 16, 0, 4);
    if (FAULT == 54 && in.entries_len >= 16) {
        /* two names change places in the text */
        uint64_t first = number_at(in.entries + 4, 2), second = number_at(in.entries + 12, 2);
        memcpy(in.text, parts->text + number_at(parts->entries + 8, 4), (size_t)second);
        memcpy(in.text + second, parts->text + number_at(parts->entries, 4), (size_t)first);
        put_number(in.entries, second, 4);
        put_number(in.entries + 8, 0, 4);
    }
    if (FAULT == 55) /* nothing is written */
        memset(parts->buffer, 0, len);
}

/* What a build answers. */
static void change_verdict(const struct parts *parts, uint64_t *out, size_t out_len)
{
    uint64_t error = out[VENTOLAIRE_BUILD_ERRNO];
    bool is_refused = error == VENTOLAIRE_EUCLEAN, is_short = error == VENTOLAIRE_ERANGE;
    if (FAULT == 56 && is_refused && parts->buffer_len < 40) { /* ERANGE before the rules */
        const uint64_t other[VENTOLAIRE_BUILD_LEN] = {VENTOLAIRE_ERANGE, 0, 0, 40};
        memcpy(out, other, sizeof other);
    }
    if (FAULT == 57 && is_short) /* ERANGE without the length */
        out[VENTOLAIRE_BUILD_BYTES] = 0;
    if (FAULT == 58 && is_short) /* the room in place of the length */
        out[VENTOLAIRE_BUILD_BYTES] = parts->buffer_len;
    if (FAULT == 59 && error == 0 && out[VENTOLAIRE_BUILD_BYTES] == parts->buffer_len)
        out[VENTOLAIRE_BUILD_ERRNO] = VENTOLAIRE_ERANGE; /* just enough is too short */
    if (FAULT == 60 && is_refused && out[VENTOLAIRE_BUILD_RULE] == 1)
        out[VENTOLAIRE_BUILD_RULE] = 3; /* rule 3 before rule 1 */
    if (FAULT == 61 && is_refused && out[VENTOLAIRE_BUILD_RULE] == 4)
        out[VENTOLAIRE_BUILD_RECORD]++; /* the record behind */
    if (FAULT == 62 && is_refused && out[VENTOLAIRE_BUILD_RULE] == 6)
        out[VENTOLAIRE_BUILD_RECORD] = 0; /* no record with rule 6 */
    if (FAULT == 63 && is_refused)        /* EUCLEAN with a length */
        out[VENTOLAIRE_BUILD_BYTES] = 40;
    if (FAULT == 64 && is_refused && parts->buffer_len > 0) /* a refusal changes the buffer */
        parts->buffer[parts->buffer_len - 1] ^= 1;
    if (FAULT == 65 && is_short && parts->buffer_len > 0) /* so does ERANGE */
        parts->buffer[0] = 'T';
    if (FAULT == 66 && error == 0) /* a byte before the buffer */
        parts->buffer[-1] ^= 1;
    if (FAULT == 67 && out_len > VENTOLAIRE_BUILD_LEN) /* a number behind the answer */
        out[VENTOLAIRE_BUILD_LEN] = 0;
    if (FAULT == 68 && error == 0) /* a length with a rest */
        out[VENTOLAIRE_BUILD_BYTES]++;
}

size_t __wrap_ventolaire_build(const uint8_t *nodes, size_t nodes_len,
                               const uint8_t *mounts, size_t mounts_len,
                               const uint8_t *entries, size_t entries_len,
                               const uint8_t *text, size_t text_len,
                               uint8_t *buffer, size_t buffer_len,
                               uint64_t *out, size_t out_len)
{
    struct parts parts = {nodes, mounts, entries, text, nodes_len, mounts_len,
                          entries_len, text_len, buffer, buffer_len};
    change_parts(&parts);
    size_t numbers = __real_ventolaire_build(
        parts.nodes, parts.nodes_len, parts.mounts, parts.mounts_len,
        parts.entries, parts.entries_len, parts.text, parts.text_len,
        buffer, buffer_len, out, out_len);
    if (numbers != 0 && out[VENTOLAIRE_BUILD_ERRNO] == 0)
        change_image(&parts, (size_t)out[VENTOLAIRE_BUILD_BYTES]);
    if (numbers != 0)
        change_verdict(&parts, out, out_len);
    if (FAULT == 69 && numbers == 0 && out_len > 0) /* written into too little room */
        out[0] = 0;
    if (FAULT == 70 && numbers == 0 && buffer_len > 0) /* the image without an answer */
        buffer[0] = 'T';
    return numbers;
}
