/*
 * Ventolaire: resolves a path below a handle, after Linux's openat2, in a file
 * tree that is lent as one table image, and writes such images. For C99 and C++.
 *
 * Common to all functions:
 *
 * - A pair of a pointer and a length lends that many bytes. A null pointer is
 *   allowed where its length is 0. What is lent is only read, but for `out`, a
 *   table of descriptors and the buffer of ventolaire_build, which must not
 *   overlap each other or what is lent.
 * - Answers are numbers written from out[0] on; out_len says how many numbers
 *   `out` has room for. With too little room nothing is written and the return
 *   value is 0. Otherwise the whole answer is written, the return value is how
 *   many numbers that are, and what lies behind them is not touched.
 * - Later versions only append numbers to an answer: none changes its place or
 *   its meaning. An array with room for the numbers that an answer has today
 *   (the ..._LEN below) keeps getting these.
 * - Any bytes and any numbers may be passed: what is wrong with them is said by
 *   the answer. Only the functions named ..._accepted ask for an accepted image.
 * - Nothing is allocated, and no state is kept between calls but in the caller's
 *   own descriptors.
 *
 * The library needs no other library: cc program.c -L FOLDER -lventolaire
 * A freestanding program must bring memset, and no other function. The headers
 * below are a freestanding compiler's own. The table check takes up to 20 KiB of
 * stack, and on x86-64 the code uses SSE2 registers.
 */
#ifndef VENTOLAIRE_H
#define VENTOLAIRE_H

#include <stdbool.h>
#include <stddef.h>
#include <stdint.h>

#ifdef __cplusplus
extern "C" {
#endif

/*
 * The version of this header and its library: three numbers, and one made of
 * them that grows with every version, to be compared.
 */
#define VENTOLAIRE_VERSION_MAJOR 0
#define VENTOLAIRE_VERSION_MINOR 7
#define VENTOLAIRE_VERSION_PATCH 0
#define VENTOLAIRE_VERSION 7000 /* major * 1,000,000 + minor * 1,000 + patch */

/*
 * How to resolve: the bytes of an open_how, little-endian.
 *
 *   bytes  0 to  7   flags, VENTOLAIRE_O_...
 *   bytes  8 to 15   mode and padding, all zero
 *   bytes 16 to 23   resolve, VENTOLAIRE_RESOLVE_...
 *
 * More bytes may follow, up to 4,096 in all, if they are zero.
 */
#define VENTOLAIRE_HOW_SIZE 24

/* Flags. Any other bit is refused and named. */
#define VENTOLAIRE_O_DIRECTORY UINT64_C(0x10000) /* find directories only */
#define VENTOLAIRE_O_NOFOLLOW UINT64_C(0x20000)  /* do not follow a last link */
#define VENTOLAIRE_O_CLOEXEC UINT64_C(0x80000)   /* known, without effect */
#define VENTOLAIRE_O_PATH UINT64_C(0x200000)     /* a link itself may be found */

/* Resolve. Any other bit is refused and named. BENEATH and IN_ROOT exclude
 * each other. */
#define VENTOLAIRE_RESOLVE_NO_XDEV UINT64_C(0x01)       /* stay in the mount */
#define VENTOLAIRE_RESOLVE_NO_MAGICLINKS UINT64_C(0x02) /* follow no magic link */
#define VENTOLAIRE_RESOLVE_NO_SYMLINKS UINT64_C(0x04)   /* follow no link at all */
#define VENTOLAIRE_RESOLVE_BENEATH UINT64_C(0x08)       /* never leave the handle */
#define VENTOLAIRE_RESOLVE_IN_ROOT UINT64_C(0x10)       /* take the handle as "/" */

/* Fills in the bytes of an open_how. */
static inline void ventolaire_how(uint8_t how[VENTOLAIRE_HOW_SIZE],
                                  uint64_t flags, uint64_t resolve)
{
    int i;
    for (i = 0; i < 8; i++) {
        how[i] = (uint8_t)(flags >> (8 * i));
        how[8 + i] = 0;
        how[16 + i] = (uint8_t)(resolve >> (8 * i));
    }
}

/* Why a call is refused: Linux's numbers, whatever the host's are. */
#define VENTOLAIRE_ENOENT 2        /* empty path, no such name, or mark broken */
#define VENTOLAIRE_E2BIG 7         /* open_how too long, or something behind it */
#define VENTOLAIRE_EBADF 9         /* no such place, node or open descriptor */
#define VENTOLAIRE_EXDEV 18        /* leaves mount or handle; magic link in IN_ROOT */
#define VENTOLAIRE_ENOTDIR 20      /* not a directory where one is needed */
#define VENTOLAIRE_EINVAL 22       /* open_how not valid, or zero byte in the path */
#define VENTOLAIRE_EMFILE 24       /* all 64 descriptors are open */
#define VENTOLAIRE_ENOTTY 25       /* the mark is set on no directory */
#define VENTOLAIRE_ERANGE 34       /* the buffer for an image is too short */
#define VENTOLAIRE_ENAMETOOLONG 36 /* path over 4,095 bytes, or name over 255 */
#define VENTOLAIRE_ELOOP 40        /* over 40 links, or a link not to be followed */
#define VENTOLAIRE_EUCLEAN 117     /* the table check fails */

/* The name of such a number, "EXDEV" for 18. Null for a number that has none
 * here: 0, with which a path is found, and what a later library may add. */
static inline const char *ventolaire_error_name(uint64_t error)
{
    switch (error) {
    case VENTOLAIRE_ENOENT: return "ENOENT";
    case VENTOLAIRE_E2BIG: return "E2BIG";
    case VENTOLAIRE_EBADF: return "EBADF";
    case VENTOLAIRE_EXDEV: return "EXDEV";
    case VENTOLAIRE_ENOTDIR: return "ENOTDIR";
    case VENTOLAIRE_EINVAL: return "EINVAL";
    case VENTOLAIRE_EMFILE: return "EMFILE";
    case VENTOLAIRE_ENOTTY: return "ENOTTY";
    case VENTOLAIRE_ERANGE: return "ERANGE";
    case VENTOLAIRE_ENAMETOOLONG: return "ENAMETOOLONG";
    case VENTOLAIRE_ELOOP: return "ELOOP";
    case VENTOLAIRE_EUCLEAN: return "EUCLEAN";
    default: return NULL;
    }
}

/*
 * Checks a table image.
 *
 * The answer is { 0, 0 } for a table that is accepted. For one that is not, it
 * is the lowest rule broken, 1 to 7, and the lowest record that breaks it (of
 * the nodes for rules 4 and 7, of the entries for 5, of the mounts for 6; 0 for
 * rules 1 to 3). Rule 4 at the record behind the last node says that the
 * directories' counts do not sum to the count of entries.
 */
enum {
    VENTOLAIRE_CHECK_RULE,
    VENTOLAIRE_CHECK_RECORD,
    VENTOLAIRE_CHECK_LEN /* how many numbers the answer has: 2 */
};

size_t ventolaire_check(const uint8_t *image, size_t image_len,
                        uint64_t *out, size_t out_len);

/*
 * Resolves `path` from the directory `node` as seen in `mount`, the handle. A
 * marked handle (mark) is never left, whatever `how` says.
 *
 * The handle is checked before the walk: EBADF if there is no such mount or node;
 * ENOTDIR if the node is not a directory; EBADF if it is not under the root of the
 * mount, or if another mount covers it there. It is not checked where it has no
 * use: for a path that starts with "/", without the mark and without
 * VENTOLAIRE_RESOLVE_IN_ROOT. Then any numbers do; VENTOLAIRE_RESOLVE_BENEATH
 * refuses such a path with EXDEV, whatever they are.
 *
 * With VENTOLAIRE_RESOLVE_BENEATH, with VENTOLAIRE_RESOLVE_IN_ROOT and with the
 * mark, the answer depends on the handle's own part of the table alone: on what
 * can be reached from it down names and into mounts. No link leads out of it,
 * and what lies outside makes no difference, to error and counts neither.
 *
 * The image is checked first, at every call.
 */
enum {
    VENTOLAIRE_ANSWER_ERRNO,      /* 0: found */
    VENTOLAIRE_ANSWER_DETAIL,     /* an unknown bit, or VENTOLAIRE_NO_DETAIL */
    VENTOLAIRE_ANSWER_MOUNT,      /* the place found, (mount, node); */
    VENTOLAIRE_ANSWER_NODE,       /* 0 and 0 with a refusal */
    VENTOLAIRE_ANSWER_COMPONENTS, /* components taken, at most 83,968 */
    VENTOLAIRE_ANSWER_LINKS,      /* links followed, at most 40 */
    VENTOLAIRE_ANSWER_LEN         /* how many numbers the answer has: 6 */
};

/* The detail of every answer but the refusal (EINVAL) of an unknown bit. That
 * one names the lowest: b for bit b of flags, VENTOLAIRE_RESOLVE_DETAIL + b for
 * bit b of resolve. */
#define VENTOLAIRE_NO_DETAIL 255
#define VENTOLAIRE_RESOLVE_DETAIL 64

size_t ventolaire_resolve(const uint8_t *image, size_t image_len,
                          uint64_t mount, uint64_t node, bool mark,
                          const uint8_t *path, size_t path_len,
                          const uint8_t *how, size_t how_len,
                          uint64_t *out, size_t out_len);

/*
 * Answers as ventolaire_resolve does, without the table check. It wants an image
 * that was accepted: ventolaire_check has answered { 0, 0 } for these image_len
 * bytes, and not one of them has changed since. With any other image the
 * behaviour is undefined: memory outside of it may be read, and the call may not
 * end. Handle, path and open_how may be anything, as for ventolaire_resolve.
 *
 * The check reads the whole image, a walk only what lies on its way: who
 * resolves many paths in one table checks it once and then calls this.
 */
size_t ventolaire_resolve_accepted(const uint8_t *image, size_t image_len,
                                   uint64_t mount, uint64_t node, bool mark,
                                   const uint8_t *path, size_t path_len,
                                   const uint8_t *how, size_t how_len,
                                   uint64_t *out, size_t out_len);

/*
 * Looks `name` up in the directory `node`, whose names are sorted, by halving:
 * the middle of the names left is compared (of two, the earlier); if it is not
 * equal, the side that can hold the name is left. The answer tells how many
 * names were compared, found or not: at most as many as the directory's count of
 * entries has binary digits, so at most 12 in a directory of 3,000.
 *
 * Refused in this order: EUCLEAN if the table check fails; EBADF if there is no
 * such node; ENOTDIR if it is not a directory; ENOENT if the directory has no
 * entry of that name. Only ENOENT has compared any. The name is any bytes: what
 * can be no entry's name, as an empty one, "..", or one with a "/", is absent.
 * Nothing is followed, and no mount is entered: the node is the entry's own.
 *
 * The image is checked first, at every call.
 */
enum {
    VENTOLAIRE_LOOKUP_ERRNO,    /* 0: found */
    VENTOLAIRE_LOOKUP_ENTRY,    /* the entry, and the node that it names; */
    VENTOLAIRE_LOOKUP_NODE,     /* 0 and 0 with a refusal */
    VENTOLAIRE_LOOKUP_COMPARED, /* names compared, at most 13 */
    VENTOLAIRE_LOOKUP_LEN       /* how many numbers the answer has: 4 */
};

size_t ventolaire_lookup(const uint8_t *image, size_t image_len, uint64_t node,
                         const uint8_t *name, size_t name_len,
                         uint64_t *out, size_t out_len);

/* The same for an image that was accepted, as ventolaire_resolve_accepted wants
 * it, without the check. */
size_t ventolaire_lookup_accepted(const uint8_t *image, size_t image_len,
                                  uint64_t node,
                                  const uint8_t *name, size_t name_len,
                                  uint64_t *out, size_t out_len);

/*
 * Descriptors: numbers that a script holds in place of handles, 0 to 63. Each is
 * closed, or is a handle that keeps its mark: a path that is opened through a
 * marked one never leads out of it, and no call but its close takes the mark away.
 * What is opened is marked only if that is asked.
 *
 * The table of them is the caller's, 64 numbers that ventolaire_start fills in.
 * They may be copied, and kept as long as the image they were started with; other
 * numbers than the library's own stand for some descriptors too. A call that is
 * refused leaves all of them as they were.
 */
#define VENTOLAIRE_DESCRIPTORS 64

typedef struct ventolaire_descriptors {
    uint64_t slots[VENTOLAIRE_DESCRIPTORS]; /* 0: closed */
} ventolaire_descriptors;

/*
 * Descriptors as a script starts with them: 0 is open on the root of mount 0,
 * without the mark, and all others are closed. With an image that is not accepted
 * all are closed. The answer is that of ventolaire_check.
 */
size_t ventolaire_start(const uint8_t *image, size_t image_len,
                        ventolaire_descriptors *descriptors,
                        uint64_t *out, size_t out_len);

/* The same for an image that was accepted, as ventolaire_resolve_accepted wants
 * it, without the check. */
void ventolaire_start_accepted(const uint8_t *image, size_t image_len,
                               ventolaire_descriptors *descriptors);

/*
 * What the calls below answer: the numbers of ventolaire_resolve's answer, then
 * the descriptor given. What a call does not find or give is 0: only an open has
 * a place and counts, only an open and a dup give a descriptor. A refusal that is
 * not the resolver's has VENTOLAIRE_NO_DETAIL and both counts 0.
 */
enum {
    VENTOLAIRE_REPLY_ERRNO, /* 0: done */
    VENTOLAIRE_REPLY_DETAIL,
    VENTOLAIRE_REPLY_MOUNT,
    VENTOLAIRE_REPLY_NODE,
    VENTOLAIRE_REPLY_COMPONENTS,
    VENTOLAIRE_REPLY_LINKS,
    VENTOLAIRE_REPLY_DESCRIPTOR, /* the lowest that was free */
    VENTOLAIRE_REPLY_LEN         /* how many numbers the answer has: 7 */
};

/*
 * Opens `path` from the descriptor `number`, as ventolaire_resolve does from its
 * handle. The place found gets the lowest descriptor that is free, with the mark
 * if `mark` asks for it and without it else, whatever the mark of `number`.
 *
 * Refused in this order: EBADF for a number that is not open, whatever the path;
 * EINVAL if the mark is asked without VENTOLAIRE_O_DIRECTORY; what
 * ventolaire_resolve refuses; EMFILE if all descriptors are open. So a number that
 * is open on a file, or on a covered directory without the mark, opens absolute
 * paths alone.
 */
size_t ventolaire_open(const uint8_t *image, size_t image_len,
                       ventolaire_descriptors *descriptors,
                       uint64_t number, bool mark,
                       const uint8_t *path, size_t path_len,
                       const uint8_t *how, size_t how_len,
                       uint64_t *out, size_t out_len);

/* The same for an image that was accepted, as ventolaire_resolve_accepted wants
 * it, without the check. */
size_t ventolaire_open_accepted(const uint8_t *image, size_t image_len,
                                ventolaire_descriptors *descriptors,
                                uint64_t number, bool mark,
                                const uint8_t *path, size_t path_len,
                                const uint8_t *how, size_t how_len,
                                uint64_t *out, size_t out_len);

/*
 * Gives the lowest descriptor that is free the handle of `number`, its mark
 * included. A mark that either gets later is its own. EBADF, then EMFILE.
 */
size_t ventolaire_dup(ventolaire_descriptors *descriptors, uint64_t number,
                      uint64_t *out, size_t out_len);

/* Closes `number`: it is free again. EBADF. */
size_t ventolaire_close(ventolaire_descriptors *descriptors, uint64_t number,
                        uint64_t *out, size_t out_len);

/*
 * Marks `number`, for good. EBADF, then ENOTTY for what is not a directory. The
 * image is not checked: in one that is not accepted a directory is what its bytes
 * say.
 */
size_t ventolaire_set_mark(const uint8_t *image, size_t image_len,
                           ventolaire_descriptors *descriptors, uint64_t number,
                           uint64_t *out, size_t out_len);

/*
 * Writes the image of the tree that four parts stand for: node records of 12
 * bytes, mount records and entry records of 8 bytes each, as an image has them,
 * and a text, into which the offsets of names and link bodies reach. In the text
 * names and bodies may stand in any order, overlap, be shared, or have gaps
 * between them. The image has its own text, the names in the order of the entries
 * and then the bodies in the order of the nodes, without gaps or sharing, and the
 * records' offsets are those in it: one tree has one image, whatever parts it
 * was described by. All other fields are written as they are.
 *
 * Refused first, with EUCLEAN, is a tree whose image would break a rule of the
 * table check: the rule and the record are those that ventolaire_check would name
 * for it. Lengths are taken as the records give them. A name that reaches outside
 * of the text breaks rule 5, a body that does rule 4, each at its record. Bytes
 * behind the last whole record of a part break rule 3, and are counted in nothing.
 * Then, with ERANGE, a buffer too short for the image; the answer tells how long
 * it has to be. So a first call may have a buffer of no bytes.
 *
 * A refusal leaves the buffer as it was. Otherwise the image is written from its
 * first byte on, ventolaire_check accepts it, and the bytes behind it are not
 * touched.
 */
enum {
    VENTOLAIRE_BUILD_ERRNO,  /* 0: written */
    VENTOLAIRE_BUILD_RULE,   /* with EUCLEAN the rule broken and the record that */
    VENTOLAIRE_BUILD_RECORD, /* breaks it; else 0 and 0 */
    VENTOLAIRE_BUILD_BYTES,  /* how many bytes the image has; 0 with EUCLEAN */
    VENTOLAIRE_BUILD_LEN     /* how many numbers the answer has: 4 */
};

/* The most bytes that an image has: a buffer of so many is never too short. */
#define VENTOLAIRE_IMAGE_MAX 65536

size_t ventolaire_build(const uint8_t *nodes, size_t nodes_len,
                        const uint8_t *mounts, size_t mounts_len,
                        const uint8_t *entries, size_t entries_len,
                        const uint8_t *text, size_t text_len,
                        uint8_t *buffer, size_t buffer_len,
                        uint64_t *out, size_t out_len);

/*
 * Writes the numbers of all refusals, in this order: EUCLEAN, E2BIG, EINVAL,
 * ENAMETOOLONG, ENOENT, EBADF, ENOTDIR, ELOOP, EXDEV, EMFILE, ENOTTY, ERANGE. An
 * array with room for the first eleven, or for the first nine, alone gets these.
 */
#define VENTOLAIRE_ERRNOS_LEN 12

size_t ventolaire_errnos(uint64_t *out, size_t out_len);

#ifdef __cplusplus
}
#endif

#endif
