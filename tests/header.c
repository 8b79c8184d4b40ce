/* What include/ventolaire.h defines by itself, as C and as C++: examples/run
 * builds and runs it. It prints what is wrong, and nothing otherwise. */

#include <stdio.h>
#include <string.h>

#include "ventolaire.h"

#define PARTS (1000 * VENTOLAIRE_VERSION_MAJOR + VENTOLAIRE_VERSION_MINOR)
#if VENTOLAIRE_VERSION != 1000 * PARTS + VENTOLAIRE_VERSION_PATCH
#error "the version is not the number that its parts make"
#endif

static int failures;

#define HOLDS(condition) \
    ((condition) ? (void)0 : (void)(failures++, printf("not so: %s\n", #condition)))

static void names(void)
{
    uint64_t errnos[VENTOLAIRE_ERRNOS_LEN];
    HOLDS(ventolaire_errnos(errnos, VENTOLAIRE_ERRNOS_LEN) == VENTOLAIRE_ERRNOS_LEN);
    for (int i = 0; i < VENTOLAIRE_ERRNOS_LEN; i++) {
        const char *name = ventolaire_error_name(errnos[i]);
        HOLDS(name != NULL && name[0] == 'E');
        for (int j = 0; name != NULL && j < i; j++)
            HOLDS(strcmp(name, ventolaire_error_name(errnos[j])) != 0);
    }
    HOLDS(strcmp(ventolaire_error_name(VENTOLAIRE_EXDEV), "EXDEV") == 0);
    HOLDS(strcmp(ventolaire_error_name(VENTOLAIRE_EMFILE), "EMFILE") == 0);
    HOLDS(strcmp(ventolaire_error_name(VENTOLAIRE_ENOTTY), "ENOTTY") == 0);
    HOLDS(strcmp(ventolaire_error_name(VENTOLAIRE_ERANGE), "ERANGE") == 0);
    HOLDS(VENTOLAIRE_EMFILE == 24 && VENTOLAIRE_ENOTTY == 25 && VENTOLAIRE_ERANGE == 34);
    HOLDS(ventolaire_error_name(0) == NULL);
    HOLDS(ventolaire_error_name(1) == NULL);
    HOLDS(ventolaire_error_name((UINT64_C(1) << 32) + VENTOLAIRE_EXDEV) == NULL);
}

/* Programs that were built when there were nine errnos, or eleven, keep getting these. */
static void room(void)
{
    uint64_t errnos[VENTOLAIRE_ERRNOS_LEN];
    HOLDS(VENTOLAIRE_ERRNOS_LEN == 12);
    for (size_t len = 0; len <= VENTOLAIRE_ERRNOS_LEN; len++) {
        memset(errnos, 0, sizeof errnos);
        const size_t fits = len < 11 ? 9 : len; /* 11 or 12 */
        const size_t written = ventolaire_errnos(errnos, len);
        HOLDS(written == (len < 9 ? 0 : fits));
        HOLDS(written == 0 || errnos[8] == VENTOLAIRE_EXDEV);
        HOLDS(written < 11 || errnos[10] == VENTOLAIRE_ENOTTY);
        HOLDS(written < 12 || errnos[11] == VENTOLAIRE_ERANGE);
        for (size_t i = written; i < VENTOLAIRE_ERRNOS_LEN; i++)
            HOLDS(errnos[i] == 0);
    }
}

/* A reply begins as an answer does, and a struct is its 64 numbers. */
static void descriptors(void)
{
    HOLDS(VENTOLAIRE_DESCRIPTORS == 64 && sizeof(ventolaire_descriptors) == 512);
    HOLDS((int)VENTOLAIRE_REPLY_ERRNO == (int)VENTOLAIRE_ANSWER_ERRNO);
    HOLDS((int)VENTOLAIRE_REPLY_DETAIL == (int)VENTOLAIRE_ANSWER_DETAIL);
    HOLDS((int)VENTOLAIRE_REPLY_MOUNT == (int)VENTOLAIRE_ANSWER_MOUNT);
    HOLDS((int)VENTOLAIRE_REPLY_NODE == (int)VENTOLAIRE_ANSWER_NODE);
    HOLDS((int)VENTOLAIRE_REPLY_COMPONENTS == (int)VENTOLAIRE_ANSWER_COMPONENTS);
    HOLDS((int)VENTOLAIRE_REPLY_LINKS == (int)VENTOLAIRE_ANSWER_LINKS);
    HOLDS((int)VENTOLAIRE_REPLY_DESCRIPTOR == (int)VENTOLAIRE_ANSWER_LEN);
    HOLDS(VENTOLAIRE_REPLY_LEN == 7);

    /* No image is none that is accepted: all are closed, and stay so. */
    ventolaire_descriptors closed;
    uint64_t out[VENTOLAIRE_REPLY_LEN];
    memset(&closed, 0xa5, sizeof closed);
    HOLDS(ventolaire_start(NULL, 0, &closed, out, VENTOLAIRE_CHECK_LEN) == VENTOLAIRE_CHECK_LEN);
    HOLDS(out[VENTOLAIRE_CHECK_RULE] == 1 && out[VENTOLAIRE_CHECK_RECORD] == 0);
    HOLDS(ventolaire_dup(&closed, 0, out, VENTOLAIRE_REPLY_LEN) == VENTOLAIRE_REPLY_LEN);
    HOLDS(out[VENTOLAIRE_REPLY_ERRNO] == VENTOLAIRE_EBADF);
    HOLDS(out[VENTOLAIRE_REPLY_DETAIL] == VENTOLAIRE_NO_DETAIL);
    for (int i = 0; i < VENTOLAIRE_DESCRIPTORS; i++)
        HOLDS(closed.slots[i] == 0);
}

/* The numbers of a lookup's answer, and a call of each function. */
static void lookups(void)
{
    HOLDS(VENTOLAIRE_LOOKUP_ERRNO == 0 && VENTOLAIRE_LOOKUP_ENTRY == 1);
    HOLDS(VENTOLAIRE_LOOKUP_NODE == 2 && VENTOLAIRE_LOOKUP_COMPARED == 3);
    HOLDS(VENTOLAIRE_LOOKUP_LEN == 4);

    /* The smallest image: node 0 is a directory without names, and there is no other. */
    const uint8_t image[40] = {'T', 'O', 'C', '1', 1, 0, 1, 0, 0, 0, 0,
                               0, 0, 0, 0, 0, 40, 0, 0, 0, 1};
    const size_t len = sizeof image;
    const uint8_t *name = (const uint8_t *)"lab";
    uint64_t out[VENTOLAIRE_LOOKUP_LEN];
    HOLDS(ventolaire_check(image, len, out, 2) == 2 && out[VENTOLAIRE_CHECK_RULE] == 0);
    HOLDS(ventolaire_lookup_accepted(image, len, 0, name, 3, out, 4) == 4);
    HOLDS(out[VENTOLAIRE_LOOKUP_ERRNO] == VENTOLAIRE_ENOENT);
    HOLDS(out[VENTOLAIRE_LOOKUP_ENTRY] == 0 && out[VENTOLAIRE_LOOKUP_NODE] == 0);
    HOLDS(out[VENTOLAIRE_LOOKUP_COMPARED] == 0);
    HOLDS(ventolaire_lookup(image, len, 1, name, 3, out, 4) == 4);
    HOLDS(out[VENTOLAIRE_LOOKUP_ERRNO] == VENTOLAIRE_EBADF);
    HOLDS(ventolaire_lookup(NULL, 0, 0, NULL, 0, out, 4) == 4);
    HOLDS(out[VENTOLAIRE_LOOKUP_ERRNO] == VENTOLAIRE_EUCLEAN);
}

/* The numbers of a build's answer, and calls with each errno. */
static void builds(void)
{
    HOLDS(VENTOLAIRE_BUILD_ERRNO == 0 && VENTOLAIRE_BUILD_RULE == 1);
    HOLDS(VENTOLAIRE_BUILD_RECORD == 2 && VENTOLAIRE_BUILD_BYTES == 3);
    HOLDS(VENTOLAIRE_BUILD_LEN == 4 && VENTOLAIRE_IMAGE_MAX == 65536);

    /* The smallest image, from a directory and mount 0. */
    const uint8_t nodes[12] = {1}, mounts[8] = {0};
    const uint8_t image[41] = {'T', 'O', 'C', '1', 1, 0, 1, 0, 0, 0, 0, 0, 0, 0, 0, 0, 40, 0, 0,
                               0, 1, 0, 0, 0, 0, 0, 0, 0, 0, 0, 0, 0, 0, 0, 0, 0, 0, 0,
                               0, 0, 0xa5};
    uint8_t buffer[41], untouched[41];
    uint64_t out[VENTOLAIRE_BUILD_LEN];
    memset(buffer, 0xa5, sizeof buffer);
    memset(untouched, 0xa5, sizeof untouched);
    HOLDS(ventolaire_build(NULL, 0, NULL, 0, NULL, 0, NULL, 0, NULL, 0, out, 4) == 4);
    HOLDS(out[VENTOLAIRE_BUILD_ERRNO] == VENTOLAIRE_EUCLEAN && out[VENTOLAIRE_BUILD_RULE] == 3);
    HOLDS(out[VENTOLAIRE_BUILD_RECORD] == 0 && out[VENTOLAIRE_BUILD_BYTES] == 0);
    HOLDS(ventolaire_build(nodes, 12, mounts, 8, NULL, 0, NULL, 0, buffer, 39, out, 4) == 4);
    HOLDS(out[VENTOLAIRE_BUILD_ERRNO] == VENTOLAIRE_ERANGE && out[VENTOLAIRE_BUILD_RULE] == 0);
    HOLDS(out[VENTOLAIRE_BUILD_RECORD] == 0 && out[VENTOLAIRE_BUILD_BYTES] == 40);
    HOLDS(ventolaire_build(nodes, 12, mounts, 8, NULL, 0, NULL, 0, buffer, 41, out, 3) == 0);
    HOLDS(memcmp(buffer, untouched, sizeof buffer) == 0);
    HOLDS(ventolaire_build(nodes, 12, mounts, 8, NULL, 0, NULL, 0, buffer, 41, out, 4) == 4);
    HOLDS(out[VENTOLAIRE_BUILD_ERRNO] == 0 && out[VENTOLAIRE_BUILD_RULE] == 0);
    HOLDS(out[VENTOLAIRE_BUILD_RECORD] == 0 && out[VENTOLAIRE_BUILD_BYTES] == 40);
    HOLDS(memcmp(buffer, image, sizeof buffer) == 0);
}

static void hows(void)
{
    const uint8_t expected[VENTOLAIRE_HOW_SIZE + 1] = {
        8, 7, 6, 5, 4, 3, 2, 1, 0, 0, 0, 0, 0, 0, 0, 0, 0x18, 0, 0, 0, 0, 0, 0, 0x80, 0xa5};
    uint8_t how[VENTOLAIRE_HOW_SIZE + 1];
    memset(how, 0xa5, sizeof how);
    ventolaire_how(how, UINT64_C(0x0102030405060708),
                   VENTOLAIRE_RESOLVE_BENEATH | VENTOLAIRE_RESOLVE_IN_ROOT | UINT64_C(1) << 63);
    HOLDS(memcmp(how, expected, sizeof how) == 0);
}

int main(void)
{
    names();
    room();
    descriptors();
    lookups();
    builds();
    hows();
    return failures != 0;
}
