/* Checks the bench tree's table once and resolves two paths in it. */

#include <inttypes.h>
#include <stdbool.h>
#include <stdint.h>
#include <stdio.h>
#include <string.h>

#include "bench_tree.h"
#include "ventolaire.h"

/* The node of the directory "lab" in mount 0: every path here starts there. */
#define LAB 1

/* The table was accepted: main has asked. */
static void resolve(const char *path, uint64_t flags, uint64_t restrictions)
{
    uint8_t how[VENTOLAIRE_HOW_SIZE];
    ventolaire_how(how, flags, restrictions);

    uint64_t out[VENTOLAIRE_ANSWER_LEN];
    ventolaire_resolve_accepted(bench_tree, sizeof bench_tree, 0, LAB, false,
                                (const uint8_t *)path, strlen(path),
                                how, sizeof how, out, VENTOLAIRE_ANSWER_LEN);

    const uint64_t error = out[VENTOLAIRE_ANSWER_ERRNO];
    const char *name = ventolaire_error_name(error);
    printf("%s: ", path);
    if (error == 0)
        printf("(%" PRIu64 ",%" PRIu64 ")", out[VENTOLAIRE_ANSWER_MOUNT],
               out[VENTOLAIRE_ANSWER_NODE]);
    else
        printf("%s (%" PRIu64 ")", name ? name : "unknown errno", error);
    printf("; components %" PRIu64 ", links %" PRIu64 "\n",
           out[VENTOLAIRE_ANSWER_COMPONENTS], out[VENTOLAIRE_ANSWER_LINKS]);
}

int main(void)
{
    uint64_t checked[VENTOLAIRE_CHECK_LEN];
    ventolaire_check(bench_tree, sizeof bench_tree, checked, VENTOLAIRE_CHECK_LEN);
    if (checked[VENTOLAIRE_CHECK_RULE] != 0) {
        printf("table: rule %" PRIu64 " broken by record %" PRIu64 "\n",
               checked[VENTOLAIRE_CHECK_RULE], checked[VENTOLAIRE_CHECK_RECORD]);
        return 1;
    }
    printf("table: accepted\n");

    resolve("cal/abs", 0, 0);
    resolve("pool/run", 0, VENTOLAIRE_RESOLVE_NO_XDEV);
    return 0;
}
