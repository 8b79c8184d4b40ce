/* Checks the bench tree's table once and looks names up in it. */

#include <inttypes.h>
#include <stdint.h>
#include <stdio.h>
#include <string.h>

#include "bench_tree.h"
#include "ventolaire.h"

/* The nodes of the directory "cal" and of the file "tare" in it. */
#define CAL 2
#define TARE 3

/* The table was accepted: main has asked. */
static void lookup(uint64_t node, const char *name)
{
    uint64_t out[VENTOLAIRE_LOOKUP_LEN];
    ventolaire_lookup_accepted(bench_tree, sizeof bench_tree, node,
                               (const uint8_t *)name, strlen(name),
                               out, VENTOLAIRE_LOOKUP_LEN);

    const uint64_t error = out[VENTOLAIRE_LOOKUP_ERRNO];
    const char *error_name = ventolaire_error_name(error);
    printf("%s in %" PRIu64 ": ", name, node);
    if (error == 0)
        printf("entry %" PRIu64 ", node %" PRIu64, out[VENTOLAIRE_LOOKUP_ENTRY],
               out[VENTOLAIRE_LOOKUP_NODE]);
    else
        printf("%s (%" PRIu64 ")", error_name ? error_name : "unknown errno", error);
    printf("; names compared %" PRIu64 "\n", out[VENTOLAIRE_LOOKUP_COMPARED]);
}

int main(void)
{
    uint64_t checked[VENTOLAIRE_CHECK_LEN];
    ventolaire_check(bench_tree, sizeof bench_tree, checked, VENTOLAIRE_CHECK_LEN);
    if (checked[VENTOLAIRE_CHECK_RULE] != 0) {
        printf("table: rule %" PRIu64 " broken by record %" PRIu64 "\n",
               checked[VENTOLAIRE_CHECK_RULE], checked[VENTOLAIRE_CHECK_RECORD]);
        return 1;
    }
    printf("table: accepted\n");

    lookup(CAL, "loop"); /* of six names the third is compared first */
    lookup(CAL, "tare");
    lookup(CAL, "nope");
    lookup(TARE, "tare");
    return 0;
}
