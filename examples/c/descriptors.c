/* Checks the bench tree's table once and makes a script's calls on descriptors. */

#include <inttypes.h>
#include <stdbool.h>
#include <stdint.h>
#include <stdio.h>
#include <string.h>

#include "bench_tree.h"
#include "ventolaire.h"

/* The script's own: started by main, once the table was accepted. */
static ventolaire_descriptors descriptors;

static void print_counts(const uint64_t *reply)
{
    printf("; components %" PRIu64 ", links %" PRIu64 "\n",
           reply[VENTOLAIRE_REPLY_COMPONENTS], reply[VENTOLAIRE_REPLY_LINKS]);
}

/* Whether a call is refused; if it is, it is printed with what. */
static bool refused(const uint64_t *reply)
{
    const uint64_t error = reply[VENTOLAIRE_REPLY_ERRNO];
    if (error == 0)
        return false;
    const char *name = ventolaire_error_name(error);
    printf("%s (%" PRIu64 ")", name ? name : "unknown errno", error);
    print_counts(reply);
    return true;
}

static void open_path(uint64_t number, const char *path, bool mark)
{
    /* Only a directory can have the mark, and who asks for it has to say so. */
    uint8_t how[VENTOLAIRE_HOW_SIZE];
    ventolaire_how(how, mark ? VENTOLAIRE_O_DIRECTORY : 0, 0);

    uint64_t reply[VENTOLAIRE_REPLY_LEN];
    ventolaire_open_accepted(bench_tree, sizeof bench_tree, &descriptors, number, mark,
                             (const uint8_t *)path, strlen(path),
                             how, sizeof how, reply, VENTOLAIRE_REPLY_LEN);

    printf("open %" PRIu64 " %s%s: ", number, path, mark ? ", marked" : "");
    if (refused(reply))
        return;
    printf("%" PRIu64 " = (%" PRIu64 ",%" PRIu64 ")", reply[VENTOLAIRE_REPLY_DESCRIPTOR],
           reply[VENTOLAIRE_REPLY_MOUNT], reply[VENTOLAIRE_REPLY_NODE]);
    print_counts(reply);
}

static void duplicate(uint64_t number)
{
    uint64_t reply[VENTOLAIRE_REPLY_LEN];
    ventolaire_dup(&descriptors, number, reply, VENTOLAIRE_REPLY_LEN);
    printf("dup %" PRIu64 ": ", number);
    if (!refused(reply))
        printf("%" PRIu64 "\n", reply[VENTOLAIRE_REPLY_DESCRIPTOR]);
}

static void close_number(uint64_t number)
{
    uint64_t reply[VENTOLAIRE_REPLY_LEN];
    ventolaire_close(&descriptors, number, reply, VENTOLAIRE_REPLY_LEN);
    printf("close %" PRIu64 ": ", number);
    if (!refused(reply))
        printf("done\n");
}

static void set_mark(uint64_t number)
{
    uint64_t reply[VENTOLAIRE_REPLY_LEN];
    ventolaire_set_mark(bench_tree, sizeof bench_tree, &descriptors, number,
                        reply, VENTOLAIRE_REPLY_LEN);
    printf("mark %" PRIu64 ": ", number);
    if (!refused(reply))
        printf("done\n");
}

int main(void)
{
    uint64_t checked[VENTOLAIRE_CHECK_LEN];
    ventolaire_start(bench_tree, sizeof bench_tree, &descriptors, checked, VENTOLAIRE_CHECK_LEN);
    if (checked[VENTOLAIRE_CHECK_RULE] != 0) {
        printf("table: rule %" PRIu64 " broken by record %" PRIu64 "\n",
               checked[VENTOLAIRE_CHECK_RULE], checked[VENTOLAIRE_CHECK_RECORD]);
        return 1;
    }
    printf("table: accepted\n");

    open_path(0, "lab", true);
    open_path(1, "..", false);
    open_path(1, "cal", false);
    open_path(2, "..", false); /* what is opened through a marked one is not marked */
    duplicate(1);
    open_path(4, "/", false); /* a copy is */
    set_mark(2);
    open_path(2, "..", false);
    close_number(1);
    open_path(1, "cal", false);
    open_path(3, "cal/tare", false); /* the lowest number that is free */
    set_mark(1);
    return 0;
}
