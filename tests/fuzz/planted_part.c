/*
 * The faults of planted.c that break what RULES 20 says: a walk that gets out of its handle, and
 * answers that tell something of what is outside. Only inputs of part.c are replayed with
 * them.
 */

#include "part.h"
#include "planted.h"

#define BENEATH VENTOLAIRE_RESOLVE_BENEATH
#define IN_ROOT VENTOLAIRE_RESOLVE_IN_ROOT

static size_t ask(resolver *real, const struct asked *asked, uint64_t *out, size_t out_len)
{
    return real(asked->image, asked->image_len, asked->mount, asked->node, asked->mark,
                asked->path, asked->path_len, asked->how, asked->how_len, out, out_len);
}

static uint64_t resolve_of(const struct asked *asked)
{
    return asked->how_len < VENTOLAIRE_HOW_SIZE ? 0 : number_at(asked->how + 16, 8);
}

/* The answer with these bits of resolve alone, and with the mark or not. */
static void ask_with(resolver *real, struct asked asked, uint64_t resolve, bool mark,
                     uint64_t answer[VENTOLAIRE_ANSWER_LEN])
{
    uint8_t how[VENTOLAIRE_HOW_SIZE];
    ventolaire_how(how, asked.how_len < sizeof how ? 0 : number_at(asked.how, 8), resolve);
    asked.how = how;
    asked.how_len = sizeof how;
    asked.mark = mark;
    ask(real, &asked, answer, VENTOLAIRE_ANSWER_LEN);
}

/* What a walk meets first of that which would lead it out of its handle. */
enum exit { NO_EXIT,
            START,
            JUMP,
            ESCAPE,
            MAGIC_LINK };

static bool is_link_at(resolver *real, struct asked asked, uint64_t resolve,
                       const uint64_t *answer)
{
    uint64_t its[VENTOLAIRE_ANSWER_LEN];
    ask_with(real, asked, resolve, false, its);
    return its[VENTOLAIRE_ANSWER_ERRNO] == VENTOLAIRE_ELOOP
           && its[VENTOLAIRE_ANSWER_COMPONENTS] == answer[VENTOLAIRE_ANSWER_COMPONENTS];
}

static enum exit exit_of(resolver *real, struct asked asked)
{
    uint64_t answer[VENTOLAIRE_ANSWER_LEN];
    ask_with(real, asked, BENEATH, false, answer);
    if (answer[VENTOLAIRE_ANSWER_ERRNO] != VENTOLAIRE_EXDEV)
        return NO_EXIT;
    if (asked.path[0] == '/')
        return START;
    if (is_link_at(real, asked, VENTOLAIRE_RESOLVE_NO_MAGICLINKS, answer))
        return MAGIC_LINK;
    return is_link_at(real, asked, VENTOLAIRE_RESOLVE_NO_SYMLINKS, answer) ? JUMP : ESCAPE;
}

/* Faults 71 to 82: IN_ROOT, BENEATH or, without a bit, the mark is not regarded at one. */
static const struct {
    uint64_t bit;
    enum exit exit;
} open_exits[] = {
    {IN_ROOT, START},
    {IN_ROOT, JUMP},
    {IN_ROOT, ESCAPE},
    {IN_ROOT, MAGIC_LINK},
    {BENEATH, START},
    {BENEATH, JUMP},
    {BENEATH, ESCAPE},
    {BENEATH, MAGIC_LINK},
    {0, START},
    {0, JUMP},
    {0, ESCAPE},
    {0, MAGIC_LINK},
};

static bool is_root(const struct table *table, uint64_t node, uint64_t but)
{
    for (uint64_t mount = 0; mount < table->mount_count; mount++)
        if (mount != but && root_of(table, mount) == node)
            return true;
    return false;
}

/* Whether the call gets an answer as if one of these were not set. */
static bool is_let_out(const struct table *table, const struct asked *asked, enum exit exit,
                       uint64_t *bit)
{
    size_t i = (size_t)FAULT - 71;
    if (i < sizeof open_exits / sizeof *open_exits) {
        *bit = open_exits[i].bit;
        return exit == open_exits[i].exit;
    }
    *bit = BENEATH;
    if (FAULT == 83) /* the handle's node is the root of another mount */
        return exit == ESCAPE && is_root(table, asked->node, asked->mount);
    if (FAULT == 84) /* mount 0's root is the handle's parent */
        return exit == ESCAPE && root_of(table, 0) == parent_of(table, asked->node);
    return false;
}

/* An answer over the image without its last mount, where that is accepted: what the mount
 * hides is seen. */
static void look_below(resolver *real, const struct asked *asked, uint64_t *out)
{
    static uint8_t image[VENTOLAIRE_IMAGE_MAX];
    uint64_t checked[VENTOLAIRE_CHECK_LEN];
    struct asked below = *asked;
    memcpy(image, asked->image, asked->image_len);
    struct table table = table_of(image);
    below.image = image;
    below.image_len = asked->image_len - 8;
    memmove(table.entries - 8, table.entries,
            (size_t)(image + asked->image_len - table.entries));
    put_number(image + 6, table.mount_count - 1, 2);
    put_number(image + 16, below.image_len, 4);
    ventolaire_check(image, below.image_len, checked, VENTOLAIRE_CHECK_LEN);
    if (checked[VENTOLAIRE_CHECK_RULE] == 0)
        ask(real, &below, out, VENTOLAIRE_ANSWER_LEN);
}

/* The first magic link's target is in another mount than the handle. */
static bool leads_away(const struct table *table, uint64_t mount)
{
    for (uint64_t node = 0; node < table->node_count; node++)
        if (kind_of(table, node) == MAGIC)
            return first_of(table, node) != mount;
    return false;
}

/* Counts that tell of what is outside. */
static void change_counts(const struct table *table, const struct asked *asked, uint64_t *out)
{
    uint64_t *components = out + VENTOLAIRE_ANSWER_COMPONENTS;
    uint64_t *links = out + VENTOLAIRE_ANSWER_LINKS;
    uint64_t root = root_of(table, 0), first = first_of(table, asked->node);
    if (FAULT == 85) /* the number of nodes */
        *components += table->node_count % 2;
    if (FAULT == 86) /* the number of mounts */
        *links += table->mount_count > 2;
    if (FAULT == 87) /* the length of the text */
        *components += table->text_len % 2;
    if (FAULT == 88 && root != asked->node) /* how many names mount 0's root has */
        *components += count_of(table, root);
    if (FAULT == 89) /* the handle's parent */
        *components += parent_of(table, asked->node);
    if (FAULT == 90) /* the number of the handle's first entry */
        *components += first;
    if (FAULT == 91 && count_of(table, asked->node) != 0) /* where that one's name lies */
        *components += number_at(table->entries + 8 * first, 4);
    if (FAULT == 92) /* mount 0's root */
        *links += root % 2;
}

/* Other answers that do. */
static void change_told(resolver *real, const struct table *table, const struct asked *asked,
                        enum exit exit, uint64_t *out)
{
    uint64_t error = out[VENTOLAIRE_ANSWER_ERRNO], node = out[VENTOLAIRE_ANSWER_NODE];
    change_counts(table, asked, out);
    if (FAULT == 93 && exit == MAGIC_LINK && leads_away(table, asked->mount))
        out[VENTOLAIRE_ANSWER_ERRNO] = VENTOLAIRE_ELOOP; /* by where a magic link leads */
    if (FAULT == 94 && error == VENTOLAIRE_ENOENT && table->mount_count > 1)
        look_below(real, asked, out); /* a hidden name is found */
    if (FAULT == 95 && error == 0 && kind_of(table, node) == DIRECTORY)
        for (uint64_t mount = 0; mount < table->mount_count; mount++)
            if (is_under(table, node, root_of(table, mount)))
                out[VENTOLAIRE_ANSWER_MOUNT] = mount; /* the last mount that shows it */
    if (FAULT == 96 && error == VENTOLAIRE_ENOENT && exit == ESCAPE && root_of(table, 0) != 0)
        out[VENTOLAIRE_ANSWER_ERRNO] = VENTOLAIRE_EXDEV; /* the mark's error, by mount 0's root */
}

size_t resolve_outside(resolver *real, struct asked asked, uint64_t *out, size_t out_len)
{
    size_t written = ask(real, &asked, out, out_len);
    if (FAULT < 71 || written == 0 || out[VENTOLAIRE_ANSWER_ERRNO] == VENTOLAIRE_EUCLEAN)
        return written;
    struct table table = table_of((uint8_t *)(uintptr_t)asked.image);
    enum exit exit = exit_of(real, asked);
    uint64_t resolve = resolve_of(&asked), bit;
    bool is_out = is_let_out(&table, &asked, exit, &bit);
    if (is_out && (bit == 0 ? asked.mark : (resolve & bit) != 0))
        ask_with(real, asked, resolve & ~bit, bit == 0 ? false : asked.mark, out);
    if (asked.node < table.node_count)
        change_told(real, &table, &asked, exit, out);
    return written;
}

size_t open_outside(opener *real, struct asked asked, ventolaire_descriptors *table,
                    uint64_t number, uint64_t *out, size_t out_len)
{
    uint64_t *slot = table->slots + number % VENTOLAIRE_DESCRIPTORS, held = *slot;
    if (FAULT == 97 && held != 0) /* the mark of the number is not regarded */
        *slot -= (held - 1) % 2;
    size_t written = real(asked.image, asked.image_len, table, number, asked.mark,
                          asked.path, asked.path_len, asked.how, asked.how_len, out, out_len);
    if (FAULT == 97)
        *slot = held;
    if (FAULT == 98 && written != 0 && out[VENTOLAIRE_REPLY_ERRNO] == 0) /* N in a slot */
        table->slots[out[VENTOLAIRE_REPLY_DESCRIPTOR]] += number_at(asked.image + 4, 2) << 44;
    if (FAULT == 99 && written != 0 && out[VENTOLAIRE_REPLY_ERRNO] != 0)
        out[VENTOLAIRE_REPLY_COMPONENTS] += number_at(asked.image + 8, 2); /* E in a refusal */
    return written;
}

bool is_mark_lost(const uint8_t *image, size_t image_len)
{
    return FAULT == 100 && image_len > 8 && number_at(image + 6, 2) > 2; /* by the mounts */
}
