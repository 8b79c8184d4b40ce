/*
 * Sequences of calls on descriptors. A call of an input is 2 bytes, and more if it
 * is an open:
 *
 *   byte  0      bits 0 and 1 open, dup, close or set_mark; bit 2 the mark asked
 *   byte  1      the number: 0 to 127; 128 and on for 2^32 and on; 192 to 255 for
 *                the highest 64 numbers of 64 bits
 *   bytes 2, 3   length of the path
 *   bytes 4, 5   length of the open_how, both of which follow
 *
 * No second list of slots is kept here; tests/compare has one. What must hold of a
 * call is seen from the 64 numbers before and after it: 0 is a closed slot and any
 * other number an open one. Of these, two are known: those of mount 0's root.
 */

#include "fuzz.h"

/* An input has no more calls than this, so that none takes long. */
#define CALLS 256

enum kind { OPEN,
            DUP,
            CLOSE,
            SET_MARK };

struct call {
    enum kind kind;
    bool mark;
    uint64_t number;
};

typedef ventolaire_descriptors slots;

static bool equal(const slots *some, const slots *others)
{
    return memcmp(some, others, sizeof *some) == 0;
}

/* The lowest slot that is closed, 64 if there is none. */
static size_t lowest(const slots *before)
{
    size_t at = 0;
    while (at < VENTOLAIRE_DESCRIPTORS && before->slots[at] != 0)
        at++;
    return at;
}

static uint64_t number_of(uint8_t byte)
{
    if (byte < 128)
        return byte;
    return byte < 192 ? (UINT64_C(1) << 32) + (byte - 128u) : UINT64_MAX - (255u - byte);
}

static size_t ask(const struct call *call, const struct lent *lent, bool accepted,
                  slots *table, uint64_t *out, size_t out_len)
{
    switch (call->kind) {
    case OPEN:
        return (accepted ? ventolaire_open_accepted : ventolaire_open)(
            lent->image, lent->image_len, table, call->number, call->mark,
            lent->path, lent->path_len, lent->how, lent->how_len, out, out_len);
    case DUP: return ventolaire_dup(table, call->number, out, out_len);
    case CLOSE: return ventolaire_close(table, call->number, out, out_len);
    default:
        return ventolaire_set_mark(lent->image, lent->image_len, table, call->number,
                                   out, out_len);
    }
}

static void require_own(const uint64_t *reply, uint64_t error)
{
    const uint64_t own[VENTOLAIRE_REPLY_LEN] = {error, VENTOLAIRE_NO_DETAIL};
    require(memcmp(reply, own, sizeof own) == 0, "another reply than the table's own");
}

/* The error that the table of descriptors gives before all others, or 0. */
static uint64_t first_error(const struct call *call, const struct lent *lent, const slots *before)
{
    if (call->number >= VENTOLAIRE_DESCRIPTORS || before->slots[call->number] == 0)
        return VENTOLAIRE_EBADF;
    bool is_asked = call->kind == OPEN && call->mark && lent->how_len >= VENTOLAIRE_HOW_SIZE;
    if (is_asked && !(number_at(lent->how, 8) & VENTOLAIRE_O_DIRECTORY))
        return VENTOLAIRE_EINVAL;
    return 0;
}

/* What a call that was done has made of the slots. */
static void require_done(const struct call *call, const slots *before, const slots *after,
                         uint64_t descriptor)
{
    bool gives = call->kind == OPEN || call->kind == DUP;
    size_t changed = gives ? lowest(before) : call->number;
    require(changed < VENTOLAIRE_DESCRIPTORS, "a descriptor was given where none is free");
    require(descriptor == (gives ? changed : 0), "not the lowest descriptor that is free");

    uint64_t now = after->slots[changed];
    require((now == 0) == (call->kind == CLOSE), "the slot is not open, or not closed");
    require(call->kind != DUP || now == before->slots[call->number],
            "a duplicate is not what was duplicated");
    slots expected = *before;
    expected.slots[changed] = now;
    require(equal(&expected, after), "another slot was changed");
}

static void require_refused(const struct call *call, const slots *before, const slots *after,
                            const uint64_t *reply)
{
    uint64_t error = reply[VENTOLAIRE_REPLY_ERRNO];
    require(equal(before, after), "a refused call changed a slot");
    require(reply[VENTOLAIRE_REPLY_DESCRIPTOR] == 0, "a refusal with a descriptor");
    if (error == VENTOLAIRE_EMFILE || error == VENTOLAIRE_ENOTTY)
        require_own(reply, error);
    bool gives = call->kind == OPEN || call->kind == DUP;
    require(error != VENTOLAIRE_EMFILE || (gives && lowest(before) == VENTOLAIRE_DESCRIPTORS),
            "EMFILE, and a descriptor is free or none is asked for");
    require((error == VENTOLAIRE_ENOTTY) <= (call->kind == SET_MARK), "ENOTTY, and no set_mark");
    require(call->kind == OPEN || error == VENTOLAIRE_EMFILE || error == VENTOLAIRE_ENOTTY,
            "another error than the table's own without a path");
}

static void require_reply(const struct call *call, const struct lent *lent, bool accepted,
                          const slots *before, const slots *after, const uint64_t *reply)
{
    uint64_t error = reply[VENTOLAIRE_REPLY_ERRNO];
    uint64_t first = first_error(call, lent, before);
    require_answer(reply);
    if (first != 0) {
        require_own(reply, first);
        require(equal(before, after), "a refused call changed a slot");
        return;
    }
    if (call->kind == OPEN)
        require((error == VENTOLAIRE_EUCLEAN) == !accepted,
                "check and open judge the table differently");
    if (error != 0) {
        require_refused(call, before, after, reply);
        return;
    }
    require_done(call, before, after, reply[VENTOLAIRE_REPLY_DESCRIPTOR]);
    if (call->kind == OPEN)
        require_place(reply, lent);
    else
        for (size_t i = VENTOLAIRE_REPLY_MOUNT; i < VENTOLAIRE_REPLY_DESCRIPTOR; i++)
            require(reply[i] == 0, "a place or a count, and nothing was opened");
}

/* The node of mount 0's root: the mounts stand behind 20 bytes and all nodes. */
static uint64_t root_of(const struct lent *lent)
{
    return number_at(lent->image + 20 + 12 * number_at(lent->image + 4, 2), 2);
}

/* An open from mount 0's root is a resolve from there; and what is opened at mount
 * 0's root has the mark if that was asked, whatever the mark of the number. */
static void require_root(const struct call *call, const struct lent *lent,
                         const struct script *script, const slots *before, const slots *after,
                         const uint64_t *reply)
{
    if (!script->accepted || call->kind != OPEN || first_error(call, lent, before) != 0)
        return;
    uint64_t root = root_of(lent), error = reply[VENTOLAIRE_REPLY_ERRNO];
    uint64_t answer[VENTOLAIRE_ANSWER_LEN];
    for (int marked = 0; marked < 2; marked++)
        if (before->slots[call->number] == script->roots[marked]) {
            ventolaire_resolve(lent->image, lent->image_len, 0, root, marked,
                               lent->path, lent->path_len, lent->how, lent->how_len,
                               answer, VENTOLAIRE_ANSWER_LEN);
            require(error == VENTOLAIRE_EMFILE ? answer[VENTOLAIRE_ANSWER_ERRNO] == 0
                                               : memcmp(reply, answer, sizeof answer) == 0,
                    "an open is not the resolve from its handle");
        }
    if (error == 0 && reply[VENTOLAIRE_REPLY_MOUNT] == 0 && reply[VENTOLAIRE_REPLY_NODE] == root)
        require(after->slots[reply[VENTOLAIRE_REPLY_DESCRIPTOR]] == script->roots[call->mark],
                "what was opened is another place, or has another mark");
}

/* One call: with too little room, with just enough, and once more with more room
 * and, where the table is accepted, without its check. */
static void make_call(const struct call *call, const struct lent *lent,
                      const struct script *script, slots *table)
{
    uint64_t reply[OUT_ROOM], again[OUT_ROOM];
    slots before = *table, copy = *table;

    prepare(again);
    uint64_t *out = script->too_short == 0 ? NULL : again;
    require(ask(call, lent, false, table, out, script->too_short) == 0
                && (!script->accepted
                    || ask(call, lent, true, table, out, script->too_short) == 0),
            "a reply was written into too little room");
    require_untouched(again, 0);
    require(equal(&before, table), "a call without room for its reply changed a slot");

    prepare(reply);
    require(ask(call, lent, false, table, reply, VENTOLAIRE_REPLY_LEN) == VENTOLAIRE_REPLY_LEN,
            "wrong count of a reply");
    require_untouched(reply, VENTOLAIRE_REPLY_LEN);
    require_unchanged(lent);
    require_reply(call, lent, script->accepted, &before, table, reply);
    require_root(call, lent, script, &before, table, reply);

    prepare(again);
    require(ask(call, lent, script->accepted, &copy, again, OUT_ROOM) == VENTOLAIRE_REPLY_LEN,
            "wrong count with more room, or over an accepted table");
    require(memcmp(reply, again, sizeof reply) == 0 && equal(&copy, table),
            "another reply with more room, or over an accepted table");
    require_unchanged(lent);

    /* A mark that is set stays as it is. */
    if (call->kind == SET_MARK) {
        ask(call, lent, false, &copy, again, OUT_ROOM);
        require(memcmp(reply, again, sizeof reply) == 0 && equal(&copy, table),
                "a mark set twice is not the mark set once");
    }
    note_answer(call->kind + 1, reply);
}

/* Descriptors as they start; what was in the table before does not matter. */
static void start(const struct lent *lent, const struct script *script, slots *table)
{
    uint64_t checked[OUT_ROOM], again[OUT_ROOM];
    slots before, once_more;
    memset(table, 0xA5, sizeof *table);
    before = once_more = *table;

    prepare(checked);
    require(ventolaire_start(lent->image, lent->image_len, table, checked, 1) == 0,
            "start wrote into too little room");
    require_untouched(checked, 0);
    require(equal(&before, table), "a start without room for its answer changed a slot");

    prepare(again);
    ventolaire_check(lent->image, lent->image_len, again, VENTOLAIRE_CHECK_LEN);
    require(ventolaire_start(lent->image, lent->image_len, table, checked, VENTOLAIRE_CHECK_LEN)
                == VENTOLAIRE_CHECK_LEN,
            "wrong count from start");
    require(memcmp(checked, again, sizeof checked) == 0, "check and start differ");
    require_unchanged(lent);

    slots expected = {{0}};
    if (script->accepted) {
        expected.slots[0] = table->slots[0];
        require(expected.slots[0] != 0, "descriptor 0 is not open at the start");
        ventolaire_start_accepted(lent->image, lent->image_len, &once_more);
        require(equal(table, &once_more), "another start over an accepted table");
    }
    require(equal(table, &expected), "more is open at the start than descriptor 0");
    require_unchanged(lent);
}

/* The slots that an input's numbers give; those that are missing are closed. */
static void fill(const struct script *script, slots *table)
{
    memset(table, 0, sizeof *table);
    for (size_t i = 0; i < VENTOLAIRE_DESCRIPTORS && 8 * (i + 1) <= script->numbers_len; i++)
        table->slots[i] = number_at(script->numbers + 8 * i, 8);
}

static void find_roots(const struct lent *lent, struct script *script)
{
    uint64_t reply[VENTOLAIRE_REPLY_LEN];
    slots started;
    ventolaire_start_accepted(lent->image, lent->image_len, &started);
    script->roots[0] = started.slots[0];
    ventolaire_set_mark(lent->image, lent->image_len, &started, 0, reply, VENTOLAIRE_REPLY_LEN);
    script->roots[1] = started.slots[0];
    require(reply[VENTOLAIRE_REPLY_ERRNO] == 0 && script->roots[0] != script->roots[1],
            "the mark was not set on mount 0's root");
}

/* The next call of an input; its path and open_how are lent. */
static struct call next(const uint8_t **data, size_t *size, const struct script *script,
                        struct lent *lent)
{
    size_t head = 2;
    const uint8_t *bytes = cut(data, size, &head);
    struct call call = {bytes[0] & 3, bytes[0] >> 2 & 1, number_of(bytes[1])};
    lent->path_len = lent->how_len = 0;
    if (call.kind == OPEN && *size >= 4) {
        size_t lengths = 4;
        bytes = cut(data, size, &lengths);
        lent->path_len = (size_t)number_at(bytes, 2);
        lent->how_len = (size_t)number_at(bytes + 2, 2);
    }
    lent->path_before = cut(data, size, &lent->path_len);
    lent->how_before = cut(data, size, &lent->how_len);
    lent->path = place(script->path, lent->path_before, lent->path_len);
    lent->how = place(script->how, lent->how_before, lent->how_len);
    return call;
}

void run_script(struct script script, struct lent lent)
{
    static struct fence fence;
    if (fence.end == NULL)
        fence = make_fence();
    slots *table = (slots *)(void *)(fence.end - sizeof *table);
    lent.path_len = lent.how_len = 0;
    lent.path = lent.how = fence.end;
    lent.path_before = lent.how_before = fence.end;
    if (script.accepted)
        find_roots(&lent, &script);
    if (script.numbers_len == 0)
        start(&lent, &script, table);
    else
        fill(&script, table);
    for (int made = 0; made < CALLS && script.calls_len >= 2; made++) {
        struct call call = next(&script.calls, &script.calls_len, &script, &lent);
        make_call(&call, &lent, &script, table);
    }
}
