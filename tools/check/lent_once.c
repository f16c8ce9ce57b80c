/* Check 1: the cells that were taken are known, and each of them is lent once. */
#include <inttypes.h>

#include "orders.h"
#include "seen.h"

enum { GRANTED, REFUSED, COLLECTED };

static bool taken[CELLS * CETOMUHI_PAGES];
static revocation revoked;

static void begin(trial *t)
{
    (void)t;
    memset(taken, 0, sizeof taken);
    revoked = (revocation){false, {0, 0}, 0};
}

/* A take was granted: none of its cells was taken, and the register has all there is of it. */
static void watch_take(trial *t, const cetomuhi_call *call, cetomuhi_answer answer)
{
    const range cells = {call->numbers[2], answer.number};
    const uint64_t end = CELLS * cetomuhi_page_count(&t->machine.state);
    const size_t at = CETOMUHI_REGISTERS * call->numbers[1] + call->numbers[3];
    const uint64_t word = t->machine.state.words[at];
    char where[80];
    if (cells.length == 0 || cells.base >= end || cells.length > end - cells.base)
        fail(t, "a take is answered with length %" PRIu64, cells.length);
    for (uint64_t cell = cells.base; cell < cells.base + cells.length; cell++) {
        if (taken[cell])
            fail(t, "cell %" PRIu64 " is lent twice: a take of it is granted while it is taken",
                 cell);
        taken[cell] = true;
    }
    if (t->machine.state.marks[at] == 0 ||
        (word & 0xFFFFFFFF) != capability(cells.base, cells.length, 0))
        fail(t, "the register holds no capability for the cells taken");
    if (find_tagged(&t->machine, cells, reaches_into, at, where, sizeof where))
        fail(t, "right after the take another capability reaches into the range, in %s", where);
    tally(t, GRANTED);
}

/* Open ones have no cell that is taken, Taken ones no other. */
static void watch_rows(trial *t)
{
    const cetomuhi_state *state = &t->machine.state;
    for (size_t i = 0; i < cetomuhi_row_count(state); i++) {
        const cetomuhi_reservation row = cetomuhi_reservation_at(state, i);
        for (uint64_t cell = row.base; cell < (uint64_t)row.base + row.length; cell++) {
            if (row.state == CETOMUHI_OPEN && taken[cell])
                fail(t, "cell %" PRIu64 " was taken, and its reservation is Open", cell);
            if (row.state == CETOMUHI_TAKEN && !taken[cell])
                fail(t, "cell %" PRIu64 " was not taken, and its reservation is Taken", cell);
        }
    }
}

static void watch(trial *t, const cetomuhi_call *call, cetomuhi_answer answer)
{
    const uint64_t kind = call->numbers[0];
    const bool takes = kind == CETOMUHI_TAKE || kind == CETOMUHI_TAKE_MASKED;
    const uint64_t base = call->numbers[2];
    if (was_take(call, answer))
        watch_take(t, call, answer);
    else if (takes && answer.code > 4 && base < sizeof taken && taken[base])
        tally(t, REFUSED);
    follow(&revoked, t, call, answer);
    if (was_granted(call, answer, CETOMUHI_COLLECT)) {
        memset(taken + revoked.cells.base, 0, revoked.cells.length);
        tally(t, COLLECTED);
    }
    if (answer.code == CETOMUHI_GRANTED)
        watch_rows(t);
}

/* Party 1 takes cells 0 to 15; by no way does anybody take one of them again. */
static void take_twice(trial *t)
{
    start(t, 2, 1);
    set_up(t, cetomuhi_split(0, 0, 16));
    set_up(t, cetomuhi_give(0, 0, 1));
    set_up(t, cetomuhi_take(1, 0, 0));
    for (uint64_t party = 0; party < CETOMUHI_PARTIES; party++) {
        const uint64_t code = party == 0 ? 7 : 6;
        expect(t, cetomuhi_take(party, 0, 1), code);
        expect(t, cetomuhi_take_masked(party, 0, 1, 15), code);
        expect(t, cetomuhi_give(party, 0, 2), code);
        expect(t, cetomuhi_split(party, 0, 8), code);
        expect(t, cetomuhi_merge(party, 0), code);
    }
    expect(t, cetomuhi_grant(2, 0, 3), 15);
    expect(t, cetomuhi_grant(1, 0, 3), 0);
    expect_answer(t, cetomuhi_receive(3, 0), capability(0, 16, 3), 1);
}

/* Copies in memory and in a mailbox are gone when the range is lent again. */
static void take_again(trial *t)
{
    start(t, 2, 1);
    set_up(t, cetomuhi_zero(0, 0));
    set_up(t, cetomuhi_map(0, 1, 0));
    set_up(t, cetomuhi_split(0, 0, 16));
    set_up(t, cetomuhi_give(0, 0, 1));
    set_up(t, cetomuhi_give(0, 16, 1));
    set_up(t, cetomuhi_take_masked(1, 0, 0, 15));
    set_up(t, cetomuhi_take_masked(1, 16, 1, 15));
    set_up(t, cetomuhi_store(1, 1, 3, 0));
    set_up(t, cetomuhi_grant(1, 0, 2));
    expect(t, cetomuhi_take(0, 0, 0), 7);
    set_up(t, cetomuhi_revoke(0, 0));
    expect(t, cetomuhi_take(0, 0, 0), 7);
    expect(t, cetomuhi_give(0, 0, 2), 7);
    expect_answer(t, cetomuhi_sweep(0, 16), 0, 0);
    expect(t, cetomuhi_take(0, 0, 0), 7);
    set_up(t, cetomuhi_collect(0));
    expect(t, cetomuhi_take(1, 0, 2), 6);
    set_up(t, cetomuhi_give(0, 0, 2));
    expect_answer(t, cetomuhi_take(2, 0, 0), 16, 0);
    expect(t, cetomuhi_grant(1, 0, 3), 15);
    expect_answer(t, cetomuhi_load(1, 1, 3, 2), capability(0, 16, 15), 0);
    expect(t, cetomuhi_receive(2, 1), 19);
    expect(t, cetomuhi_take(0, 0, 0), 7);
}

/* Taken ones merge for party 0 alone, and what they have become is lent once, too. */
static void take_halves(trial *t)
{
    start(t, 2, 1);
    set_up(t, cetomuhi_split(0, 0, 8));
    set_up(t, cetomuhi_split(0, 8, 8));
    set_up(t, cetomuhi_give(0, 0, 1));
    set_up(t, cetomuhi_take(1, 0, 0));
    expect(t, cetomuhi_merge(0, 0), 7);
    set_up(t, cetomuhi_take(0, 8, 0));
    expect(t, cetomuhi_merge(0, 8), 7);
    expect(t, cetomuhi_merge(1, 0), 6);
    set_up(t, cetomuhi_merge(0, 0));
    expect(t, cetomuhi_take(0, 0, 1), 7);
    expect(t, cetomuhi_take(1, 0, 1), 6);
    expect(t, cetomuhi_take(0, 8, 1), 6);
    expect(t, cetomuhi_split(0, 0, 8), 7);
}

static void in_fixed_order(trial *t)
{
    take_twice(t);
    take_again(t);
    take_halves(t);
}

static void in_random_order(trial *t)
{
    static const weights often = {
        [CETOMUHI_TAKE] = 8,   [CETOMUHI_TAKE_MASKED] = 6, [CETOMUHI_SPLIT] = 4,
        [CETOMUHI_MERGE] = 5,  [CETOMUHI_GIVE] = 5,        [CETOMUHI_REVOKE] = 3,
        [CETOMUHI_SWEEP] = 3,  [CETOMUHI_COLLECT] = 3,     [CETOMUHI_UNMAP] = 2,
        [CETOMUHI_STORE] = 3,  [CETOMUHI_NARROW] = 1,      [CETOMUHI_GRANT] = 2,
        [CETOMUHI_RECEIVE] = 1};
    const uint64_t v = 2 + below(t, 4);
    settle(t, v, 1 + below(t, 2), CETOMUHI_PARTIES);
    make_likely(t, often, 20);
    if (begin_revocation(t)) {
        make_likely(t, often, 10);
        make(t, cetomuhi_sweep(0, CETOMUHI_MEMORY_CELLS));
        make(t, cetomuhi_collect(0));
    }
    make_likely(t, often, 10);
}

const check lent_once = {
    "lent-once",
    "Take one range twice. Catches a range lent to two houses.",
    "party 1 takes cells 0 to 15, then every party tries again, also by giving, splitting and "
    "merging, while a revocation runs, and after its collect",
    "takes, splits, merges, gives and revocations of 2 to 5 pages among 8 parties",
    "a take is granted of a cell that is taken; right after a take another register, mailbox or "
    "mapped cell holds a capability into the range; a taken cell lies in an Open reservation",
    {"takes granted", "takes of a taken cell refused", "collects"},
    begin,
    watch,
    in_fixed_order,
    in_random_order,
};
