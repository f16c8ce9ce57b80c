/* Check 8: what a load answers, leaves in the register and leaves in memory, exactly. */
#include <inttypes.h>

#include "dying.h"
#include "orders.h"

enum { DYING, OUTSIDE, NONE_RUNS, AT_ONCE };

static revocation revoked;

static void begin(trial *t)
{
    (void)t;
    revoked = (revocation){false, {0, 0}, 0};
}

static void tally_load(trial *t, uint64_t at)
{
    if (t->before.tags[at] == 0)
        return;
    if (!revoked.runs)
        tally(t, NONE_RUNS);
    else
        tally(t, begins_in(revoked.cells, t->before.cells[at]) ? DYING : OUTSIDE);
}

static void watch_load(trial *t, const cetomuhi_call *call, cetomuhi_answer answer)
{
    const uint64_t at = addressed_cell(t, call);
    const uint64_t party = call->numbers[1];
    const cetomuhi_word through = cetomuhi_register_at(&t->before.state, party, call->numbers[2]);
    const cetomuhi_word got = cetomuhi_register_at(&t->machine.state, party, call->numbers[4]);
    const bool may = through.cell >> 32 & CETOMUHI_MAY_LOAD_CAPABILITY;
    const uint64_t word = t->before.cells[at];
    const bool tag = t->before.tags[at] != 0 && may && !is_dying(&revoked, word);
    if (answer.number != word || got.cell != word)
        fail(t, "a load answers or leaves another number than the cell's %" PRIu64, word);
    if (answer.tag != tag || got.tag != tag)
        fail(t, "a load of a capability answers or leaves tag %u and not %u, %s",
             (unsigned)(answer.tag | got.tag), tag,
             revoked.runs ? "while a revocation runs" : "and no revocation runs");
    if (memcmp(t->machine.cells, t->before.cells, sizeof t->before.cells) != 0 ||
        memcmp(t->machine.tags, t->before.tags, sizeof t->before.tags) != 0)
        fail(t, "a load changed lent memory");
    tally_load(t, at);
}

static void watch(trial *t, const cetomuhi_call *call, cetomuhi_answer answer)
{
    follow(&revoked, t, call, answer);
    if (was_granted(call, answer, CETOMUHI_LOAD))
        watch_load(t, call, answer);
}

/* Party 1 has three pages in registers 0 to 2, of which page 0 is Mapped; parts of page 1 and page
 * 0 in 3 and 4; and each but the first in cells 1 to 4. */
static void store_each(trial *t)
{
    start(t, 3, 1);
    set_up(t, cetomuhi_zero(0, 0));
    set_up(t, cetomuhi_map(0, 0, 0));
    set_up(t, cetomuhi_split(0, 0, 16));
    set_up(t, cetomuhi_split(0, 16, 16));
    for (uint64_t page = 0; page < 3; page++) {
        set_up(t, cetomuhi_give(0, 16 * page, 1));
        set_up(t, cetomuhi_take_masked(1, 16 * page, page, 15));
    }
    set_up(t, cetomuhi_narrow(1, 1, 15, 1, 15, 3));
    set_up(t, cetomuhi_narrow(1, 0, 15, 1, 15, 4));
    for (uint64_t reg = 1; reg <= 4; reg++)
        set_up(t, cetomuhi_store(1, 0, reg, reg));
}

/* Loads what store_each stored: what begins in page 1 has tag `dying`, the rest 1. */
static void load_each(trial *t, uint64_t dying)
{
    expect_answer(t, cetomuhi_load(1, 0, 1, 5), capability(16, 16, 15), dying);
    expect(t, cetomuhi_grant(1, 5, 5), dying ? 0 : 15);
    expect_answer(t, cetomuhi_load(1, 0, 3, 6), capability(31, 1, 15), dying);
    expect(t, cetomuhi_narrow(1, 6, 0, 1, 15, 7), dying ? 0 : 15);
    expect_answer(t, cetomuhi_load(1, 0, 2, 6), capability(32, 16, 15), 1);
    expect_answer(t, cetomuhi_load(1, 0, 4, 6), capability(15, 1, 15), 1);
}

static void expect_tags(trial *t, const uint8_t tags[4])
{
    if (memcmp(t->machine.tags + 1, tags, 4) != 0)
        fail(t, "the tags in cells 1 to 4 are not %u %u %u %u", tags[0], tags[1], tags[2], tags[3]);
}

static void in_fixed_order(trial *t)
{
    store_each(t);
    load_each(t, 1);
    set_up(t, cetomuhi_receive(5, 0));
    set_up(t, cetomuhi_revoke(0, 16));
    load_each(t, 0);
    expect_tags(t, (const uint8_t[]){1, 1, 1, 1});
    set_up(t, cetomuhi_narrow(1, 0, 0, 16, 11, 7)); /* without permission 4 */
    expect_answer(t, cetomuhi_load(1, 7, 1, 5), capability(16, 16, 15), 0);
    expect_answer(t, cetomuhi_load(1, 7, 2, 5), capability(32, 16, 15), 0);
    set_up(t, cetomuhi_grant(1, 1, 2)); /* a register keeps its tag until the collect */
    expect_answer(t, cetomuhi_receive(2, 0), capability(16, 16, 15), 1);
    expect_answer(t, cetomuhi_sweep(0, 2), 14, 0);
    expect_tags(t, (const uint8_t[]){0, 1, 1, 1});
    load_each(t, 0);
    expect_answer(t, cetomuhi_sweep(0, 14), 0, 0);
    expect_tags(t, (const uint8_t[]){0, 1, 0, 1});
    load_each(t, 0);
    set_up(t, cetomuhi_collect(0));
    load_each(t, 0);
    set_up(t, cetomuhi_take_masked(0, 16, 0, 15));
    set_up(t, cetomuhi_grant(0, 0, 1));
    set_up(t, cetomuhi_receive(1, 5));
    set_up(t, cetomuhi_store(1, 0, 5, 5));
    expect_answer(t, cetomuhi_load(1, 0, 5, 6), capability(16, 16, 15), 1);
}

static void in_random_order(trial *t)
{
    static const weights before = {[CETOMUHI_STORE] = 8,
                                   [CETOMUHI_LOAD] = 4,
                                   [CETOMUHI_NARROW] = 3,
                                   [CETOMUHI_GRANT] = 2,
                                   [CETOMUHI_RECEIVE] = 2};
    static const weights during = {
        [CETOMUHI_STORE] = 4, [CETOMUHI_LOAD] = 9,  [CETOMUHI_NARROW] = 2,
        [CETOMUHI_SWEEP] = 2, [CETOMUHI_GRANT] = 1, [CETOMUHI_RECEIVE] = 2};
    const uint64_t v = 3 + below(t, 3);
    const uint64_t f = v - below(t, 2);
    settle(t, v, f, 1 + below(t, 2));
    make_likely(t, before, 25);
    if (!begin_revocation(t))
        return;
    for (int i = 0; i < 5; i++) {
        make_likely(t, during, 4);
        if (!load_dying(t, &revoked, 7))
            continue;
        const cetomuhi_call *last = &t->calls[(t->doing->made - 1) % LAST_CALLS];
        expect(t, cetomuhi_grant(last->numbers[1], 7, 3), CETOMUHI_REFUSED_UNTAGGED);
        tally(t, AT_ONCE);
    }
    end_revocation(t);
    make_likely(t, before, 6);
}

const check load_filtered = {
    "load-filtered",
    "The new board filters loads (2026-05): while a revocation runs, a dying capability is loaded "
    "without its tag.",
    "capabilities in the range, at its edges and outside it are loaded before a revocation, while "
    "it runs, behind and ahead of the sweep, and after the collect",
    "stores, loads, narrowings, grants, receives and sweeps around a revocation, and a grant of "
    "what was just loaded",
    "a load of a dying capability leaves or answers its tag; one of another loses it, or when no "
    "revocation runs; the number is not the cell's; the load changes memory",
    {"dying capabilities loaded", "other capabilities loaded meanwhile",
     "capabilities loaded when no revocation ran", "grants of what was just loaded refused"},
    begin,
    watch,
    in_fixed_order,
    in_random_order,
};
