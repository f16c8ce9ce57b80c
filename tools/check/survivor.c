/* Check 3: what a sweep, a collect and the stores and loads around them do to tags, exactly; and
 * after a collect nothing is left of the range. */
#include <inttypes.h>

#include "dying.h"
#include "orders.h"

enum { COLLECTED, BEHIND, LOADED, CLEARED, SPARED, EARLY };

static revocation revoked;

static void begin(trial *t)
{
    (void)t;
    revoked = (revocation){false, {0, 0}, 0};
}

/* Tags change where the sweep passed a Mapped frame and the capability begins in the range; numbers
 * never do. */
static void watch_sweep(trial *t, cetomuhi_answer answer, uint64_t left_before)
{
    const uint64_t all = lent_cells(&t->before.state);
    if (answer.number != revoked.left)
        fail(t, "a sweep answers %" PRIu64 " cells left and not %" PRIu64, answer.number,
             revoked.left);
    for (uint64_t at = 0; at < all; at++) {
        const uint64_t word = t->before.cells[at];
        const bool passed =
            at >= all - left_before && at < all - revoked.left &&
            cetomuhi_frame_at(&t->before.state, at / CELLS) == CETOMUHI_FRAME_MAPPED;
        const bool clears = passed && begins_in(revoked.cells, word);
        if (t->machine.cells[at] != word)
            fail(t, "a sweep changed the number in cell %" PRIu64 " of lent memory", at);
        if (t->machine.tags[at] != (clears ? 0 : t->before.tags[at]))
            fail(t, "a sweep %s the tag in cell %" PRIu64 " of lent memory",
                 clears ? "left" : "changed", at);
        if (t->before.tags[at] != 0 && clears)
            tally(t, CLEARED);
        if (t->before.tags[at] != 0 && passed && !clears)
            tally(t, SPARED);
    }
}

/* Registers lose the tags of what begins in the range and nothing else; such mailboxes are empty.
 */
static void watch_collect(trial *t)
{
    const cetomuhi_state *was = &t->before.state;
    const cetomuhi_state *is = &t->machine.state;
    char where[80];
    if (find_tagged(&t->machine, revoked.cells, begins_in, NO_REGISTER, where, sizeof where))
        fail(t, "a survivor: after the collect a capability into the range is in %s", where);
    for (size_t i = 0; i < CETOMUHI_WORDS; i++) {
        const bool dies = begins_in(revoked.cells, was->words[i]);
        if (is->words[i] != was->words[i] || is->marks[i] != (dies ? 0 : was->marks[i]))
            fail(t, "a collect changed register %zu of party %zu, which is not in the range", i % 8,
                 i / 8);
    }
    for (size_t i = 0; i < CETOMUHI_PARTIES; i++) {
        const bool dies = begins_in(revoked.cells, was->mail[i]);
        if (is->mail[i] != (dies ? 0 : was->mail[i]) || is->flags[i] != (dies ? 0 : was->flags[i]))
            fail(t, "after the collect the mailbox of party %zu is wrong", i);
    }
    if (memcmp(t->machine.cells, t->before.cells, sizeof t->before.cells) != 0 ||
        memcmp(t->machine.tags, t->before.tags, sizeof t->before.tags) != 0)
        fail(t, "a collect changed lent memory");
    tally(t, COLLECTED);
}

static void watch_store(trial *t, const cetomuhi_call *call)
{
    const size_t from = CETOMUHI_REGISTERS * call->numbers[1] + call->numbers[4];
    const uint64_t at = addressed_cell(t, call);
    const uint64_t word = t->before.state.words[from];
    const bool dies = is_dying(&revoked, word);
    const uint64_t all = lent_cells(&t->before.state);
    if (t->machine.cells[at] != word)
        fail(t, "a store left another number in the cell than the register's");
    if (t->machine.tags[at] != (dies ? 0 : t->before.state.marks[from]))
        fail(t, dies ? "a dying capability was stored with its tag"
                     : "a store of a capability that is not dying changed its tag");
    if (dies && t->before.state.marks[from] != 0 && at < all - revoked.left)
        tally(t, BEHIND);
}

static void watch_load(trial *t, const cetomuhi_call *call, cetomuhi_answer answer)
{
    const uint64_t at = addressed_cell(t, call);
    const bool dies = is_dying(&revoked, t->before.cells[at]);
    if (answer.number != t->before.cells[at])
        fail(t, "a load answers another number than the cell's");
    if (dies && answer.tag != 0)
        fail(t, "a dying capability was loaded with its tag");
    if (dies && t->before.tags[at] != 0)
        tally(t, LOADED);
}

static void watch(trial *t, const cetomuhi_call *call, cetomuhi_answer answer)
{
    const uint64_t left = revoked.left;
    const bool may_collect = revoked.runs && left == 0;
    follow(&revoked, t, call, answer);
    if (was_granted(call, answer, CETOMUHI_COLLECT) && !may_collect)
        fail(t, "a collect is granted with %" PRIu64 " cells left to sweep", left);
    if (call->numbers[0] == CETOMUHI_COLLECT && answer.code == CETOMUHI_REFUSED_REVOCATION_ORDER) {
        if (may_collect)
            fail(t, "a collect is refused with no cell left to sweep");
        tally(t, EARLY);
    }
    if (was_granted(call, answer, CETOMUHI_SWEEP))
        watch_sweep(t, answer, left);
    if (was_granted(call, answer, CETOMUHI_COLLECT))
        watch_collect(t);
    if (was_granted(call, answer, CETOMUHI_STORE))
        watch_store(t, call);
    if (was_granted(call, answer, CETOMUHI_LOAD))
        watch_load(t, call, answer);
}

/* Party 1, the loader, has page 0 to keep things in and page 1, the entries, in register 1; a part
 * of them in register 2 and in cell 3; and one in the mailbox of party 2. */
static void keep_entries(trial *t)
{
    start(t, 2, 2);
    for (uint64_t page = 0; page < 2; page++) {
        set_up(t, cetomuhi_zero(0, page));
        set_up(t, cetomuhi_map(0, page, page));
    }
    set_up(t, cetomuhi_split(0, 0, 16));
    for (uint64_t page = 0; page < 2; page++) {
        set_up(t, cetomuhi_give(0, 16 * page, 1));
        set_up(t, cetomuhi_take_masked(1, 16 * page, page, 15));
    }
    set_up(t, cetomuhi_narrow(1, 1, 15, 1, 15, 2));
    set_up(t, cetomuhi_store(1, 0, 3, 2));
    set_up(t, cetomuhi_store(1, 0, 4, 0));
    set_up(t, cetomuhi_store(1, 0, 12, 1));
    set_up(t, cetomuhi_grant(1, 1, 2));
    set_up(t, cetomuhi_unmap(0, 1));
    set_up(t, cetomuhi_revoke(0, 16));
}

/* Start a revocation, go on storing old capabilities behind the sweep, collect. */
static void store_behind(trial *t)
{
    keep_entries(t);
    expect(t, cetomuhi_collect(0), 11);
    expect_answer(t, cetomuhi_sweep(0, 10), 22, 0);
    set_up(t, cetomuhi_store(1, 0, 6, 1));
    set_up(t, cetomuhi_store(1, 0, 14, 2));
    expect(t, cetomuhi_collect(0), 11);
    expect_answer(t, cetomuhi_load(1, 0, 12, 3), capability(16, 16, 15), 0);
    set_up(t, cetomuhi_receive(2, 0));
    set_up(t, cetomuhi_narrow(2, 0, 2, 3, 15, 1));
    set_up(t, cetomuhi_grant(2, 1, 3));
    expect_answer(t, cetomuhi_sweep(0, 21), 1, 0);
    expect(t, cetomuhi_collect(0), 11);
    expect_answer(t, cetomuhi_sweep(0, 0), 1, 0);
    expect_answer(t, cetomuhi_sweep(0, 1), 0, 0);
    set_up(t, cetomuhi_store(1, 0, 7, 1));
    expect(t, cetomuhi_revoke(0, 0), 11);
    set_up(t, cetomuhi_collect(0));
    expect(t, cetomuhi_collect(0), 11);
}

/* The fit check, party 2, has the entries now, and the loader writes nothing over them. */
static void write_over(trial *t)
{
    static const uint64_t kept[] = {6, 7, 12, 14};
    set_up(t, cetomuhi_zero(0, 1));
    set_up(t, cetomuhi_map(0, 1, 1));
    set_up(t, cetomuhi_give(0, 16, 2));
    set_up(t, cetomuhi_take(2, 16, 0));
    set_up(t, cetomuhi_number(2, 4, 7));
    set_up(t, cetomuhi_store(2, 0, 0, 4));
    set_up(t, cetomuhi_number(1, 4, 99));
    for (size_t i = 0; i < sizeof kept / sizeof kept[0]; i++) {
        const uint64_t word = kept[i] == 14 ? capability(31, 1, 15) : capability(16, 16, 15);
        expect_answer(t, cetomuhi_load(1, 0, kept[i], 3), word, 0);
        expect(t, cetomuhi_store(1, 3, 0, 4), 15);
    }
    expect_answer(t, cetomuhi_load(1, 0, 3, 3), capability(31, 1, 15), 0);
    expect_answer(t, cetomuhi_load(1, 0, 4, 3), capability(0, 16, 15), 1);
    expect(t, cetomuhi_store(1, 1, 0, 4), 15);
    expect(t, cetomuhi_store(1, 2, 0, 4), 15);
    expect(t, cetomuhi_narrow(2, 1, 0, 1, 15, 2), 15);
    expect(t, cetomuhi_receive(3, 0), 19);
    expect_answer(t, cetomuhi_load(2, 0, 0, 5), 7, 0);
}

static void in_fixed_order(trial *t)
{
    store_behind(t);
    write_over(t);
}

static void in_random_order(trial *t)
{
    static const weights before = {
        [CETOMUHI_STORE] = 8, [CETOMUHI_LOAD] = 2,   [CETOMUHI_NARROW] = 3,
        [CETOMUHI_GRANT] = 5, [CETOMUHI_NUMBER] = 1, [CETOMUHI_RECEIVE] = 4};
    static const weights during = {
        [CETOMUHI_STORE] = 10,  [CETOMUHI_LOAD] = 5,  [CETOMUHI_NARROW] = 3,  [CETOMUHI_GRANT] = 4,
        [CETOMUHI_RECEIVE] = 4, [CETOMUHI_SWEEP] = 5, [CETOMUHI_COLLECT] = 2, [CETOMUHI_UNMAP] = 1,
        [CETOMUHI_ZERO] = 1,    [CETOMUHI_MAP] = 2,   [CETOMUHI_TAKE] = 1};
    const uint64_t v = 3 + below(t, 3);
    const uint64_t f = v - below(t, 2);
    settle(t, v, f, 1 + below(t, 2));
    make_likely(t, before, 20);
    for (int i = 0; i < 2 && begin_revocation(t); i++) {
        for (int k = 0; k < 4 && revoked.runs; k++) {
            make_likely(t, during, 3);
            store_dying(t, &revoked);
            load_dying(t, &revoked, below(t, CETOMUHI_REGISTERS));
        }
        if (revoked.runs)
            end_revocation(t);
    }
}

const check survivor = {
    "survivor",
    "Start a revocation, go on storing old capabilities behind the sweep, collect. Catches a "
    "survivor.",
    "a loader stores the capability of its entries behind the sweep, ahead of it and after it, "
    "loads, narrows, grants and receives it in between; after the collect the fit check has the "
    "entries and the loader tries to write over them",
    "stores, loads, narrowings, grants, receives, sweeps and early collects around two revocations",
    "after a collect a register, mailbox or mapped cell holds a capability that begins in the "
    "range; a collect is granted while cells are left; a sweep or collect changes a number, or the "
    "tag of a capability that begins elsewhere",
    {"collects", "dying capabilities stored behind the sweep", "dying capabilities loaded",
     "tags cleared by sweeps", "tags kept by sweeps", "early collects refused"},
    begin,
    watch,
    in_fixed_order,
    in_random_order,
};
