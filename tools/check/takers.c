/* Check 7: who took each cell is known, and the table says so. */
#include <inttypes.h>

#include "orders.h"
#include "seen.h"

enum { OPEN, ONE, SEVERAL, REVOKING, NOBODY };

/* The party of a cell that is taken, or 9. */
static uint8_t who[CELLS * CETOMUHI_PAGES];
static revocation revoked;

static void begin(trial *t)
{
    (void)t;
    memset(who, CETOMUHI_TAKER_NONE, sizeof who);
    revoked = (revocation){false, {0, 0}, 0};
}

/* By who took its cells: nobody 9, one party its number, several 8. */
static uint8_t taker_of(cetomuhi_reservation row)
{
    const uint8_t first = who[row.base];
    for (size_t cell = row.base; cell < (size_t)row.base + row.length; cell++)
        if (who[cell] != first)
            return CETOMUHI_TAKER_SEVERAL;
    return first;
}

static void watch_row(trial *t, cetomuhi_reservation row)
{
    const uint8_t by = taker_of(row);
    const bool from_open = row.state == CETOMUHI_REVOKING && by == CETOMUHI_TAKER_NONE;
    const uint8_t taker = from_open ? 0 : by;
    if (row.taker != taker)
        fail(t, "the taker of the %s reservation at %u is %u and not %u",
             cetomuhi_reservation_word(row.state), row.base, row.taker, taker);
    if (from_open)
        tally(t, NOBODY);
    else if (row.state == CETOMUHI_REVOKING)
        tally(t, REVOKING);
    else if (taker == CETOMUHI_TAKER_NONE)
        tally(t, OPEN);
    else
        tally(t, taker == CETOMUHI_TAKER_SEVERAL ? SEVERAL : ONE);
}

static void watch(trial *t, const cetomuhi_call *call, cetomuhi_answer answer)
{
    const uint64_t base = call->numbers[2];
    follow(&revoked, t, call, answer);
    if (was_take(call, answer))
        memset(who + base, (int)call->numbers[1], row_at(&t->before.state, base).length);
    if (was_granted(call, answer, CETOMUHI_COLLECT))
        memset(who + revoked.cells.base, CETOMUHI_TAKER_NONE, revoked.cells.length);
    if (answer.code != CETOMUHI_GRANTED)
        return;
    for (size_t i = 0; i < cetomuhi_row_count(&t->machine.state); i++)
        watch_row(t, cetomuhi_reservation_at(&t->machine.state, i));
}

static void expect_taker(trial *t, uint64_t base, uint8_t taker)
{
    const cetomuhi_reservation row = row_at(&t->machine.state, base);
    if (row.length == 0 || row.taker != taker)
        fail(t, "the taker of the reservation at %" PRIu64 " is not %u", base, taker);
}

/* Six pages: two by party 3, one by 5, one by 0, two Open. */
static void take_pages(trial *t)
{
    static const uint8_t parties[] = {3, 3, 5, 0};
    start(t, 6, 1);
    expect_taker(t, 0, CETOMUHI_TAKER_NONE);
    for (uint64_t page = 0; page < 5; page++)
        set_up(t, cetomuhi_split(0, CELLS * page, CELLS));
    for (uint64_t page = 0; page < 4; page++) {
        set_up(t, cetomuhi_give(0, CELLS * page, parties[page]));
        expect_taker(t, CELLS * page, CETOMUHI_TAKER_NONE);
        set_up(t, cetomuhi_take(parties[page], CELLS * page, page));
        expect_taker(t, CELLS * page, parties[page]);
    }
}

static void revoke_and_collect(trial *t, uint64_t base, uint8_t taker)
{
    set_up(t, cetomuhi_revoke(0, base));
    expect_taker(t, base, taker);
    set_up(t, cetomuhi_sweep(0, CELLS));
    set_up(t, cetomuhi_collect(0));
    expect_taker(t, base, CETOMUHI_TAKER_NONE);
}

static void in_fixed_order(trial *t)
{
    take_pages(t);
    revoke_and_collect(t, 64, 0); /* was Open */
    expect_taker(t, 80, CETOMUHI_TAKER_NONE);
    set_up(t, cetomuhi_merge(0, 64));
    expect_taker(t, 64, CETOMUHI_TAKER_NONE);
    set_up(t, cetomuhi_merge(0, 0));
    expect_taker(t, 0, 3);
    set_up(t, cetomuhi_merge(0, 0));
    expect_taker(t, 0, CETOMUHI_TAKER_SEVERAL);
    set_up(t, cetomuhi_merge(0, 0));
    expect_taker(t, 0, CETOMUHI_TAKER_SEVERAL);
    revoke_and_collect(t, 0, CETOMUHI_TAKER_SEVERAL);
    take_pages(t);
    set_up(t, cetomuhi_merge(0, 16)); /* 3 and 5 */
    set_up(t, cetomuhi_merge(0, 0));  /* 3 and several */
    expect_taker(t, 0, CETOMUHI_TAKER_SEVERAL);
    revoke_and_collect(t, 48, 0); /* was party 0's */
    take_pages(t);
    revoke_and_collect(t, 32, 5);
}

static void in_random_order(trial *t)
{
    static const weights often = {
        [CETOMUHI_TAKE] = 5,  [CETOMUHI_TAKE_MASKED] = 3, [CETOMUHI_SPLIT] = 3,
        [CETOMUHI_MERGE] = 8, [CETOMUHI_GIVE] = 5,        [CETOMUHI_REVOKE] = 4,
        [CETOMUHI_SWEEP] = 3, [CETOMUHI_COLLECT] = 3};
    const uint64_t v = 3 + below(t, 4);
    start(t, v, 1);
    for (uint64_t page = 0; page + 1 < v; page++)
        set_up(t, cetomuhi_split(0, CELLS * page, CELLS));
    make_likely(t, often, 45);
}

const check takers = {
    "takers",
    "Who took it, written down (2026-04): which house took a range is in its record.",
    "two pages are taken by party 3, one by 5, one by 0, two are left Open; they are merged, "
    "revoked and collected",
    "gives, takes, splits, merges and revocations of 3 to 6 pages",
    "the taker of an Open reservation is not 9, of another not the party that took all of its "
    "cells, 8 where several did, 0 where it was revoked while Open",
    {"Open ones seen", "ones of one party", "ones of several", "Revoking ones that were taken",
     "Revoking ones that were Open"},
    begin,
    watch,
    in_fixed_order,
    in_random_order,
};
