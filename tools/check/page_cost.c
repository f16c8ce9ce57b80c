/* Check 10: a page's cells among its claimants, counted here. */
#include <inttypes.h>

#include "orders.h"
#include "seen.h"

enum { NOBODY, ONE, MORE, BEYOND, BROKEN };

static uint64_t claimants(const cetomuhi_state *state, size_t page)
{
    uint64_t number = 0;
    for (size_t p = 0; p < CETOMUHI_PRINCIPALS; p++)
        number += cetomuhi_count_at(state, p, page) > 0;
    return number;
}

/* Asks, and nothing is changed. */
static cetomuhi_cost ask(trial *t, uint64_t page)
{
    const cetomuhi_cost cost = cetomuhi_machine_page_cost(&t->machine, page);
    if (memcmp(&t->machine.state, &t->before.state, sizeof t->before.state) != 0)
        fail(t, "the question about page %" PRIu64 " changed the state", page);
    return cost;
}

static void expect_refusal(trial *t, uint64_t page, uint64_t code)
{
    const cetomuhi_cost cost = ask(t, page);
    if (cost.code != code || cost.share != 0 || cost.remainder != 0)
        fail(t,
             "the cost of page %" PRIu64 " is answered with %" PRIu64 " %" PRIu64 " %" PRIu64
             " and not %" PRIu64 " 0 0",
             page, cost.code, cost.share, cost.remainder, code);
}

/* 16 = n * share + remainder, and the remainder is below n. */
static void expect_cost(trial *t, uint64_t page, uint64_t n)
{
    const cetomuhi_cost cost = ask(t, page);
    const bool adds_up = cost.share <= 16 && cost.remainder <= 16 &&
                         n * cost.share + cost.remainder == 16 &&
                         (n == 0 ? cost.share == 0 : cost.remainder < n);
    if (cost.code != 0 || !adds_up)
        fail(t,
             "page %" PRIu64 " has %" PRIu64 " claimants and is answered with code %" PRIu64
             ", share %" PRIu64 ", remainder %" PRIu64,
             page, n, cost.code, cost.share, cost.remainder);
    tally(t, n == 0 ? NOBODY : n == 1 ? ONE : MORE);
}

static void expect_all(trial *t)
{
    const uint64_t v = cetomuhi_page_count(&t->machine.state);
    for (uint64_t page = 0; page < v; page++)
        expect_cost(t, page, claimants(&t->machine.state, page));
    expect_refusal(t, v, CETOMUHI_REFUSED_NO_SUCH_PAGE);
    expect_refusal(t, v + 1 + below(t, 300), CETOMUHI_REFUSED_NO_SUCH_PAGE);
    expect_refusal(t, UINT64_C(1) << (9 + below(t, 55)), CETOMUHI_REFUSED_NO_SUCH_PAGE);
    tally(t, BEYOND);
}

/* A state that is not well formed, for a page that there is and one that there is not. */
static void expect_ill_formed(trial *t)
{
    t->machine.state.principals[0] += 1; /* the limits add up to 8,193 */
    keep(t);
    expect_refusal(t, 0, CETOMUHI_REFUSED_ILL_FORMED);
    expect_refusal(t, 999, CETOMUHI_REFUSED_ILL_FORMED);
    t->machine.state.principals[0] -= 1;
    keep(t);
    tally(t, BROKEN);
}

/* 32 principals claim page 1 one after another, each up to three times, and let go again. */
static void in_fixed_order(trial *t)
{
    start(t, 2, 1);
    for (uint64_t p = 1; p < CETOMUHI_PRINCIPALS; p++)
        set_up(t, cetomuhi_create(0, 0, p, 2, p % 8));
    for (uint64_t p = 0; p < CETOMUHI_PRINCIPALS; p++) {
        expect_cost(t, 1, p);
        for (uint64_t i = 0; i <= p % 3; i++) {
            set_up(t, cetomuhi_claim(p % 8, p, 1));
            expect_cost(t, 1, p + 1);
        }
        expect_cost(t, 0, 0);
    }
    for (uint64_t p = 0; p < CETOMUHI_PRINCIPALS; p++)
        for (uint64_t i = 0; i <= p % 3; i++) {
            set_up(t, cetomuhi_release(p % 8, p, 1));
            expect_cost(t, 1, CETOMUHI_PRINCIPALS - p - (i == p % 3));
        }
    expect_refusal(t, 2, CETOMUHI_REFUSED_NO_SUCH_PAGE);
    expect_refusal(t, 256, CETOMUHI_REFUSED_NO_SUCH_PAGE);
    expect_refusal(t, UINT64_C(1) << 32, CETOMUHI_REFUSED_NO_SUCH_PAGE);
    expect_refusal(t, UINT64_MAX, CETOMUHI_REFUSED_NO_SUCH_PAGE);
    expect_ill_formed(t);
}

static void in_random_order(trial *t)
{
    static const weights often = {[CETOMUHI_CREATE] = 6,
                                  [CETOMUHI_CLAIM] = 12,
                                  [CETOMUHI_RELEASE] = 4,
                                  [CETOMUHI_DESTROY] = 1};
    start(t, 1 + below(t, 4), 1);
    for (int i = 0; i < 4; i++) {
        make_likely(t, often, 8);
        expect_all(t);
    }
    expect_ill_formed(t);
}

const check page_cost = {
    "page-cost",
    "Sharing the cost of a page (2026-11): houses that claim one page split its 16 cells on the "
    "bill.",
    "32 principals claim a page one after another, up to three times each, and let go again; pages "
    "that there are not; a state that is not well formed",
    "creates, claims, releases and destroys, and the cost of every page",
    "16 is not claimants times share and remainder, the remainder is not below them, or with none "
    "it is not 0 and 16; a page of V or more is not refused under 12, a broken state not under 1",
    {"pages with no claimant", "pages with one", "pages with more", "questions about pages past V",
     "questions about broken states"},
    NULL,
    NULL,
    in_fixed_order,
    in_random_order,
};
