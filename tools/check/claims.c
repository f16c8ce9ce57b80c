/* Check 6: principals and counts are kept beside the library's. */
#include <inttypes.h>

#include "orders.h"
#include "seen.h"

enum { CLAIMED, DESTROYED, BELOW, LIMIT, WRONG, HELD_BACK };

enum { MOST = 65535 }; /* a count */

typedef struct principal {
    bool in_being;
    uint64_t holder;
    uint64_t parent;
    uint64_t unspent;
} principal;

static principal known[CETOMUHI_PRINCIPALS];
static uint16_t counts[CETOMUHI_PRINCIPALS][CETOMUHI_PAGES];

static void begin(trial *t)
{
    (void)t;
    memset(known, 0, sizeof known);
    memset(counts, 0, sizeof counts);
    known[0] = (principal){true, 0, 0, CETOMUHI_WHOLE_LIMIT};
}

static bool holds(uint64_t party, uint64_t number)
{
    return number < CETOMUHI_PRINCIPALS && known[number].in_being && known[number].holder == party;
}

static bool is_claimed(uint64_t page)
{
    for (size_t p = 0; p < CETOMUHI_PRINCIPALS; p++)
        if (counts[p][page] > 0)
            return true;
    return false;
}

static uint64_t code_of_create(const uint64_t *numbers)
{
    if (!holds(numbers[1], numbers[2]) || numbers[3] >= CETOMUHI_PRINCIPALS ||
        known[numbers[3]].in_being)
        return CETOMUHI_REFUSED_WRONG_PRINCIPAL;
    return known[numbers[2]].unspent < numbers[4] ? CETOMUHI_REFUSED_CLAIM_LIMIT : 0;
}

static uint64_t code_of_claim(const uint64_t *numbers, uint64_t v)
{
    if (numbers[3] >= v)
        return CETOMUHI_REFUSED_NO_SUCH_PAGE;
    if (!holds(numbers[1], numbers[2]))
        return CETOMUHI_REFUSED_WRONG_PRINCIPAL;
    const uint16_t count = counts[numbers[2]][numbers[3]];
    if (numbers[0] == CETOMUHI_RELEASE)
        return count == 0 ? CETOMUHI_REFUSED_CLAIM_LIMIT : 0;
    const bool spends = count == 0 && known[numbers[2]].unspent == 0;
    return count == MOST || spends ? CETOMUHI_REFUSED_CLAIM_LIMIT : 0;
}

static uint64_t code_of_destroy(const uint64_t *numbers)
{
    const uint64_t number = numbers[2];
    const bool may = number > 0 && number < CETOMUHI_PRINCIPALS && known[number].in_being &&
                     holds(numbers[1], known[number].parent);
    return may ? 0 : CETOMUHI_REFUSED_WRONG_PRINCIPAL;
}

static uint64_t code_of_unmap(const cetomuhi_state *state, uint64_t page)
{
    if (page >= cetomuhi_page_count(state))
        return CETOMUHI_REFUSED_NO_SUCH_PAGE;
    if (cetomuhi_page_at(state, page).state != CETOMUHI_PAGE_MAPPED)
        return CETOMUHI_REFUSED_WRONG_PAGE;
    return is_claimed(page) ? CETOMUHI_REFUSED_CLAIMED : 0;
}

static uint64_t code_of(const trial *t, const uint64_t *numbers)
{
    switch (numbers[0]) {
    case CETOMUHI_CREATE:
        return code_of_create(numbers);
    case CETOMUHI_DESTROY:
        return code_of_destroy(numbers);
    case CETOMUHI_UNMAP:
        return code_of_unmap(&t->before.state, numbers[2]);
    default:
        return code_of_claim(numbers, cetomuhi_page_count(&t->before.state));
    }
}

/* All below go first, each with what it has spent and what not. */
static void destroy(trial *t, uint64_t number)
{
    const uint64_t parent = known[number].parent;
    for (uint64_t p = 1; p < CETOMUHI_PRINCIPALS; p++)
        if (p != number && known[p].in_being && known[p].parent == number) {
            tally(t, BELOW);
            destroy(t, p);
        }
    for (size_t page = 0; page < CETOMUHI_PAGES; page++)
        known[number].unspent += counts[number][page] > 0;
    known[parent].unspent += known[number].unspent;
    memset(&known[number], 0, sizeof known[number]);
    memset(counts[number], 0, sizeof counts[number]);
}

static void change(trial *t, const uint64_t *numbers)
{
    uint16_t *count = &counts[numbers[2] % CETOMUHI_PRINCIPALS][numbers[3] % CETOMUHI_PAGES];
    switch (numbers[0]) {
    case CETOMUHI_CREATE:
        known[numbers[2]].unspent -= numbers[4];
        known[numbers[3]] = (principal){true, numbers[5], numbers[2], numbers[4]};
        break;
    case CETOMUHI_CLAIM:
        known[numbers[2]].unspent -= *count == 0;
        ++*count;
        tally(t, CLAIMED);
        break;
    case CETOMUHI_RELEASE:
        --*count;
        known[numbers[2]].unspent += *count == 0;
        break;
    case CETOMUHI_DESTROY:
        destroy(t, numbers[2]);
        tally(t, DESTROYED);
        break;
    default:
        break;
    }
}

/* The state's numbers are those known; so the limits add up to 8,192 as they did at the start. */
static void compare(trial *t)
{
    const cetomuhi_state *state = &t->machine.state;
    uint64_t limits = 0;
    for (size_t p = 0; p < CETOMUHI_PRINCIPALS; p++) {
        const principal *it = &known[p];
        const uint64_t number =
            it->unspent | it->parent << 16 | it->holder << 24 | UINT64_C(1) << 32;
        if (state->principals[p] != (it->in_being ? number : 0))
            fail(t, "principal %zu is not as it must be: %s, holder %" PRIu64 ", unspent %" PRIu64,
                 p, it->in_being ? "in being" : "not in being", it->holder, it->unspent);
        limits += it->unspent;
        for (size_t page = 0; page < cetomuhi_page_count(state); page++)
            limits += state->counts[CETOMUHI_PAGES * p + page] > 0;
    }
    if (memcmp(state->counts, counts, sizeof counts) != 0)
        fail(t, "a count of claims is not as it must be");
    if (limits != CETOMUHI_WHOLE_LIMIT)
        fail(t, "limits spent and unspent are %" PRIu64 " and not 8,192", limits);
}

static void watch(trial *t, const cetomuhi_call *call, cetomuhi_answer answer)
{
    const uint64_t *numbers = call->numbers;
    const bool judged = (numbers[0] >= CETOMUHI_CREATE || numbers[0] == CETOMUHI_UNMAP) &&
                        answer.code != 4 && answer.code != 5;
    if (!judged)
        return;
    const uint64_t code = code_of(t, numbers);
    if (answer.code != code)
        fail(t, "the answer is %" PRIu64 " and not %" PRIu64 " (%s)", answer.code, code,
             cetomuhi_refusal_words(code));
    if (code == CETOMUHI_REFUSED_CLAIM_LIMIT)
        tally(t, LIMIT);
    if (code == CETOMUHI_REFUSED_WRONG_PRINCIPAL)
        tally(t, WRONG);
    if (code == CETOMUHI_REFUSED_CLAIMED)
        tally(t, HELD_BACK);
    if (code == 0)
        change(t, numbers);
    compare(t);
}

/* Houses 3 and 5 share a dictionary's front matter, page 0: it stays until both let go. */
static void share_page(trial *t)
{
    start(t, 2, 1);
    set_up(t, cetomuhi_zero(0, 0));
    set_up(t, cetomuhi_map(0, 0, 0));
    set_up(t, cetomuhi_create(0, 0, 1, 10, 3));
    set_up(t, cetomuhi_create(0, 0, 2, 10, 5));
    set_up(t, cetomuhi_claim(3, 1, 0));
    set_up(t, cetomuhi_claim(3, 1, 0));
    set_up(t, cetomuhi_claim(5, 2, 0));
    expect(t, cetomuhi_unmap(0, 0), 22);
    expect(t, cetomuhi_revoke(0, 0), 13);
    expect(t, cetomuhi_release(3, 1, 0), 0);
    expect(t, cetomuhi_release(5, 2, 0), 0);
    expect(t, cetomuhi_release(5, 2, 0), 21);
    expect(t, cetomuhi_unmap(0, 0), 22);
    expect(t, cetomuhi_release(3, 1, 0), 0);
    set_up(t, cetomuhi_claim(3, 1, 1));
    expect(t, cetomuhi_unmap(0, 1), 13); /* 13 is judged before 22 */
    set_up(t, cetomuhi_claim(3, 1, 0));
    expect(t, cetomuhi_unmap(0, 0), 22);
    expect(t, cetomuhi_destroy(3, 1), 20);
    expect(t, cetomuhi_destroy(0, 1), 0);
    expect(t, cetomuhi_unmap(0, 0), 0);
}

/* A principal's limit to its last unit, and each cause of 20. */
static void spend(trial *t)
{
    start(t, 4, 1);
    set_up(t, cetomuhi_create(0, 0, 1, 3, 3));
    for (uint64_t page = 0; page < 3; page++)
        expect(t, cetomuhi_claim(3, 1, page), 0);
    expect(t, cetomuhi_claim(3, 1, 3), 21);
    expect(t, cetomuhi_claim(3, 1, 0), 0);
    expect(t, cetomuhi_create(3, 1, 2, 1, 3), 21);
    expect(t, cetomuhi_create(3, 1, 2, 0, 3), 0);
    expect(t, cetomuhi_claim(3, 2, 0), 21);
    expect(t, cetomuhi_create(0, 0, 3, 8190, 0), 21);
    expect(t, cetomuhi_create(0, 0, 3, 8189, 0), 0);
    expect(t, cetomuhi_claim(0, 0, 0), 21);
    expect(t, cetomuhi_destroy(0, 3), 0);
    expect(t, cetomuhi_claim(0, 1, 0), 20); /* held by 3 */
    expect(t, cetomuhi_claim(3, 9, 0), 20);
    expect(t, cetomuhi_claim(3, 32, 0), 20);
    expect(t, cetomuhi_claim(3, 32, 4), 12);
    expect(t, cetomuhi_claim(8, 32, 4), 4);
    expect(t, cetomuhi_create(0, 0, 1, 0, 0), 20);
    expect(t, cetomuhi_create(0, 0, 0, 0, 0), 20);
    expect(t, cetomuhi_create(0, 0, 32, 0, 0), 20);
    expect(t, cetomuhi_create(0, 1, 5, 0, 0), 20);
    expect(t, cetomuhi_create(0, 0, 5, 0, 8), 4);
    expect(t, cetomuhi_destroy(0, 0), 20);
    expect(t, cetomuhi_destroy(0, 2), 20); /* holds its grandparent */
    expect(t, cetomuhi_destroy(0, 1), 0);
    expect(t, cetomuhi_create(0, 0, 1, 8192, 3), 0);
}

/* 31 principals, each below the one before, and each claims a page; then all are dropped. */
static void destroy_line(trial *t)
{
    start(t, 256, 1);
    for (uint64_t p = 1; p < CETOMUHI_PRINCIPALS; p++) {
        set_up(t, cetomuhi_create(0, p - 1, p, 8192 - 2 * p, 0));
        set_up(t, cetomuhi_claim(0, p - 1, p));
        set_up(t, cetomuhi_claim(0, p - 1, 255));
    }
    expect(t, cetomuhi_destroy(0, 20), 0);
    expect(t, cetomuhi_destroy(0, 21), 20);
    expect(t, cetomuhi_destroy(0, 1), 0);
    expect(t, cetomuhi_create(0, 0, 1, 8190, 0), 0);
}

static void count_to_the_most(trial *t)
{
    start(t, 1, 1);
    for (uint64_t i = 0; i < MOST; i++)
        set_up(t, cetomuhi_claim(0, 0, 0));
    expect(t, cetomuhi_claim(0, 0, 0), 21);
    expect(t, cetomuhi_release(0, 0, 0), 0);
    expect(t, cetomuhi_claim(0, 0, 0), 0);
}

static void in_fixed_order(trial *t)
{
    share_page(t);
    spend(t);
    destroy_line(t);
    count_to_the_most(t);
}

static void in_random_order(trial *t)
{
    static const weights often = {
        [CETOMUHI_CREATE] = 6,  [CETOMUHI_CLAIM] = 10, [CETOMUHI_RELEASE] = 7,
        [CETOMUHI_DESTROY] = 2, [CETOMUHI_UNMAP] = 2,  [CETOMUHI_MAP] = 2,
        [CETOMUHI_ZERO] = 2,    [CETOMUHI_REVOKE] = 1, [CETOMUHI_SWEEP] = 1,
        [CETOMUHI_COLLECT] = 1};
    const uint64_t v = 1 + below(t, 4);
    settle(t, v, v, 2);
    make_likely(t, often, 45);
}

const check claims = {
    "claims",
    "Claims on pages (2026-02): two houses that share front matter do not lose it when one lets "
    "go.",
    "two houses claim a page and let go of it one after the other, a limit is spent to its last "
    "unit, 31 principals below each other are dropped at once, and a page is counted 65,535 times",
    "creates, claims, releases, destroys, maps and unmaps of up to 4 pages",
    "an answer, a principal or a count is not that of a list that is kept beside the library's; "
    "limits do not add up to 8,192; a claimed page is unmapped",
    {"claims", "destroys", "principals dropped with one above", "refusals for a limit or count",
     "refusals for a principal", "unmaps of a claimed page refused"},
    begin,
    watch,
    in_fixed_order,
    in_random_order,
};
