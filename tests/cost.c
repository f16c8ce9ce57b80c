/* Tests of the cost of a page: the share and the remainder for every number of claimants, refusals
 * 1 and 12, and that a question changes nothing. */
#include "expect.h"

/* 16 = n * share + remainder, the remainder below n: worked out by hand for n 0 to 32. */
static const uint64_t by_claimants[CETOMUHI_PRINCIPALS + 1][2] = {
    {0, 16}, {16, 0}, {8, 0},  {5, 1},  {4, 0},  {3, 1},  {2, 4},  {2, 2},  {2, 0},
    {1, 7},  {1, 6},  {1, 5},  {1, 4},  {1, 3},  {1, 2},  {1, 1},  {1, 0}, /* 16 */
    {0, 16}, {0, 16}, {0, 16}, {0, 16}, {0, 16}, {0, 16}, {0, 16}, {0, 16}, {0, 16},
    {0, 16}, {0, 16}, {0, 16}, {0, 16}, {0, 16}, {0, 16}, {0, 16}, /* 32 */
};

/* Asks in all three ways. The answer is the one given, whatever stood in share and remainder, and
 * every byte is kept. */
static void cost(const cetomuhi_machine *m, uint64_t page, uint64_t code, uint64_t share,
                 uint64_t remainder) {
    static const uint64_t stood[] = {0, 16, UINT64_MAX};
    static cetomuhi_machine before;
    before = *m;
    for (size_t i = 0; i < COUNT(stood); i++) {
        uint64_t written[] = {stood[i], stood[COUNT(stood) - 1 - i]};
        CHECK(cetomuhi_page_cost(CETOMUHI_SLICES(&m->state), page, &written[0], &written[1]) ==
              code);
        CHECK(written[0] == share && written[1] == remainder);
    }
    const cetomuhi_cost of_state = cetomuhi_state_page_cost(&m->state, page);
    CHECK(of_state.code == code && of_state.share == share && of_state.remainder == remainder);
    const cetomuhi_cost of_machine = cetomuhi_machine_page_cost(m, page);
    CHECK(of_machine.code == code && of_machine.share == share &&
          of_machine.remainder == remainder);
    CHECK(memcmp(m, &before, sizeof before) == 0);
}

static void granted(const cetomuhi_machine *m, uint64_t page, size_t claimants) {
    cost(m, page, CETOMUHI_GRANTED, by_claimants[claimants][0], by_claimants[claimants][1]);
}

static void refused(const cetomuhi_machine *m, uint64_t page, uint64_t code) {
    cost(m, page, code, 0, 0);
}

/* Principals 1 to 31 below 0, all party 0's, with limits for four pages each. */
static void found_all(cetomuhi_machine *m, uint64_t v) {
    CHECK(cetomuhi_machine_start(m, v, 3) == 0);
    for (uint64_t p = 1; p < CETOMUHI_PRINCIPALS; p++)
        grant(m, cetomuhi_create(0, 0, p, 4, 0));
}

/* One principal after another claims page 2, from 31 down to 0, and claims it again; then one after
 * another lets go. Page 1 and page 3 are nobody's. */
static void test_every_number(void) {
    static cetomuhi_machine m;
    found_all(&m, 4);
    for (uint64_t n = 0; n <= CETOMUHI_PRINCIPALS; n++) {
        granted(&m, 2, n);
        granted(&m, 1, 0);
        granted(&m, 3, 0);
        if (n == CETOMUHI_PRINCIPALS)
            break;
        grant(&m, cetomuhi_claim(0, 31 - n, 2));
        granted(&m, 2, n + 1);
        grant(&m, cetomuhi_claim(0, 31 - n, 2));
    }
    for (uint64_t n = CETOMUHI_PRINCIPALS; n > 0; n--) {
        grant(&m, cetomuhi_release(0, n - 1, 2));
        granted(&m, 2, n);
        grant(&m, cetomuhi_release(0, n - 1, 2));
        granted(&m, 2, n - 1);
    }
}

/* A count at its most is one claimant, whoever it is; a refused claim makes none, and a destroy
 * takes those of descendants too. */
static void test_claimants(void) {
    static cetomuhi_machine m;
    for (uint64_t p = 0; p < CETOMUHI_PRINCIPALS; p++) {
        found_all(&m, 1);
        grant(&m, cetomuhi_claim(0, p, 0));
        m.state.counts[CETOMUHI_PAGES * p] = UINT16_MAX;
        granted(&m, 0, 1);
    }
    CHECK(cetomuhi_machine_start(&m, 4, 3) == 0);
    grant(&m, cetomuhi_create(0, 0, 1, 9, 3));
    grant(&m, cetomuhi_create(3, 1, 2, 4, 5));
    grant(&m, cetomuhi_create(5, 2, 3, 1, 5));
    grant(&m, cetomuhi_claim(0, 0, 3));
    grant(&m, cetomuhi_claim(3, 1, 3));
    grant(&m, cetomuhi_claim(5, 2, 3));
    grant(&m, cetomuhi_claim(5, 3, 3));
    refuse(&m, cetomuhi_claim(5, 3, 2), CETOMUHI_REFUSED_CLAIM_LIMIT);
    granted(&m, 2, 0);
    granted(&m, 3, 4);
    grant(&m, cetomuhi_destroy(3, 2));
    granted(&m, 3, 2);
    grant(&m, cetomuhi_destroy(0, 1));
    granted(&m, 3, 1);
}

/* The last page and V, the number behind it; and larger ones, which must not be cut to a page: the
 * last page and page 0 with some bits above. */
static void test_pages(void) {
    static const uint64_t sizes[] = {1, 2, 4, 255, 256};
    static const uint64_t above[] = {256, 512, 65536, UINT64_C(1) << 32, UINT64_C(1) << 63};
    static cetomuhi_machine m;
    for (size_t i = 0; i < COUNT(sizes); i++) {
        const uint64_t last = sizes[i] - 1;
        found_all(&m, sizes[i]);
        for (uint64_t p = 0; p < 5; p++)
            grant(&m, cetomuhi_claim(0, p, last));
        for (uint64_t p = 0; p < 3 && last > 0; p++)
            grant(&m, cetomuhi_claim(0, 6 * p, 0));
        granted(&m, last, 5);
        granted(&m, 0, last > 0 ? 3 : 5);
        refused(&m, last + 1, CETOMUHI_REFUSED_NO_SUCH_PAGE);
        refused(&m, last + 2, CETOMUHI_REFUSED_NO_SUCH_PAGE);
        refused(&m, UINT64_MAX, CETOMUHI_REFUSED_NO_SUCH_PAGE);
        for (size_t at = 0; at < COUNT(above); at++) {
            refused(&m, above[at], CETOMUHI_REFUSED_NO_SUCH_PAGE);
            refused(&m, above[at] + last, CETOMUHI_REFUSED_NO_SUCH_PAGE);
        }
    }
}

/* A state that is not well formed has no cost, and neither has a page that it would not have. */
static void ill_formed(const cetomuhi_machine *m) {
    const uint64_t pages[] = {0, 3, 4, 255, 256, UINT64_MAX};
    CHECK(!cetomuhi_machine_well_formed(m));
    for (size_t i = 0; i < COUNT(pages); i++)
        refused(m, pages[i], CETOMUHI_REFUSED_ILL_FORMED);
}

/* One number changed, in each array but that of the registers' numbers, which may be any. */
static void test_ill_formed(void) {
    static const cetomuhi_machine zero;
    static cetomuhi_machine sound;
    static cetomuhi_machine m;
    ill_formed(&zero);
    found_all(&sound, 4);
    grant(&sound, cetomuhi_claim(0, 7, 3));
    granted(&sound, 3, 1);
#define SPOILT(entry, number)                                                                      \
    m = sound;                                                                                     \
    m.state.entry = number;                                                                        \
    ill_formed(&m);
    SPOILT(numbers[0], 0)
    SPOILT(numbers[0], 3)
    SPOILT(numbers[0], 257)
    SPOILT(numbers[1], 129)
    SPOILT(numbers[3], 1)
    SPOILT(marks[63], 2)
    SPOILT(mail[0], 1)
    SPOILT(flags[7], 2)
    SPOILT(rows[63], 1)
    SPOILT(pages[255], 1)
    SPOILT(frames[127], 1)
    SPOILT(principals[7], 0)
    SPOILT(principals[7], principal_of(0, 0, 4))
    SPOILT(counts[CETOMUHI_PAGES * 7 + 3], 0)
    SPOILT(counts[CETOMUHI_PAGES * 8 + 3], 1)
    SPOILT(counts[CETOMUHI_COUNTS - 1], 1)
#undef SPOILT
    m = sound;
    m.state.words[0] = UINT64_MAX;
    granted(&m, 3, 1);
}

int main(void) {
    test_every_number();
    test_claimants();
    test_pages();
    test_ill_formed();
    return end("cost");
}
