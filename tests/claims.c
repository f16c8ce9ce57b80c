/* Tests of principals and claims on pages: what the four calls leave, refusals 20 to 22, and which
 * claims are well formed. */
#include "expect.h"

enum { FRAMES = 3 };

/* A principal in being, with its limit, and how often it claims page 0. */
static void stands(const cetomuhi_machine *m, size_t principal, unsigned spent, unsigned unspent,
                   unsigned count) {
    const cetomuhi_principal it = cetomuhi_principal_at(&m->state, principal);
    CHECK(it.in_being && it.spent == spent && it.unspent == unspent);
    CHECK(cetomuhi_count_at(&m->state, principal, 0) == count);
}

/* Principal 1 of party 3 and, below it, 31 of party 5, both with page 0, which is Mapped. */
static void found_two(cetomuhi_machine *m) {
    CHECK(cetomuhi_machine_start(m, 4, 3) == 0);
    stands(m, 0, 0, CETOMUHI_WHOLE_LIMIT, 0);
    CHECK(!cetomuhi_principal_at(&m->state, 1).in_being);
    grant(m, cetomuhi_create(0, 0, 1, 9, 3));
    grant(m, cetomuhi_create(3, 1, 31, 2, 5));
    const cetomuhi_principal below = cetomuhi_principal_at(&m->state, 31);
    CHECK(below.holder == 5 && below.parent == 1);
    grant(m, cetomuhi_claim(3, 1, 0));
    grant(m, cetomuhi_claim(5, 31, 0));
    grant(m, cetomuhi_claim(5, 31, 0));
    grant(m, cetomuhi_claim(5, 31, 3));
    grant(m, cetomuhi_zero(0, 0));
    grant(m, cetomuhi_map(0, 0, 0));
    stands(m, 0, 0, CETOMUHI_WHOLE_LIMIT - 9, 0);
    stands(m, 1, 1, 6, 1);
    stands(m, 31, 2, 0, 2);
}

/* Page 0 is kept for one house when the other lets go, by a release and by a destroy. */
static void test_claims(void) {
    static cetomuhi_machine m;
    found_two(&m);
    refuse(&m, cetomuhi_unmap(0, 0), CETOMUHI_REFUSED_CLAIMED);
    grant(&m, cetomuhi_release(3, 1, 0));
    refuse(&m, cetomuhi_unmap(0, 0), CETOMUHI_REFUSED_CLAIMED);
    refuse(&m, cetomuhi_revoke(0, 0), CETOMUHI_REFUSED_WRONG_PAGE);
    grant(&m, cetomuhi_destroy(3, 31));
    stands(&m, 1, 0, 9, 0);
    CHECK(!cetomuhi_principal_at(&m.state, 31).in_being);
    CHECK(cetomuhi_count_at(&m.state, 31, 3) == 0);
    grant(&m, cetomuhi_unmap(0, 0));
    found_two(&m);
    grant(&m, cetomuhi_release(5, 31, 0));
    grant(&m, cetomuhi_release(5, 31, 0));
    refuse(&m, cetomuhi_unmap(0, 0), CETOMUHI_REFUSED_CLAIMED);
    grant(&m, cetomuhi_destroy(0, 1));
    stands(&m, 0, 0, CETOMUHI_WHOLE_LIMIT, 0);
    grant(&m, cetomuhi_unmap(0, 0));
    CHECK(cetomuhi_count_at(&m.state, 32, 0) == 0 && cetomuhi_count_at(&m.state, 0, 256) == 0);
    CHECK(!cetomuhi_principal_at(&m.state, 32).in_being);
}

/* 20 and 21, and what comes before them. */
static void test_wrong_claims(void) {
    static cetomuhi_machine m;
    found_two(&m);
    refuse(&m, cetomuhi_create(0, 0, 2, 0, 8), CETOMUHI_REFUSED_ABOVE_SEVEN);
    refuse(&m, cetomuhi_claim(8, 32, 4), CETOMUHI_REFUSED_ABOVE_SEVEN);
    refuse(&m, cetomuhi_claim(0, 32, 4), CETOMUHI_REFUSED_NO_SUCH_PAGE);
    refuse(&m, cetomuhi_release(0, 32, 4), CETOMUHI_REFUSED_NO_SUCH_PAGE);
    refuse(&m, cetomuhi_create(0, 1, 2, 0, 0), CETOMUHI_REFUSED_WRONG_PRINCIPAL);
    refuse(&m, cetomuhi_create(0, 0, 31, 0, 0), CETOMUHI_REFUSED_WRONG_PRINCIPAL);
    refuse(&m, cetomuhi_create(0, 0, 32, 9999, 0), CETOMUHI_REFUSED_WRONG_PRINCIPAL);
    refuse(&m, cetomuhi_create(0, 2, 3, 0, 0), CETOMUHI_REFUSED_WRONG_PRINCIPAL);
    refuse(&m, cetomuhi_claim(0, 1, 1), CETOMUHI_REFUSED_WRONG_PRINCIPAL);
    refuse(&m, cetomuhi_release(5, 2, 0), CETOMUHI_REFUSED_WRONG_PRINCIPAL);
    refuse(&m, cetomuhi_destroy(5, 31), CETOMUHI_REFUSED_WRONG_PRINCIPAL);
    refuse(&m, cetomuhi_destroy(0, 31), CETOMUHI_REFUSED_WRONG_PRINCIPAL);
    refuse(&m, cetomuhi_destroy(0, 0), CETOMUHI_REFUSED_WRONG_PRINCIPAL);
    refuse(&m, cetomuhi_destroy(0, 255), CETOMUHI_REFUSED_WRONG_PRINCIPAL);
    refuse(&m, cetomuhi_create(3, 1, 2, 7, 0), CETOMUHI_REFUSED_CLAIM_LIMIT);
    refuse(&m, cetomuhi_claim(5, 31, 1), CETOMUHI_REFUSED_CLAIM_LIMIT);
    refuse(&m, cetomuhi_release(5, 31, 1), CETOMUHI_REFUSED_CLAIM_LIMIT);
    m.state.counts[256 * 31] = 65534;
    grant(&m, cetomuhi_claim(5, 31, 0));
    refuse(&m, cetomuhi_claim(5, 31, 0), CETOMUHI_REFUSED_CLAIM_LIMIT);
    stands(&m, 31, 2, 0, 65535);
}

/* ---- Well-formed claims ---- */

/* Principals and counts set at once. If they are no well-formed claims, a command is refused under
 * 1 and every byte kept; if they are, the same command is refused for its party. */
static void reclaim(cetomuhi_machine *machine, bool fits) {
    static cetomuhi_machine before;
    before = *machine;
    CHECK(cetomuhi_machine_well_formed(machine) == fits);
    const cetomuhi_answer answer = cetomuhi_machine_call(machine, cetomuhi_collect(8));
    CHECK(answer.code == (fits ? CETOMUHI_REFUSED_ABOVE_SEVEN : CETOMUHI_REFUSED_ILL_FORMED));
    CHECK(memcmp(machine, &before, sizeof before) == 0);
}

/* V is 4. A line of 31 below principal 0, each with limit 1, and what may not be changed in it. */
static void test_formed(void) {
    static cetomuhi_machine line;
    static cetomuhi_machine m;
    CHECK(cetomuhi_machine_start(&line, 4, FRAMES) == 0);
    line.state.principals[0] = principal_of(0, 0, 8192 - 31);
    for (uint64_t p = 1; p < CETOMUHI_PRINCIPALS; p++)
        line.state.principals[p] = principal_of(p % 8, p == 31 ? 0 : p + 1, 1);
    reclaim(&line, true);
#define CHANGED(entry, number, other, its, fits)                                                   \
    m = line;                                                                                      \
    m.state.entry = number;                                                                        \
    m.state.other = its;                                                                           \
    reclaim(&m, fits);
    CHANGED(principals[7], principal_of(7, 8, 0), counts[256 * 7 + 3], 1, true)
    CHANGED(principals[7], principal_of(7, 8, 0), counts[256 * 7 + 3], 65535, true)
    CHANGED(principals[7], principal_of(7, 8, 0), counts[256 * 7 + 4], 1, false)
    CHANGED(principals[7], principal_of(7, 8, 0), counts[256 * 7 + 255], 1, false)
    CHANGED(principals[7], principal_of(7, 8, 1), counts[256 * 7 + 3], 1, false)
    CHANGED(principals[7], principal_of(7, 8, 2), principals[8], principal_of(0, 9, 0), true)
    CHANGED(principals[7], principal_of(7, 31, 1), principals[8], principal_of(0, 0, 1), true)
    CHANGED(principals[7], principal_of(7, 5, 1), principals[8], principal_of(0, 9, 1), false)
    CHANGED(principals[31], principal_of(7, 1, 1), principals[8], principal_of(0, 9, 1), false)
    CHANGED(principals[1], 0, principals[0], principal_of(0, 0, 8192 - 30), true)
    CHANGED(principals[2], 0, principals[0], principal_of(0, 0, 8192 - 30), false)
    CHANGED(principals[1], 0, counts[256], 1, false)
#undef CHANGED
}

int main(void) {
    test_claims();
    test_wrong_claims();
    test_formed();
    return end("claims");
}
