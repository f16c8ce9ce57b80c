/* Tests of calls through the inline functions of cetomuhi.h: document 01's session, what the two
 * takes give, who took a reservation, every refusal with every byte kept, random histories in which
 * a run equals single commands, showing a state. Claims are in claims.c, but for random ones.
 *
 *   histories [ROUNDS]    ROUNDS random histories, 200 if not given */
#include "expect.h"
#include "widths.h"

/* ---- Document 01's session ---- */

static void test_session(void) {
    static cetomuhi_machine m;
    CHECK(cetomuhi_machine_start(&m, 2, 1) == 0);
    grant(&m, cetomuhi_zero(0, 0));
    grant(&m, cetomuhi_map(0, 0, 0));
    grant(&m, cetomuhi_split(0, 0, 16));
    grant(&m, cetomuhi_give(0, 0, 3));
    expect(&m, cetomuhi_take_masked(3, 0, 0, 0x0F), 0, 16);
    grant(&m, cetomuhi_number(3, 1, 0x2A));
    grant(&m, cetomuhi_store(3, 0, 5, 1));
    grant(&m, cetomuhi_store(3, 0, 6, 0));
    expect(&m, cetomuhi_load(3, 0, 6, 2), 0, UINT64_C(64425558016));
    CHECK(cetomuhi_register_at(&m.state, 3, 2).tag == 1);
    refuse(&m, cetomuhi_revoke(0, 0), CETOMUHI_REFUSED_WRONG_PAGE);
    grant(&m, cetomuhi_unmap(0, 0));
    grant(&m, cetomuhi_revoke(0, 0));
    expect(&m, cetomuhi_sweep(0, 10), 0, 6);
    refuse(&m, cetomuhi_collect(0), CETOMUHI_REFUSED_REVOCATION_ORDER);
    grant(&m, cetomuhi_sweep(0, 0xFF));
    grant(&m, cetomuhi_collect(0));
    refuse(&m, cetomuhi_load(3, 0, 6, 2), CETOMUHI_REFUSED_UNTAGGED);
}

/* ---- What the two takes give ---- */

/* A take on a fresh machine of 16 cells, page 0 shown, into register 5: its permissions. */
static unsigned taken(cetomuhi_machine *m, cetomuhi_call call) {
    CHECK(cetomuhi_machine_start(m, 1, 1) == 0);
    grant(m, cetomuhi_zero(0, 0));
    grant(m, cetomuhi_map(0, 0, 0));
    expect(m, call, 0, 16);
    const cetomuhi_word word = cetomuhi_register_at(&m->state, 0, 5);
    const cetomuhi_capability capability = cetomuhi_capability_of(word.cell);
    CHECK(word.tag == 1 && capability.base == 0 && capability.length == 16);
    CHECK(word.cell >> 40 == 0);
    return capability.permissions;
}

/* Loads and stores through register 5 by its permissions. From a start nobody stores a capability
 * in a range taken without permission 8, so that the tagged cell to load is put there by hand. */
static void use(cetomuhi_machine *m, unsigned given) {
    const bool loads = given & CETOMUHI_MAY_LOAD;
    const bool stores = given & CETOMUHI_MAY_STORE;
    const bool with_tag = loads && given & CETOMUHI_MAY_LOAD_CAPABILITY;
    const bool of_tagged = stores && given & CETOMUHI_MAY_STORE_CAPABILITY;
    const uint64_t refused = CETOMUHI_REFUSED_NO_PERMISSION;
    m->cells[3] = 0;
    m->tags[3] = 7;
    expect(m, cetomuhi_load(0, 5, 3, 6), loads ? 0 : refused, 0);
    CHECK(cetomuhi_register_at(&m->state, 0, 6).tag == with_tag && m->tags[3] == 7);
    expect(m, cetomuhi_store(0, 5, 4, 5), of_tagged ? 0 : refused, 0);
    CHECK(m->tags[4] == of_tagged);
    expect(m, cetomuhi_store(0, 5, 4, 7), stores ? 0 : refused, 0);
    CHECK(m->tags[4] == 0);
}

static void test_takes(void) {
    static cetomuhi_machine m;
    for (uint64_t mask = 0; mask < 256; mask++) {
        const unsigned given = taken(&m, cetomuhi_take_masked(0, 0, 5, mask));
        CHECK(given == (mask & CETOMUHI_ALL_PERMISSIONS));
        use(&m, given);
    }
    CHECK(taken(&m, cetomuhi_take(0, 0, 5)) == (CETOMUHI_MAY_LOAD | CETOMUHI_MAY_STORE));
    use(&m, CETOMUHI_MAY_LOAD | CETOMUHI_MAY_STORE);
}

/* ---- Who took a reservation ---- */

/* The takers of all reservations in turn, a digit each. */
static void takers(const cetomuhi_machine *m, const char *digits) {
    CHECK(cetomuhi_row_count(&m->state) == strlen(digits));
    for (size_t row = 0; digits[row]; row++)
        CHECK(cetomuhi_reservation_at(&m->state, row).taker == digits[row] - '0');
    CHECK(cetomuhi_reservation_at(&m->state, strlen(digits)).taker == 0);
}

/* Five Open reservations of a page each; parties 3, 3, 5 and 0 take the first four. */
static void take_four(cetomuhi_machine *m) {
    CHECK(cetomuhi_machine_start(m, 5, 1) == 0);
    takers(m, "9");
    for (uint64_t base = 0; base < 64; base += 16)
        grant(m, cetomuhi_split(0, base, 16));
    grant(m, cetomuhi_give(0, 0, 3));
    grant(m, cetomuhi_give(0, 16, 3));
    grant(m, cetomuhi_give(0, 32, 5));
    takers(m, "99999");
    expect(m, cetomuhi_take(3, 0, 0), 0, 16);
    takers(m, "39999");
    expect(m, cetomuhi_take_masked(3, 16, 1, 0), 0, 16);
    expect(m, cetomuhi_take_masked(5, 32, 0, CETOMUHI_ALL_PERMISSIONS), 0, 16);
    expect(m, cetomuhi_take(0, 48, 0), 0, 16);
    takers(m, "33509");
}

/* A granted call, and the takers after it. */
static void leaves(cetomuhi_machine *m, cetomuhi_call call, const char *digits) {
    grant(m, call);
    takers(m, digits);
}

/* A sweep of the one frame, and a collect. */
static void collect(cetomuhi_machine *m, const char *digits) {
    grant(m, cetomuhi_sweep(0, 16));
    leaves(m, cetomuhi_collect(0), digits);
}

/* A common taker stays, different ones are several; a collect leaves none. */
static void test_joined_takers(void) {
    static cetomuhi_machine m;
    take_four(&m);
    refuse(&m, cetomuhi_merge(0, 48), CETOMUHI_REFUSED_WRONG_RESERVATION);
    takers(&m, "33509");
    leaves(&m, cetomuhi_merge(0, 0), "3509");
    leaves(&m, cetomuhi_merge(0, 32), "389");
    leaves(&m, cetomuhi_merge(0, 0), "89");
    leaves(&m, cetomuhi_revoke(0, 0), "89");
    collect(&m, "99");
    leaves(&m, cetomuhi_merge(0, 0), "9");
}

static void test_revoked_takers(void) {
    static cetomuhi_machine m;
    take_four(&m);
    leaves(&m, cetomuhi_revoke(0, 32), "33509");
    leaves(&m, cetomuhi_merge(0, 0), "3509");
    collect(&m, "3909");
    leaves(&m, cetomuhi_revoke(0, 64), "3900");
    CHECK(cetomuhi_reservation_at(&m.state, 3).state == CETOMUHI_REVOKING);
    collect(&m, "3909");
    leaves(&m, cetomuhi_give(0, 32, 7), "3909");
    expect(&m, cetomuhi_take(7, 32, 7), 0, 16);
    takers(&m, "3709");
}

/* ---- Every refusal ---- */

/* A state that is not well formed, by a single command and by a run. */
static void spoil(cetomuhi_machine *machine) {
    static cetomuhi_machine before;
    const uint8_t bytes[] = {CETOMUHI_COLLECT, 0, CETOMUHI_COLLECT, 0};
    cetomuhi_answer answers[2] = {{9, 9, 9, 9}, {9, 9, 9, 9}};
    size_t at = 0;
    machine->state.marks[5] = 2;
    before = *machine;
    const cetomuhi_answer answer = cetomuhi_machine_command(machine, bytes, sizeof bytes, 0);
    CHECK(answer.code == CETOMUHI_REFUSED_ILL_FORMED && answer.used == 0);
    CHECK(cetomuhi_machine_commands(machine, bytes, sizeof bytes, &at, answers, 2) == 1);
    CHECK(memcmp(answers, &answer, sizeof answer) == 0 && answers[1].code == 9 && at == 0);
    CHECK(memcmp(machine, &before, sizeof before) == 0);
    machine->state.marks[5] = 0;
    seen[answer.code] = true;
}

/* No pointers, too little memory, no call. */
static void lend_nothing(cetomuhi_machine *machine) {
    const cetomuhi_memory none = {NULL, NULL, 0};
    const cetomuhi_memory short_by_one = {machine->cells, machine->tags, 47};
    const cetomuhi_call call = cetomuhi_zero(0, 0);
    const uint8_t byte = 0;
    cetomuhi_answer answer = cetomuhi_state_call(&machine->state, none, call);
    size_t at = 0;
    CHECK(answer.code == CETOMUHI_REFUSED_LENT_LENGTH && answer.used == 0);
    answer = cetomuhi_state_call(&machine->state, short_by_one, call);
    CHECK(answer.code == CETOMUHI_REFUSED_LENT_LENGTH);
    seen[answer.code] = true;
    CHECK(cetomuhi_machine_command(machine, NULL, 0, 0).code == CETOMUHI_REFUSED_NO_COMMAND);
    CHECK(cetomuhi_machine_command(machine, &byte, 1, 0).code == CETOMUHI_REFUSED_NO_COMMAND);
    CHECK(cetomuhi_machine_commands(machine, NULL, 0, &at, &answer, 1) == 0);
    CHECK(cetomuhi_machine_commands(machine, &byte, 1, &at, NULL, 0) == 0);
    refuse(machine, cetomuhi_zero(256, 0), CETOMUHI_REFUSED_NO_COMMAND);
    refuse(machine, cetomuhi_take(0, 65536, 0), CETOMUHI_REFUSED_NO_COMMAND);
    refuse(machine, cetomuhi_take_masked(0, 0, 0, 256), CETOMUHI_REFUSED_NO_COMMAND);
    refuse(machine, cetomuhi_create(0, 0, 1, 65536, 0), CETOMUHI_REFUSED_NO_COMMAND);
    refuse(machine, cetomuhi_call_of(COUNT(widths), 0, 0, 0, 0), CETOMUHI_REFUSED_NO_COMMAND);
}

/* 4 and 5. */
static void wrong_caller(cetomuhi_machine *m) {
    refuse(m, cetomuhi_collect(8), CETOMUHI_REFUSED_ABOVE_SEVEN);
    refuse(m, cetomuhi_take(0, 0, 8), CETOMUHI_REFUSED_ABOVE_SEVEN);
    refuse(m, cetomuhi_take_masked(8, 0, 0, 15), CETOMUHI_REFUSED_ABOVE_SEVEN);
    refuse(m, cetomuhi_take_masked(0, 0, 8, 15), CETOMUHI_REFUSED_ABOVE_SEVEN);
    refuse(m, cetomuhi_give(0, 0, 8), CETOMUHI_REFUSED_ABOVE_SEVEN);
    refuse(m, cetomuhi_number(0, 255, 1), CETOMUHI_REFUSED_ABOVE_SEVEN);
    refuse(m, cetomuhi_revoke(1, 0), CETOMUHI_REFUSED_NOT_MANAGER);
    refuse(m, cetomuhi_sweep(2, 0), CETOMUHI_REFUSED_NOT_MANAGER);
    refuse(m, cetomuhi_collect(3), CETOMUHI_REFUSED_NOT_MANAGER);
    refuse(m, cetomuhi_map(4, 0, 0), CETOMUHI_REFUSED_NOT_MANAGER);
    refuse(m, cetomuhi_unmap(5, 0), CETOMUHI_REFUSED_NOT_MANAGER);
    refuse(m, cetomuhi_zero(7, 0), CETOMUHI_REFUSED_NOT_MANAGER);
}

/* 6 to 9; the marked edges of split and take among them. */
static void wrong_reservation(cetomuhi_machine *m) {
    refuse(m, cetomuhi_take(1, 0, 0), CETOMUHI_REFUSED_NOT_HELD);
    refuse(m, cetomuhi_take_masked(0, 1, 0, 15), CETOMUHI_REFUSED_NOT_HELD);
    refuse(m, cetomuhi_split(0, 1, 1), CETOMUHI_REFUSED_NOT_HELD);
    grant(m, cetomuhi_split(0, 0, 16));
    refuse(m, cetomuhi_split(0, 0, 0), CETOMUHI_REFUSED_SPLIT_LENGTH);
    refuse(m, cetomuhi_split(0, 0, 16), CETOMUHI_REFUSED_SPLIT_LENGTH);
    grant(m, cetomuhi_split(0, 0, 15));
    grant(m, cetomuhi_merge(0, 0));
    grant(m, cetomuhi_give(0, 0, 1));
    refuse(m, cetomuhi_merge(1, 0), CETOMUHI_REFUSED_WRONG_RESERVATION);
    expect(m, cetomuhi_take(1, 0, 0), 0, 16);
    refuse(m, cetomuhi_take(1, 0, 0), CETOMUHI_REFUSED_NOT_HELD);
    refuse(m, cetomuhi_take(0, 0, 0), CETOMUHI_REFUSED_WRONG_RESERVATION);
    refuse(m, cetomuhi_take_masked(1, 0, 0, 15), CETOMUHI_REFUSED_NOT_HELD);
    refuse(m, cetomuhi_take_masked(0, 0, 0, 0), CETOMUHI_REFUSED_WRONG_RESERVATION);
    refuse(m, cetomuhi_give(0, 0, 1), CETOMUHI_REFUSED_WRONG_RESERVATION);
    refuse(m, cetomuhi_merge(0, 0), CETOMUHI_REFUSED_WRONG_RESERVATION);
}

/* 12, 13 and 14. */
static void wrong_page(cetomuhi_machine *m) {
    refuse(m, cetomuhi_map(0, 4, 0), CETOMUHI_REFUSED_NO_SUCH_PAGE);
    refuse(m, cetomuhi_map(0, 0, 3), CETOMUHI_REFUSED_NO_SUCH_PAGE);
    refuse(m, cetomuhi_zero(0, 3), CETOMUHI_REFUSED_NO_SUCH_PAGE);
    refuse(m, cetomuhi_unmap(0, 0), CETOMUHI_REFUSED_WRONG_PAGE);
    refuse(m, cetomuhi_map(0, 0, 0), CETOMUHI_REFUSED_WRONG_FRAME);
    grant(m, cetomuhi_zero(0, 0));
    refuse(m, cetomuhi_zero(0, 0), CETOMUHI_REFUSED_WRONG_FRAME);
    grant(m, cetomuhi_map(0, 0, 0));
    refuse(m, cetomuhi_map(0, 0, 1), CETOMUHI_REFUSED_WRONG_PAGE);
    refuse(m, cetomuhi_revoke(0, 0), CETOMUHI_REFUSED_WRONG_PAGE);
}

/* 20 to 22; page 0 is Mapped. */
static void wrong_claim(cetomuhi_machine *m) {
    refuse(m, cetomuhi_claim(1, 0, 0), CETOMUHI_REFUSED_WRONG_PRINCIPAL);
    refuse(m, cetomuhi_release(0, 0, 0), CETOMUHI_REFUSED_CLAIM_LIMIT);
    grant(m, cetomuhi_claim(0, 0, 0));
    refuse(m, cetomuhi_unmap(0, 0), CETOMUHI_REFUSED_CLAIMED);
    grant(m, cetomuhi_release(0, 0, 0));
}

/* 15 to 19; party 1 has cells 0 to 15 in register 0, to load and store numbers. */
static void wrong_word(cetomuhi_machine *m) {
    refuse(m, cetomuhi_load(1, 1, 0, 2), CETOMUHI_REFUSED_UNTAGGED);
    refuse(m, cetomuhi_grant(1, 7, 2), CETOMUHI_REFUSED_UNTAGGED);
    grant(m, cetomuhi_narrow(1, 0, 0, 16, CETOMUHI_MAY_LOAD, 1));
    refuse(m, cetomuhi_store(1, 1, 0, 1), CETOMUHI_REFUSED_NO_PERMISSION);
    grant(m, cetomuhi_narrow(1, 0, 0, 16, CETOMUHI_MAY_STORE, 2));
    refuse(m, cetomuhi_load(1, 2, 0, 3), CETOMUHI_REFUSED_NO_PERMISSION);
    refuse(m, cetomuhi_store(1, 2, 0, 0), CETOMUHI_REFUSED_NO_PERMISSION);
    refuse(m, cetomuhi_store(1, 0, 0, 0), CETOMUHI_REFUSED_NO_PERMISSION);
    expect(m, cetomuhi_load(1, 0, 15, 3), 0, 0);
    refuse(m, cetomuhi_load(1, 0, 16, 3), CETOMUHI_REFUSED_OUT_OF_BOUNDS);
    refuse(m, cetomuhi_narrow(1, 0, 0, 0, 15, 3), CETOMUHI_REFUSED_OUT_OF_BOUNDS);
    refuse(m, cetomuhi_narrow(1, 0, 10, 7, 15, 3), CETOMUHI_REFUSED_OUT_OF_BOUNDS);
    refuse(m, cetomuhi_receive(2, 0), CETOMUHI_REFUSED_MAILBOX);
    grant(m, cetomuhi_grant(1, 1, 2));
    refuse(m, cetomuhi_grant(1, 0, 2), CETOMUHI_REFUSED_MAILBOX);
    grant(m, cetomuhi_unmap(0, 0));
    refuse(m, cetomuhi_load(1, 0, 0, 3), CETOMUHI_REFUSED_NOT_MAPPED);
}

/* 10 and 11; a revocation of cells 0 to 15 is left running at place 10. */
static void wrong_order(cetomuhi_machine *m) {
    refuse(m, cetomuhi_sweep(0, 1), CETOMUHI_REFUSED_REVOCATION_ORDER);
    refuse(m, cetomuhi_collect(0), CETOMUHI_REFUSED_REVOCATION_ORDER);
    grant(m, cetomuhi_split(0, 16, 15));
    refuse(m, cetomuhi_revoke(0, 16), CETOMUHI_REFUSED_NOT_WHOLE_PAGES);
    grant(m, cetomuhi_revoke(0, 0));
    refuse(m, cetomuhi_revoke(0, 0), CETOMUHI_REFUSED_WRONG_RESERVATION);
    refuse(m, cetomuhi_map(0, 0, 1), CETOMUHI_REFUSED_WRONG_PAGE);
    expect(m, cetomuhi_sweep(0, 10), 0, 38);
    refuse(m, cetomuhi_collect(0), CETOMUHI_REFUSED_REVOCATION_ORDER);
}

static void fill_table(void) {
    static cetomuhi_machine m;
    CHECK(cetomuhi_machine_start(&m, 256, 128) == 0);
    for (uint64_t base = 0; base < CETOMUHI_ROWS - 1; base++)
        grant(&m, cetomuhi_split(0, base, 1));
    CHECK(cetomuhi_row_count(&m.state) == CETOMUHI_ROWS);
    refuse(&m, cetomuhi_split(0, CETOMUHI_ROWS - 1, 1), CETOMUHI_REFUSED_TABLE_FULL);
}

static void test_refusals_and_showing(void) {
    static cetomuhi_machine m;
    CHECK(cetomuhi_machine_start(&m, 4, 3) == 0);
    spoil(&m);
    lend_nothing(&m);
    wrong_caller(&m);
    wrong_reservation(&m);
    wrong_page(&m);
    wrong_claim(&m);
    wrong_word(&m);
    wrong_order(&m);
    fill_table();
    for (size_t code = 0; code < COUNT(seen); code++)
        CHECK(seen[code]);
    const cetomuhi_reservation row = cetomuhi_reservation_at(&m.state, 0);
    const cetomuhi_capability sent = cetomuhi_capability_of(cetomuhi_mailbox_at(&m.state, 2).cell);
    const cetomuhi_revocation running = cetomuhi_revocation_of(&m.state);
    CHECK(row.base == 0 && row.length == 16 && row.state == CETOMUHI_REVOKING && row.holder == 0);
    CHECK(row.taker == 1 && cetomuhi_reservation_at(&m.state, 1).taker == CETOMUHI_TAKER_NONE);
    CHECK(cetomuhi_reservation_at(&m.state, 1).base == 16);
    CHECK(cetomuhi_reservation_at(&m.state, 64).length == 0);
    CHECK(running.base == 0 && running.length == 16 && running.place == 10);
    CHECK(sent.base == 0 && sent.length == 16 && sent.permissions == CETOMUHI_MAY_LOAD);
    CHECK(cetomuhi_mailbox_at(&m.state, 2).tag == 1 && cetomuhi_mailbox_at(&m.state, 8).tag == 0);
    CHECK(cetomuhi_page_at(&m.state, 0).state == CETOMUHI_PAGE_FREED);
    CHECK(cetomuhi_page_at(&m.state, 256).state == CETOMUHI_PAGE_UNMAPPED);
    CHECK(cetomuhi_frame_at(&m.state, 0) == CETOMUHI_FRAME_DIRTY);
    grant(&m, cetomuhi_zero(0, 2));
    grant(&m, cetomuhi_map(0, 3, 2));
    CHECK(cetomuhi_page_at(&m.state, 3).frame == 2 && cetomuhi_frame_at(&m.state, 2) == 2);
}

/* Every code has words of its own, and those in `unused` share one phrase. */
static void test_code_words(void) {
    static const uint64_t unused[] = {23, 24, 26, 255, UINT64_MAX};
    static const uint64_t last = CETOMUHI_REFUSED_WRONG_RANGE;
    for (size_t i = 0; i < COUNT(unused); i++)
        CHECK(strcmp(cetomuhi_refusal_words(unused[i]), "no answer of the machine") == 0);
    for (uint64_t code = 0; code < 23; code++) {
        for (uint64_t other = code + 1; other < 24; other++)
            CHECK(strcmp(cetomuhi_refusal_words(code), cetomuhi_refusal_words(other)) != 0);
        CHECK(strcmp(cetomuhi_refusal_words(code), cetomuhi_refusal_words(last)) != 0);
    }
    CHECK(strstr(cetomuhi_refusal_words(last), "the records are no table") != NULL);
}

/* Every kind and state has a word of its own. */
static void test_words(void) {
    CHECK(strcmp(cetomuhi_kind_word(CETOMUHI_TAKE), "take") == 0);
    for (uint64_t kind = 0; kind <= CETOMUHI_DESTROY; kind++)
        for (uint64_t other = kind + 1; other <= CETOMUHI_DESTROY; other++)
            CHECK(strcmp(cetomuhi_kind_word(kind), cetomuhi_kind_word(other)) != 0);
    CHECK(strcmp(cetomuhi_kind_word(CETOMUHI_RECEIVE), "receive") == 0);
    CHECK(strcmp(cetomuhi_kind_word(CETOMUHI_TAKE_MASKED), "take masked") == 0);
    CHECK(strcmp(cetomuhi_kind_word(CETOMUHI_DESTROY), "destroy") == 0);
    CHECK(strcmp(cetomuhi_kind_word(CETOMUHI_DESTROY + 1), cetomuhi_kind_word(0)) == 0);
    CHECK(strcmp(cetomuhi_kind_word(UINT64_MAX), cetomuhi_kind_word(0)) == 0);
    CHECK(strcmp(cetomuhi_reservation_word(CETOMUHI_REVOKING), "Revoking") == 0);
    CHECK(strcmp(cetomuhi_page_word(CETOMUHI_PAGE_FREED), "Freed") == 0);
    CHECK(strcmp(cetomuhi_frame_word(CETOMUHI_FRAME_DIRTY), "Dirty") == 0);
}

/* ---- A run equals single commands ---- */

enum { CALLS = 300, BYTES = CALLS * CETOMUHI_COMMAND_BYTES };

static uint64_t seed = UINT64_C(0x9E3779B97F4A7C15);

static uint64_t below(uint64_t limit) {
    seed ^= seed << 13;
    seed ^= seed >> 7;
    seed ^= seed << 17;
    return (seed >> 11) % limit;
}

/* A call on a principal below 6, mostly by its holder or its parent's. */
static cetomuhi_call random_claim(const cetomuhi_state *state, uint64_t kind) {
    const uint64_t principal = below(20) ? below(6) : below(40);
    const cetomuhi_principal it = cetomuhi_principal_at(state, principal);
    const cetomuhi_principal above = cetomuhi_principal_at(state, it.parent);
    const uint64_t has_say = kind == CETOMUHI_DESTROY ? above.holder : it.holder;
    const uint64_t party = below(6) ? has_say : below(9);
    const uint64_t page = below(20) ? below(3) : below(9);
    switch (kind) {
    case CETOMUHI_CREATE:
        return cetomuhi_create(party, principal, below(6), below(6), below(30) ? below(3) : 8);
    case CETOMUHI_DESTROY:
        return cetomuhi_destroy(party, principal);
    default:
        return cetomuhi_call_of(kind, party, principal, page, 0);
    }
}

/* A call that is often granted on the state: it names a reservation by its base and holder. */
static cetomuhi_call random_call(const cetomuhi_state *state) {
    const uint64_t kind = below(40) ? 1 + below(COUNT(widths) - 1) : below(COUNT(widths) + 3);
    if (kind >= CETOMUHI_CREATE && kind <= CETOMUHI_DESTROY)
        return random_claim(state, kind);
    const cetomuhi_reservation row =
        cetomuhi_reservation_at(state, below(cetomuhi_row_count(state)));
    const bool of_row = kind <= CETOMUHI_REVOKE || kind == CETOMUHI_TAKE_MASKED;
    const bool named = of_row && below(8);
    const bool manager = kind >= CETOMUHI_REVOKE && kind <= CETOMUHI_ZERO && below(20);
    const uint64_t other = below(below(30) ? 3 : 9);
    const uint64_t party = manager ? 0 : named ? row.holder : other;
    const uint64_t base = named ? row.base : below(100);
    const uint64_t first = below(30) ? below(3) : below(9);
    const uint64_t second = below(30) ? below(3) : below(9);
    const uint64_t off = below(20);
    const uint64_t len = below(3) ? 16 : below(40);
    const uint64_t mask = below(3) ? CETOMUHI_ALL_PERMISSIONS : below(256);
    switch (kind) {
    case CETOMUHI_TAKE:
    case CETOMUHI_GIVE:
        return cetomuhi_call_of(kind, party, base, first, 0);
    case CETOMUHI_TAKE_MASKED:
        return cetomuhi_take_masked(party, base, first, mask);
    case CETOMUHI_SPLIT:
        return cetomuhi_split(party, base, len);
    case CETOMUHI_MERGE:
    case CETOMUHI_REVOKE:
        return cetomuhi_call_of(kind, party, base, 0, 0);
    case CETOMUHI_SWEEP:
        return cetomuhi_sweep(party, len);
    case CETOMUHI_COLLECT:
        return cetomuhi_collect(party);
    case CETOMUHI_LOAD:
    case CETOMUHI_STORE:
        return cetomuhi_call_of(kind, party, first, off, second);
    case CETOMUHI_NARROW:
        return cetomuhi_narrow(party, first, off / 4, len / 2, base ? 15 : off, second);
    case CETOMUHI_NUMBER:
        return cetomuhi_number(party, first, seed);
    case CETOMUHI_MAP:
    case CETOMUHI_GRANT:
        return cetomuhi_call_of(kind, party, first, second, 0);
    default:
        return cetomuhi_call_of(kind, party, first, 0, 0);
    }
}

/* Commands in a row, now and then with a byte that is another, or cut short. */
static size_t random_input(const cetomuhi_machine *fresh, uint8_t *bytes) {
    static cetomuhi_machine guide;
    size_t length = 0;
    guide = *fresh;
    for (size_t i = 0; i < CALLS; i++) {
        const cetomuhi_call call = random_call(&guide.state);
        cetomuhi_machine_call(&guide, call);
        length += cetomuhi_call_write(call, bytes + length, BYTES - length);
    }
    if (below(4) == 0) {
        const size_t place = below(length);
        bytes[place] = (uint8_t)below(256);
    }
    return length - below(3);
}

/* The run's answers one by one on the other machine; whether the last one ends a session. */
static bool follow(cetomuhi_machine *single, const uint8_t *bytes, size_t length, size_t *at,
                   const cetomuhi_answer *answers, size_t done) {
    bool ended = false;
    for (size_t i = 0; i < done; i++) {
        const cetomuhi_answer answer = cetomuhi_machine_command(single, bytes, length, *at);
        CHECK(!ended);
        CHECK(memcmp(&answer, &answers[i], sizeof answer) == 0);
        ended = answer.code >= 1 && answer.code <= 3;
        CHECK(ended == (answer.used == 0));
        *at += answer.used;
    }
    return ended;
}

static void random_history(size_t room) {
    static cetomuhi_machine run;
    static cetomuhi_machine single;
    static uint8_t bytes[BYTES];
    cetomuhi_answer answers[CALLS];
    size_t at = 0;
    size_t place = 0;
    bool ended = false;
    const uint64_t pages = 1 + below(4);
    const uint64_t frames = 1 + below(4);
    CHECK(cetomuhi_machine_start(&run, pages, frames) == 0);
    single = run;
    const size_t length = random_input(&run, bytes);
    while (!ended && at < length) {
        const size_t done = cetomuhi_machine_commands(&run, bytes, length, &at, answers, room);
        ended = follow(&single, bytes, length, &place, answers, done);
        CHECK(at == place);
        CHECK(memcmp(&run, &single, sizeof run) == 0);
        CHECK(ended || done == room || at == length);
        if (done == 0)
            break;
    }
    CHECK(cetomuhi_machine_well_formed(&run));
}

int main(int count, char **words) {
    const size_t rooms[] = {1, 2, 7, 16, CALLS};
    const long rounds = count > 1 ? atol(words[1]) : 200;
    test_session();
    test_takes();
    test_joined_takers();
    test_revoked_takers();
    test_refusals_and_showing();
    test_code_words();
    test_words();
    for (long i = 0; i < rounds; i++)
        random_history(rooms[(size_t)i % COUNT(rooms)]);
    return end("histories");
}
