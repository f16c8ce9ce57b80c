/* Check 5: the permissions that a take gives, and what loads and stores make of them. */
#include <inttypes.h>

#include "orders.h"
#include "seen.h"

enum { PLAIN, MASKED, LACKING, DROPPED, ALLOWED };

enum { MASKS = 256 };

static uint8_t permissions_at(const cetomuhi_state *state, uint64_t party, uint64_t reg)
{
    return cetomuhi_capability_of(cetomuhi_register_at(state, party, reg).cell).permissions;
}

static void watch_take(trial *t, const cetomuhi_call *call)
{
    const bool plain = call->numbers[0] == CETOMUHI_TAKE;
    const uint64_t due = plain ? CETOMUHI_MAY_LOAD | CETOMUHI_MAY_STORE
                               : call->numbers[4] & CETOMUHI_ALL_PERMISSIONS;
    const uint64_t base = call->numbers[2];
    const uint64_t length = row_at(&t->before.state, base).length;
    const cetomuhi_word got =
        cetomuhi_register_at(&t->machine.state, call->numbers[1], call->numbers[3]);
    if (got.tag == 0 || got.cell != capability(base, length, due))
        fail(t,
             "the take gave %" PRIu64 " with tag %u and not a capability with permissions "
             "%" PRIu64,
             got.cell, got.tag, due);
    tally(t, plain ? PLAIN : MASKED);
}

/* Refusals 15 and 16 of a load or store, or 0. */
static uint64_t code_of(const trial *t, const cetomuhi_call *call)
{
    const cetomuhi_state *state = &t->before.state;
    const uint64_t party = call->numbers[1];
    const uint8_t has = permissions_at(state, party, call->numbers[2]);
    if (cetomuhi_register_at(state, party, call->numbers[2]).tag == 0)
        return CETOMUHI_REFUSED_UNTAGGED;
    if (call->numbers[0] == CETOMUHI_LOAD)
        return has & CETOMUHI_MAY_LOAD ? 0 : CETOMUHI_REFUSED_NO_PERMISSION;
    const bool tagged = cetomuhi_register_at(state, party, call->numbers[4]).tag != 0;
    const bool may = has & CETOMUHI_MAY_STORE && (!tagged || has & CETOMUHI_MAY_STORE_CAPABILITY);
    return may ? 0 : CETOMUHI_REFUSED_NO_PERMISSION;
}

static void watch_access(trial *t, const cetomuhi_call *call, cetomuhi_answer answer)
{
    const uint64_t code = code_of(t, call);
    const uint64_t came =
        answer.code == CETOMUHI_REFUSED_UNTAGGED || answer.code == CETOMUHI_REFUSED_NO_PERMISSION
            ? answer.code
            : 0;
    const bool keeps = permissions_at(&t->before.state, call->numbers[1], call->numbers[2]) &
                       CETOMUHI_MAY_LOAD_CAPABILITY;
    if (came != code)
        fail(t,
             "a load or store is answered with %" PRIu64 ", and by its permissions %" PRIu64
             " (%s) was due",
             answer.code, code, cetomuhi_refusal_words(code));
    if (code == CETOMUHI_REFUSED_NO_PERMISSION)
        tally(t, LACKING);
    if (!was_granted(call, answer, CETOMUHI_LOAD))
        return;
    if (!keeps && answer.tag != 0)
        fail(t, "a load without permission 4 kept the tag");
    tally(t, keeps ? ALLOWED : DROPPED);
}

static void watch(trial *t, const cetomuhi_call *call, cetomuhi_answer answer)
{
    const uint64_t kind = call->numbers[0];
    if (was_take(call, answer))
        watch_take(t, call);
    if ((kind == CETOMUHI_LOAD || kind == CETOMUHI_STORE) && answer.code != 4)
        watch_access(t, call, answer);
    if (was_granted(call, answer, CETOMUHI_NARROW) &&
        permissions_at(&t->machine.state, call->numbers[1], call->numbers[6]) !=
            (permissions_at(&t->before.state, call->numbers[1], call->numbers[2]) &
             call->numbers[5]))
        fail(t, "a narrowing did not give the permissions that are also in the mask");
}

/* A mapped page, taken by party 1 with the mask; register 1 holds a number, register 2 another
 * capability, and cell 3 a capability as if it had been stored. */
static void take_page(trial *t, cetomuhi_call take)
{
    start(t, 2, 1);
    set_up(t, cetomuhi_zero(0, 0));
    set_up(t, cetomuhi_map(0, 0, 0));
    set_up(t, cetomuhi_split(0, 0, 16));
    set_up(t, cetomuhi_give(0, 0, 1));
    set_up(t, cetomuhi_give(0, 16, 1));
    set_up(t, cetomuhi_take_masked(1, 16, 2, 15));
    set_up(t, cetomuhi_number(1, 1, 42));
    expect_answer(t, take, 16, 0);
    t->machine.cells[3] = capability(16, 16, 15);
    t->machine.tags[3] = 1;
    keep(t);
}

/* What the permissions let party 1 do. */
static void use_page(trial *t, uint64_t permissions)
{
    const bool load = permissions & CETOMUHI_MAY_LOAD;
    const bool store = permissions & CETOMUHI_MAY_STORE;
    const bool store_tagged = store && permissions & CETOMUHI_MAY_STORE_CAPABILITY;
    if (load)
        expect_answer(t, cetomuhi_load(1, 0, 3, 3), capability(16, 16, 15), permissions >> 2 & 1);
    else
        expect(t, cetomuhi_load(1, 0, 3, 3), 16);
    expect(t, cetomuhi_store(1, 0, 5, 1), store ? 0 : 16);
    if (t->machine.cells[5] != (store ? 42 : 0) || t->machine.tags[5] != 0)
        fail(t, "the number was not stored as permission 2 says");
    expect(t, cetomuhi_store(1, 0, 6, 2), store_tagged ? 0 : 16);
    if (t->machine.tags[6] != store_tagged)
        fail(t, "the capability was not stored as permission 8 says");
    expect(t, cetomuhi_grant(1, 0, 4), 0);
    expect_answer(t, cetomuhi_receive(4, 0), capability(0, 16, permissions), 1);
}

static void refuse_takes(trial *t)
{
    start(t, 2, 1);
    set_up(t, cetomuhi_split(0, 0, 16));
    set_up(t, cetomuhi_give(0, 0, 1));
    expect(t, cetomuhi_take_masked(2, 0, 0, 15), 6);
    expect(t, cetomuhi_take_masked(0, 0, 0, 15), 6);
    expect(t, cetomuhi_take_masked(1, 1, 0, 15), 6);
    expect(t, cetomuhi_take_masked(1, 16, 0, 15), 6);
    expect(t, cetomuhi_take_masked(1, 0, 8, 15), 4);
    expect(t, cetomuhi_take_masked(8, 0, 0, 15), 4);
    set_up(t, cetomuhi_take_masked(1, 0, 0, 0));
    expect(t, cetomuhi_take_masked(1, 0, 0, 15), 6);
    expect(t, cetomuhi_take_masked(0, 0, 0, 15), 7);
    set_up(t, cetomuhi_revoke(0, 0));
    expect(t, cetomuhi_take_masked(0, 0, 0, 15), 7);
}

static void in_fixed_order(trial *t)
{
    for (uint64_t mask = 0; mask < MASKS; mask++) {
        take_page(t, cetomuhi_take_masked(1, 0, 0, mask));
        use_page(t, mask & CETOMUHI_ALL_PERMISSIONS);
    }
    take_page(t, cetomuhi_take(1, 0, 0));
    use_page(t, CETOMUHI_MAY_LOAD | CETOMUHI_MAY_STORE);
    refuse_takes(t);
}

static void in_random_order(trial *t)
{
    static const weights often = {
        [CETOMUHI_TAKE_MASKED] = 5, [CETOMUHI_TAKE] = 2,   [CETOMUHI_LOAD] = 10,
        [CETOMUHI_STORE] = 10,      [CETOMUHI_NARROW] = 3, [CETOMUHI_GRANT] = 2,
        [CETOMUHI_RECEIVE] = 2,     [CETOMUHI_SPLIT] = 2,  [CETOMUHI_GIVE] = 2,
        [CETOMUHI_NUMBER] = 1};
    const uint64_t v = 2 + below(t, 4);
    start(t, v, v);
    for (uint64_t page = 0; page < v; page++) {
        set_up(t, cetomuhi_zero(0, page));
        set_up(t, cetomuhi_map(0, page, page));
        if (page > 0)
            set_up(t, cetomuhi_split(0, CELLS * (page - 1), CELLS));
    }
    make_likely(t, often, 45);
}

const check take_masked = {
    "take-masked",
    "Plain permissions on take (2026-01): take gives permissions 3, and a take with a mask gives "
    "those of 15 that are in it.",
    "a page is taken with each of the 256 masks and by a plain take; then a number and a "
    "capability are stored there, a capability is loaded, and the register is granted on",
    "takes with any masks, narrowings, loads and stores in 2 to 5 pages",
    "the register has other permissions; a load is granted without 1, a store without 2, that of a "
    "capability without 8, or one is refused that has them; a load keeps a tag without 4",
    {"plain takes", "takes with a mask", "calls refused for a permission",
     "loads without permission 4", "loads with it"},
    NULL,
    watch,
    in_fixed_order,
    in_random_order,
};
