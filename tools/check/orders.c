#include "orders.h"

#include "seen.h"

enum { ANY = 12, TRIES = 6 };

/* ---- Operands ---- */

static uint64_t any_party(trial *t)
{
    return below(t, CETOMUHI_PARTIES);
}

static uint64_t any_register(trial *t)
{
    return below(t, CETOMUHI_REGISTERS);
}

static cetomuhi_reservation any_row(trial *t)
{
    const cetomuhi_state *state = &t->machine.state;
    return cetomuhi_reservation_at(state, below(t, cetomuhi_row_count(state)));
}

static uint64_t any_page(trial *t)
{
    return below(t, cetomuhi_page_count(&t->machine.state));
}

static uint64_t any_frame(trial *t)
{
    return below(t, cetomuhi_frame_count(&t->machine.state));
}

static uint64_t page_that_is(trial *t, uint8_t state)
{
    uint64_t page = any_page(t);
    for (int i = 0; i < TRIES && cetomuhi_page_at(&t->machine.state, page).state != state; i++)
        page = any_page(t);
    return page;
}

static uint64_t frame_that_is(trial *t, uint8_t state)
{
    uint64_t frame = any_frame(t);
    for (int i = 0; i < TRIES && cetomuhi_frame_at(&t->machine.state, frame) != state; i++)
        frame = any_frame(t);
    return frame;
}

/* A register, 8 times the party added, that holds a capability if one is soon found. */
static uint64_t tagged_register(trial *t)
{
    uint64_t at = below(t, CETOMUHI_WORDS);
    for (int i = 0; i < 4 * TRIES && t->machine.state.marks[at] == 0; i++)
        at = below(t, CETOMUHI_WORDS);
    return at;
}

/* A register of the party. */
static uint64_t tagged_register_of(trial *t, uint64_t party)
{
    uint64_t reg = any_register(t);
    for (int i = 0; i < TRIES && !cetomuhi_register_at(&t->machine.state, party, reg).tag; i++)
        reg = any_register(t);
    return reg;
}

static uint64_t any_mask(trial *t)
{
    return once_in(t, 3) ? below(t, 256) : CETOMUHI_ALL_PERMISSIONS;
}

/* ---- Calls ---- */

static cetomuhi_call likely_split(trial *t)
{
    const cetomuhi_reservation row = any_row(t);
    const uint64_t pages = row.length / CELLS;
    const bool by_pages = pages > 1 && row.base % CELLS == 0 && !once_in(t, 3);
    const uint64_t len = by_pages ? CELLS * (1 + below(t, pages - 1)) : below(t, row.length + 1u);
    return cetomuhi_split(row.holder, row.base, len);
}

static cetomuhi_call likely_of_row(trial *t, uint64_t kind)
{
    const cetomuhi_reservation row = any_row(t);
    const uint64_t reg = any_register(t);
    switch (kind) {
    case CETOMUHI_TAKE:
        return cetomuhi_take(row.holder, row.base, reg);
    case CETOMUHI_TAKE_MASKED:
        return cetomuhi_take_masked(row.holder, row.base, reg, any_mask(t));
    case CETOMUHI_GIVE:
        return cetomuhi_give(row.holder, row.base, any_party(t));
    case CETOMUHI_REVOKE:
        return cetomuhi_revoke(0, row.base);
    default:
        return cetomuhi_merge(row.holder, row.base);
    }
}

static cetomuhi_call likely_of_word(trial *t, uint64_t kind)
{
    const uint64_t at = tagged_register(t);
    const uint64_t party = at / CETOMUHI_REGISTERS;
    const uint64_t a = at % CETOMUHI_REGISTERS;
    const uint64_t length = cetomuhi_capability_of(t->machine.state.words[at]).length;
    const uint64_t off = below(t, length);
    const uint64_t d = any_register(t);
    switch (kind) {
    case CETOMUHI_LOAD:
        return cetomuhi_load(party, a, off, d);
    case CETOMUHI_STORE:
        return cetomuhi_store(party, a, off, tagged_register_of(t, party));
    case CETOMUHI_NARROW: {
        const uint64_t len = 1 + below(t, length - off);
        return cetomuhi_narrow(party, a, off, len, any_mask(t), d);
    }
    default:
        return cetomuhi_grant(party, a, any_party(t));
    }
}

static cetomuhi_call likely_receive(trial *t)
{
    uint64_t party = any_party(t);
    for (int i = 0; i < TRIES && t->machine.state.flags[party] == 0; i++)
        party = any_party(t);
    return cetomuhi_receive(party, any_register(t));
}

/* A small number or any. */
static cetomuhi_call likely_number(trial *t)
{
    const uint64_t party = any_party(t);
    const uint64_t d = any_register(t);
    const uint64_t value = once_in(t, 3) ? below(t, 1000) : t->chance;
    return cetomuhi_number(party, d, value);
}

static cetomuhi_call likely_of_pages(trial *t, uint64_t kind)
{
    const uint64_t cells = CELLS * cetomuhi_frame_count(&t->machine.state);
    switch (kind) {
    case CETOMUHI_SWEEP:
        return cetomuhi_sweep(0, below(t, once_in(t, 4) ? 2 * cells : 12));
    case CETOMUHI_MAP: {
        const uint64_t page = page_that_is(t, CETOMUHI_PAGE_UNMAPPED);
        return cetomuhi_map(0, page, frame_that_is(t, CETOMUHI_FRAME_FREE));
    }
    case CETOMUHI_UNMAP:
        return cetomuhi_unmap(0, page_that_is(t, CETOMUHI_PAGE_MAPPED));
    case CETOMUHI_ZERO:
        return cetomuhi_zero(0, frame_that_is(t, CETOMUHI_FRAME_DIRTY));
    default:
        return cetomuhi_collect(0);
    }
}

/* A principal in being. */
static uint64_t likely_principal(trial *t)
{
    uint64_t p = below(t, CETOMUHI_PRINCIPALS);
    while (p > 0 && t->machine.state.principals[p] == 0)
        p--;
    return p;
}

static uint64_t holder_of(const trial *t, uint64_t principal)
{
    return t->machine.state.principals[principal] >> 24 & 7;
}

static cetomuhi_call likely_of_principal(trial *t, uint64_t kind)
{
    const uint64_t p = likely_principal(t);
    const uint64_t party = holder_of(t, p);
    const uint64_t unspent = t->machine.state.principals[p] & 0xFFFF;
    switch (kind) {
    case CETOMUHI_CREATE: {
        const uint64_t limit = below(t, unspent < 8 ? unspent + 2 : 9);
        const uint64_t child = below(t, CETOMUHI_PRINCIPALS);
        return cetomuhi_create(party, p, child, limit, any_party(t));
    }
    case CETOMUHI_CLAIM:
        return cetomuhi_claim(party, p, any_page(t));
    case CETOMUHI_RELEASE:
        return cetomuhi_release(party, p, any_page(t));
    default: {
        const uint64_t parent = t->machine.state.principals[p] >> 16 & 31;
        return cetomuhi_destroy(holder_of(t, parent), p);
    }
    }
}

static cetomuhi_call likely_of_kind(trial *t, uint64_t kind)
{
    switch (kind) {
    case CETOMUHI_SPLIT:
        return likely_split(t);
    case CETOMUHI_TAKE:
    case CETOMUHI_TAKE_MASKED:
    case CETOMUHI_MERGE:
    case CETOMUHI_GIVE:
    case CETOMUHI_REVOKE:
        return likely_of_row(t, kind);
    case CETOMUHI_LOAD:
    case CETOMUHI_STORE:
    case CETOMUHI_NARROW:
    case CETOMUHI_GRANT:
        return likely_of_word(t, kind);
    case CETOMUHI_NUMBER:
        return likely_number(t);
    case CETOMUHI_RECEIVE:
        return likely_receive(t);
    case CETOMUHI_CREATE:
    case CETOMUHI_CLAIM:
    case CETOMUHI_RELEASE:
    case CETOMUHI_DESTROY:
        return likely_of_principal(t, kind);
    default:
        return likely_of_pages(t, kind);
    }
}

/* One operand becomes any number of its bytes, more often a small one. */
static void change_operand(trial *t, cetomuhi_call *call)
{
    const uint64_t kind = call->numbers[0];
    const size_t operand = below(t, operand_count(kind));
    const uint64_t values = operand_bytes(kind, operand) == 1 ? 256 : 65536;
    call->numbers[1 + operand] = below(t, once_in(t, 3) ? values : 9);
}

cetomuhi_call likely_call(trial *t, const weights often)
{
    uint64_t whole = 0;
    uint64_t kind = 0;
    for (size_t i = 0; i < KINDS; i++)
        whole += often[i];
    uint64_t left = below(t, whole);
    while (left >= often[kind])
        left -= often[kind++];
    cetomuhi_call call = likely_of_kind(t, kind);
    if (once_in(t, ANY))
        change_operand(t, &call);
    return call;
}

void make_likely(trial *t, const weights often, uint64_t count)
{
    for (uint64_t i = 0; i < count; i++)
        make(t, likely_call(t, often));
}

/* ---- Beginnings and ends ---- */

void settle(trial *t, uint64_t v, uint64_t f, uint64_t parties)
{
    start(t, v, f);
    for (uint64_t frame = 0; frame < f && frame < v; frame++) {
        set_up(t, cetomuhi_zero(0, frame));
        set_up(t, cetomuhi_map(0, frame, frame));
    }
    for (uint64_t page = 0; page < v; page++) {
        const uint64_t party = page % parties;
        if (page + 1 < v)
            set_up(t, cetomuhi_split(0, CELLS * page, CELLS));
        if (page >= f)
            continue;
        set_up(t, cetomuhi_give(0, CELLS * page, party));
        set_up(t, cetomuhi_take_masked(party, CELLS * page, page / parties, 15));
    }
}

bool begin_revocation(trial *t)
{
    for (int i = 0; i < TRIES; i++) {
        const cetomuhi_reservation row = any_row(t);
        if (row.base % CELLS != 0 || row.length % CELLS != 0)
            continue;
        for (uint64_t page = row.base / CELLS; page < (row.base + row.length) / CELLS; page++)
            if (lent_place(&t->machine.state, CELLS * page) >= 0)
                make(t, cetomuhi_unmap(0, page));
        if (make(t, cetomuhi_revoke(0, row.base)).code == CETOMUHI_GRANTED)
            return true;
    }
    return false;
}

void end_revocation(trial *t)
{
    set_up(t, cetomuhi_sweep(0, CETOMUHI_MEMORY_CELLS));
    set_up(t, cetomuhi_collect(0));
}
