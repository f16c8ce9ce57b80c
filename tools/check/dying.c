#include "dying.h"

#include "orders.h"

uint64_t addressed_cell(trial *t, const cetomuhi_call *call)
{
    const cetomuhi_word through =
        cetomuhi_register_at(&t->before.state, call->numbers[1], call->numbers[2]);
    const long at = lent_place(&t->before.state, (through.cell & 0xFFFF) + call->numbers[3]);
    if (at < 0)
        fail(t, "a load or store is granted where no page is Mapped");
    return (uint64_t)at;
}

/* Whether the register holds a capability with these permissions whose cell at `off` is shown. */
static bool leads_to_memory(const trial *t, size_t at, uint64_t off, uint8_t permissions)
{
    const cetomuhi_state *state = &t->machine.state;
    const cetomuhi_capability it = cetomuhi_capability_of(state->words[at]);
    return state->marks[at] != 0 && (it.permissions & permissions) == permissions &&
           off < it.length && lent_place(state, it.base + off) >= 0;
}

bool store_dying(trial *t, const revocation *runs)
{
    const cetomuhi_state *state = &t->machine.state;
    const size_t from = below(t, CETOMUHI_WORDS);
    const uint64_t off = below(t, CELLS);
    for (size_t i = 0; i < CETOMUHI_WORDS; i++) {
        const size_t s = (from + i) % CETOMUHI_WORDS;
        const uint64_t party = s / CETOMUHI_REGISTERS;
        if (state->marks[s] == 0 || !is_dying(runs, state->words[s]))
            continue;
        for (uint64_t a = 0; a < CETOMUHI_REGISTERS; a++)
            if (leads_to_memory(t, CETOMUHI_REGISTERS * party + a, off,
                                CETOMUHI_MAY_STORE | CETOMUHI_MAY_STORE_CAPABILITY)) {
                make(t, cetomuhi_store(party, a, off, s % CETOMUHI_REGISTERS));
                return true;
            }
    }
    return false;
}

bool load_dying(trial *t, const revocation *runs, uint64_t d)
{
    const cetomuhi_state *state = &t->machine.state;
    const size_t from = below(t, CETOMUHI_WORDS);
    for (size_t i = 0; i < CETOMUHI_WORDS; i++) {
        const size_t a = (from + i) % CETOMUHI_WORDS;
        const cetomuhi_capability it = cetomuhi_capability_of(state->words[a]);
        for (uint64_t off = 0; off < it.length; off++) {
            if (!leads_to_memory(t, a, off, CETOMUHI_MAY_LOAD))
                continue;
            const long at = lent_place(state, it.base + off);
            if (t->machine.tags[at] == 0 || !is_dying(runs, t->machine.cells[at]))
                continue;
            make(t, cetomuhi_load(a / CETOMUHI_REGISTERS, a % CETOMUHI_REGISTERS, off, d));
            return true;
        }
    }
    return false;
}
