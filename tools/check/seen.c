#include "seen.h"

#include <stdio.h>

bool is_readable(const cetomuhi_state *state, const cetomuhi_state *before)
{
    const size_t count = cetomuhi_row_count(state);
    const size_t pages = cetomuhi_page_count(state);
    uint64_t end = 0;
    bool fits = pages == cetomuhi_page_count(before) && count >= 1 && count <= CETOMUHI_ROWS &&
                cetomuhi_frame_count(state) == cetomuhi_frame_count(before);
    for (size_t i = 0; fits && i < count; i++) {
        const cetomuhi_reservation row = cetomuhi_reservation_at(state, i);
        fits = row.base == end && row.length > 0;
        end += row.length;
    }
    for (size_t page = 0; fits && page < pages; page++)
        fits = cetomuhi_page_at(state, page).frame < cetomuhi_frame_count(state);
    return fits && end == CELLS * pages;
}

cetomuhi_reservation row_at(const cetomuhi_state *state, uint64_t base)
{
    const cetomuhi_reservation none = {0, 0, 0, 0, 0};
    for (size_t i = 0; i < cetomuhi_row_count(state) && i < CETOMUHI_ROWS; i++) {
        const cetomuhi_reservation it = cetomuhi_reservation_at(state, i);
        if (it.base == base)
            return it;
    }
    return none;
}

long lent_place(const cetomuhi_state *state, uint64_t cell)
{
    const uint64_t page = cell / CELLS;
    if (page >= cetomuhi_page_count(state))
        return -1;
    const cetomuhi_page it = cetomuhi_page_at(state, page);
    if (it.state != CETOMUHI_PAGE_MAPPED || it.frame >= CETOMUHI_FRAMES)
        return -1;
    return (long)(CELLS * it.frame + cell % CELLS);
}

bool reaches_into(range cells, uint64_t word)
{
    const cetomuhi_capability it = cetomuhi_capability_of(word);
    return it.base < cells.base + cells.length && cells.base < (uint64_t)it.base + it.length;
}

static bool find_in_memory(const cetomuhi_machine *machine, range cells, wanted *is_wanted,
                           char *where, size_t room)
{
    const uint64_t end = CELLS * cetomuhi_page_count(&machine->state);
    for (uint64_t cell = 0; cell < end; cell++) {
        const long at = lent_place(&machine->state, cell);
        if (at < 0 || machine->tags[at] == 0 || !is_wanted(cells, machine->cells[at]))
            continue;
        snprintf(where, room, "cell %u of lent memory, which page %u shows", (unsigned)at,
                 (unsigned)(cell / CELLS));
        return true;
    }
    return false;
}

bool find_tagged(const cetomuhi_machine *machine, range cells, wanted *is_wanted, size_t except,
                 char *where, size_t room)
{
    const cetomuhi_state *state = &machine->state;
    for (size_t i = 0; i < CETOMUHI_WORDS; i++)
        if (i != except && state->marks[i] != 0 && is_wanted(cells, state->words[i])) {
            snprintf(where, room, "register %u of party %u", (unsigned)(i % CETOMUHI_REGISTERS),
                     (unsigned)(i / CETOMUHI_REGISTERS));
            return true;
        }
    for (size_t party = 0; party < CETOMUHI_PARTIES; party++)
        if (state->flags[party] != 0 && is_wanted(cells, state->mail[party])) {
            snprintf(where, room, "the mailbox of party %u", (unsigned)party);
            return true;
        }
    return find_in_memory(machine, cells, is_wanted, where, room);
}

void follow(revocation *it, const trial *t, const cetomuhi_call *call, cetomuhi_answer answer)
{
    const uint64_t first = call->numbers[2];
    if (was_granted(call, answer, CETOMUHI_REVOKE)) {
        it->runs = true;
        it->cells = (range){first, row_at(&t->before.state, first).length};
        it->left = lent_cells(&t->before.state);
    }
    if (was_granted(call, answer, CETOMUHI_SWEEP))
        it->left -= first < it->left ? first : it->left;
    if (was_granted(call, answer, CETOMUHI_COLLECT))
        it->runs = false;
}
