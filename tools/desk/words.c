#include "words.h"

#include <inttypes.h>

void add_range(text *to, size_t first, size_t last)
{
    if (first == last)
        add(to, "%zu", first);
    else
        add(to, "%zu to %zu", first, last);
}

void add_named_range(text *to, const char *name, size_t first, size_t last)
{
    add(to, first == last ? "%s " : "%ss ", name);
    add_range(to, first, last);
}

void add_cells(text *to, size_t base, size_t length)
{
    if (length == 0)
        add(to, "no cell");
    else
        add_named_range(to, "cell", base, base + length - 1);
}

/* Who took a reservation that is not Open. A revoke of an Open one makes its taker 0, so that a
 * Revoking one with taker 0 is one that party 0 took, or that nobody did. */
static void add_taker(text *to, cetomuhi_reservation it)
{
    add(to, it.state == CETOMUHI_TAKEN ? " by " : ", taken by ");
    if (it.taker == CETOMUHI_TAKER_SEVERAL)
        add(to, "several parties");
    else
        add(to, "party %u", it.taker);
    if (it.state == CETOMUHI_REVOKING && it.taker == 0)
        add(to, " or by nobody");
}

void add_standing(text *to, cetomuhi_reservation it)
{
    add(to, "%s", cetomuhi_reservation_word(it.state));
    if (it.state == CETOMUHI_OPEN)
        add(to, ", held by party %u", it.holder);
    else
        add_taker(to, it);
}

void add_page_state(text *to, cetomuhi_page it)
{
    add(to, "%s", cetomuhi_page_word(it.state));
    if (it.state == CETOMUHI_PAGE_MAPPED)
        add(to, " to frame %u", it.frame);
}

void add_permissions(text *to, unsigned permissions)
{
    static const char *const two[] = {"", "load", "store", "load and store"};
    const char *const of_numbers = two[permissions & 3];
    const char *const of_capabilities = two[permissions >> 2 & 3];
    if ((permissions & CETOMUHI_ALL_PERMISSIONS) == CETOMUHI_ALL_PERMISSIONS) {
        add(to, "all permissions");
        return;
    }
    add(to, "%s", *of_numbers == '\0' && *of_capabilities == '\0' ? "no permission" : of_numbers);
    if (*of_capabilities != '\0')
        add(to, "%s%s capabilities", *of_numbers == '\0' ? "" : ", ", of_capabilities);
}

bool is_dying(cetomuhi_word word, const cetomuhi_state *state)
{
    const cetomuhi_revocation it = cetomuhi_revocation_of(state);
    const size_t base = cetomuhi_capability_of(word.cell).base;
    return word.tag != 0 && base >= it.base && base < (size_t)it.base + it.length;
}

void add_capability(text *to, uint64_t cell, const cetomuhi_state *state)
{
    const cetomuhi_capability it = cetomuhi_capability_of(cell);
    const cetomuhi_word word = {cell, 1};
    add_cells(to, it.base, it.length);
    add(to, ", ");
    add_permissions(to, it.permissions);
    if (is_dying(word, state))
        add(to, "; dying");
}

void add_word(text *to, cetomuhi_word word, const cetomuhi_state *state)
{
    if (word.tag == 0)
        add(to, "number %" PRIu64, word.cell);
    else
        add_capability(to, word.cell, state);
}

bool shown_word(const cetomuhi_machine *machine, uint64_t cell, cetomuhi_word *word)
{
    const cetomuhi_page page = cetomuhi_page_at(&machine->state, cell / CETOMUHI_PAGE_CELLS);
    const size_t place = CETOMUHI_PAGE_CELLS * (size_t)page.frame + cell % CETOMUHI_PAGE_CELLS;
    if (page.state != CETOMUHI_PAGE_MAPPED || place >= CETOMUHI_MEMORY_CELLS)
        return false;
    word->cell = machine->cells[place];
    word->tag = machine->tags[place] != 0;
    return true;
}
