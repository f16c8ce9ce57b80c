#include "odd_inputs.h"

#include <inttypes.h>

#include "calls.h"
#include "seen.h"

static const uint8_t command[] = {CETOMUHI_NUMBER, 1, 2, 0, 0, 0, 0, 0, 0, 0, 42};

/* A command that must be refused so, with every byte kept. */
static void refuse(trial *t, uint64_t code, size_t cells, size_t tags, const char *why)
{
    static cetomuhi_machine before;
    uint64_t answer[CETOMUHI_ANSWER_NUMBERS] = {99, 99, 99, 99};
    before = t->machine;
    const size_t done = cetomuhi_command(CETOMUHI_SLICES(&t->machine.state), t->machine.cells,
                                         cells, t->machine.tags, tags, command, sizeof command, 0,
                                         answer, CETOMUHI_ANSWER_NUMBERS);
    if (done != 1 || answer[0] != code || answer[1] != 0 || answer[2] != 0 || answer[3] != 0)
        fail(t, "%s: the answer is %" PRIu64 " and not %" PRIu64 " (%s)", why, answer[0], code,
             cetomuhi_refusal_words(code));
    if (memcmp(&before, &t->machine, sizeof before) != 0)
        fail(t, "%s: a refused call changed something", why);
}

/* ---- States ---- */

static bool break_numbers(cetomuhi_state *s, size_t way)
{
    static const uint16_t wrong[][2] = {{0, 0},   {0, 257}, {0, 65535}, {1, 0},
                                        {1, 129}, {2, 0},   {2, 65},    {2, 65535}};
    s->numbers[wrong[way][0]] = wrong[way][1];
    return true;
}

static bool break_rows(cetomuhi_state *s, size_t way)
{
    const size_t count = cetomuhi_row_count(s);
    uint64_t *last = &s->rows[count - 1];
    switch (way) {
    case 0: /* a cell too long */
        *last += UINT64_C(1) << 16;
        return true;
    case 1: /* no state */
        *last |= UINT64_C(3) << 32;
        return true;
    case 2: /* no party */
        *last |= UINT64_C(8) << 40;
        return true;
    case 3: /* no taker */
        *last |= UINT64_C(0xFF) << 48;
        return true;
    case 4: /* bits that are not in use */
        *last |= UINT64_C(1) << 56;
        return true;
    default: /* an unused entry is not 0 */
        if (count == CETOMUHI_ROWS)
            return false;
        s->rows[count] = UINT64_C(9) << 48;
        return true;
    }
}

static bool break_pages(cetomuhi_state *s, size_t way)
{
    const size_t v = cetomuhi_page_count(s);
    const size_t f = cetomuhi_frame_count(s);
    switch (way) {
    case 0: /* shows a frame that there is not */
        s->pages[v - 1] = (uint16_t)(2 + f);
        return true;
    case 1: /* Mapped, and no page shows it; or not, and one does */
        s->frames[f - 1] = (uint8_t)(s->frames[f - 1] == CETOMUHI_FRAME_MAPPED ? 0 : 2);
        return true;
    case 2:
        s->frames[0] = 3;
        return true;
    case 3: /* unused entries are not 0 */
        s->pages[CETOMUHI_PAGES - 1] = 1;
        return v < CETOMUHI_PAGES;
    default:
        s->frames[CETOMUHI_FRAMES - 1] = 1;
        return f < CETOMUHI_FRAMES;
    }
}

static bool break_rest(cetomuhi_state *s, size_t way)
{
    switch (way) {
    case 0: /* a sweep place past the end, or where no revocation runs */
        s->numbers[3] = (uint16_t)(CELLS * cetomuhi_frame_count(s) + 1);
        return true;
    case 1: /* an empty mailbox that is not 0 */
        s->flags[5] = 0;
        s->mail[5] = 1;
        return true;
    case 2: /* limits of 8,193 */
        s->principals[0] += 1;
        return true;
    case 3: /* principal 0 is not party 0's */
        s->principals[0] |= UINT64_C(1) << 24;
        return true;
    default: /* a claim of nobody's, or of a page that there is not */
        s->counts[CETOMUHI_COUNTS - 1] = 1;
        return cetomuhi_page_count(s) < CETOMUHI_PAGES;
    }
}

static bool break_state(cetomuhi_state *s, size_t way)
{
    if (way < 8)
        return break_numbers(s, way);
    if (way < 14)
        return break_rows(s, way - 8);
    return way < 19 ? break_pages(s, way - 14) : break_rest(s, way - 19);
}

bool try_broken_state(trial *t, size_t way)
{
    const size_t cells = lent_cells(&t->before.state);
    const bool fits = break_state(&t->machine.state, way);
    char why[64] = "a state that is not well formed";
    if (fits) {
        if (cetomuhi_machine_well_formed(&t->machine))
            fail(t, "%s (way %zu) is said to be well formed", why, way);
        refuse(t, CETOMUHI_REFUSED_ILL_FORMED, cells, cells, why);
        refuse(t, CETOMUHI_REFUSED_ILL_FORMED, cells - 1, cells, why);
    }
    t->machine.state = t->before.state;
    return fits;
}

void try_random_state(trial *t)
{
    uint8_t *bytes = (uint8_t *)&t->machine.state;
    for (size_t i = 0; i < sizeof t->machine.state; i++)
        bytes[i] = (uint8_t)below(t, 256);
    t->machine.state.numbers[1] = (uint16_t)cetomuhi_frame_count(&t->before.state);
    if (!cetomuhi_machine_well_formed(&t->machine))
        refuse(t, CETOMUHI_REFUSED_ILL_FORMED, lent_cells(&t->before.state),
               lent_cells(&t->before.state), "a state of random bytes");
    t->machine.state = t->before.state;
}

void try_lent_lengths(trial *t)
{
    const size_t cells = lent_cells(&t->before.state);
    const size_t wrong[] = {0, 1, cells - 1, cells + 1, CETOMUHI_MEMORY_CELLS};
    for (size_t i = 0; i < sizeof wrong / sizeof wrong[0]; i++) {
        if (wrong[i] > CETOMUHI_MEMORY_CELLS || wrong[i] == cells)
            continue;
        refuse(t, CETOMUHI_REFUSED_LENT_LENGTH, wrong[i], cells, "cells of a wrong length");
        refuse(t, CETOMUHI_REFUSED_LENT_LENGTH, cells, wrong[i], "tags of a wrong length");
        refuse(t, CETOMUHI_REFUSED_LENT_LENGTH, wrong[i], wrong[i], "memory of a wrong length");
    }
}

/* ---- Calls to bytes and back ---- */

enum { STOOD = 0xA5, BEFORE = 3, ROOM = BEFORE + CETOMUHI_COMMAND_BYTES + 2 };

static void try_writer(trial *t, const cetomuhi_call *call, const uint8_t *bytes, size_t length)
{
    uint8_t out[ROOM];
    memset(out, STOOD, sizeof out);
    if (cetomuhi_call_write(*call, out, length - 1) != 0 || out[0] != STOOD)
        fail(t, "a call is written into too little room");
    if (cetomuhi_call_write(*call, out, sizeof out) != length || memcmp(out, bytes, length) != 0)
        fail(t, "a call of kind %" PRIu64 " is not written as its bytes", call->numbers[0]);
    for (size_t i = length; i < sizeof out; i++)
        if (out[i] != STOOD)
            fail(t, "a call of kind %" PRIu64 " writes past its bytes", call->numbers[0]);
}

static void try_reader(trial *t, const cetomuhi_call *call, const uint8_t *bytes, size_t length)
{
    uint8_t input[ROOM];
    cetomuhi_call read;
    memset(input, STOOD, sizeof input);
    memset(&read, STOOD, sizeof read);
    memcpy(input + BEFORE, bytes, length);
    const cetomuhi_call untouched = read;
    if (cetomuhi_call_read(&read, input, BEFORE + length - 1, BEFORE) != 0 ||
        cetomuhi_call_read(&read, input, BEFORE, BEFORE) != 0 ||
        cetomuhi_call_read(&read, input, sizeof input, sizeof input + 1) != 0 ||
        cetomuhi_call_read(&read, input, sizeof input, 0) != 0 ||
        memcmp(&read, &untouched, sizeof read) != 0)
        fail(t, "a call is read where no whole one stands");
    if (cetomuhi_call_read(&read, input, sizeof input, BEFORE) != length ||
        memcmp(&read, call, sizeof read) != 0)
        fail(t, "bytes of kind %" PRIu64 " are not read as their call", call->numbers[0]);
}

void try_reader_and_writer(trial *t, const cetomuhi_call *call)
{
    uint8_t bytes[CETOMUHI_COMMAND_BYTES];
    uint8_t out[ROOM];
    const size_t length = bytes_of(call, bytes);
    const size_t operand = below(t, operand_count(call->numbers[0]));
    const size_t width = operand_bytes(call->numbers[0], operand);
    cetomuhi_call wide = *call;
    try_writer(t, call, bytes, length);
    try_reader(t, call, bytes, length);
    if (width == 8)
        return;
    wide.numbers[1 + operand] += UINT64_C(1) << (8 * width + below(t, 60 - 8 * width));
    if (cetomuhi_call_write(wide, out, sizeof out) != 0)
        fail(t, "a call is written though an operand does not fit its bytes");
}

/* ---- Starts ---- */

void try_starts(trial *t)
{
    static const uint64_t wrong[][2] = {
        {0, 1},     {257, 1},        {1, 0},          {1, 129}, {65537, 1},
        {1, 65537}, {UINT64_MAX, 1}, {1, UINT64_MAX}, {1, 257}, {UINT64_C(1) << 32, 1}};
    static const cetomuhi_state zero;
    for (size_t i = 0; i < sizeof wrong / sizeof wrong[0]; i++) {
        memset(&t->machine.state, STOOD, sizeof t->machine.state);
        const uint8_t code = cetomuhi_state_start(&t->machine.state, wrong[i][0], wrong[i][1]);
        if (code != CETOMUHI_REFUSED_ILL_FORMED)
            fail(t, "a start with V %" PRIu64 ", F %" PRIu64 " is answered with %u and not 1",
                 wrong[i][0], wrong[i][1], code);
        if (memcmp(&t->machine.state, &zero, sizeof zero) != 0)
            fail(t, "a refused start hands back another than the all-zero state");
    }
    start(t, 256, 128);
    start(t, 1, 1);
}
