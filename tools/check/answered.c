/* Check 11: every call is answered, and one that is refused keeps all. What holds after each call
 * is tested where it is made (trial.c). */
#include <inttypes.h>

#include "calls.h"
#include "odd_inputs.h"
#include "orders.h"
#include "seen.h"

enum { CALLS, REFUSED, BYTES, STATES, LENGTHS, RUNS };

enum { LOG = 128 }; /* calls of an order */

/* The calls since the start, to be run once more at one go. */
static struct {
    uint8_t bytes[LOG * CETOMUHI_COMMAND_BYTES];
    size_t length;
    cetomuhi_answer answers[LOG];
    size_t count;
} kept;

static void begin(trial *t)
{
    (void)t;
    kept.length = 0;
    kept.count = 0;
}

static void watch(trial *t, const cetomuhi_call *call, cetomuhi_answer answer)
{
    tally(t, CALLS);
    if (answer.code != CETOMUHI_GRANTED)
        tally(t, REFUSED);
    if (kept.count == LOG)
        return;
    kept.answers[kept.count++] = answer;
    kept.length += bytes_of(call, kept.bytes + kept.length);
}

/* The kept calls from a fresh start in two runs, the second up to a byte that is no command. */
static void run_again(trial *t)
{
    static cetomuhi_machine again;
    static cetomuhi_answer answers[LOG + 2];
    const cetomuhi_state *state = &t->machine.state;
    const size_t part = below(t, kept.count + 1);
    size_t at = 0;
    kept.bytes[kept.length] = 0;
    cetomuhi_machine_start(&again, cetomuhi_page_count(state), cetomuhi_frame_count(state));
    size_t done = cetomuhi_machine_commands(&again, kept.bytes, kept.length, &at, answers, part);
    if (done != part)
        fail(t, "a run with room for %zu answers gives %zu", part, done);
    done += cetomuhi_machine_commands(&again, kept.bytes, kept.length + 1, &at, answers + done,
                                      LOG + 2 - done);
    if (done != kept.count + 1 || at != kept.length)
        fail(t, "a run of %zu commands and a byte that is none gives %zu answers and ends at %zu",
             kept.count, done, at);
    if (memcmp(answers, kept.answers, kept.count * sizeof answers[0]) != 0 ||
        answers[kept.count].code != CETOMUHI_REFUSED_NO_COMMAND)
        fail(t, "a run of commands answers otherwise than single ones");
    if (memcmp(&again, &t->machine, sizeof again) != 0)
        fail(t, "a run of commands leaves another state or memory than single ones");
    tally(t, RUNS);
}

/* ---- The fixed order ---- */

/* Document 01's session, its take by 11 with mask 0F: V 2, F 1, and what it prints. */
static const struct line {
    uint8_t bytes[CETOMUHI_COMMAND_BYTES];
    uint64_t code, number, tag;
} session[] = {
    {{0x0A, 0, 0}, 0, 0, 0},
    {{0x08, 0, 0, 0}, 0, 0, 0},
    {{0x02, 0, 0, 0, 0, 0x10}, 0, 0, 0},
    {{0x04, 0, 0, 0, 3}, 0, 0, 0},
    {{0x11, 3, 0, 0, 0, 0x0F}, 0, 16, 0},
    {{0x0E, 3, 1, 0, 0, 0, 0, 0, 0, 0, 0x2A}, 0, 0, 0},
    {{0x0C, 3, 0, 0, 5, 1}, 0, 0, 0},
    {{0x0C, 3, 0, 0, 6, 0}, 0, 0, 0},
    {{0x0B, 3, 0, 0, 6, 2}, 0, UINT64_C(64425558016), 1},
    {{0x05, 0, 0, 0}, 13, 0, 0},
    {{0x09, 0, 0}, 0, 0, 0},
    {{0x05, 0, 0, 0}, 0, 0, 0},
    {{0x06, 0, 0, 0x0A}, 0, 6, 0},
    {{0x07, 0}, 11, 0, 0},
    {{0x06, 0, 0, 0xFF}, 0, 0, 0},
    {{0x07, 0}, 0, 0, 0},
    {{0x0B, 3, 0, 0, 6, 2}, 15, 0, 0},
};

static void hold_session(trial *t)
{
    start(t, 2, 1);
    for (size_t i = 0; i < sizeof session / sizeof session[0]; i++) {
        const struct line *it = &session[i];
        const cetomuhi_answer came = make_at(t, it->bytes, sizeof it->bytes, 0);
        if (came.code != it->code || came.number != it->number || came.tag != it->tag)
            fail(t,
                 "document 01's session, line %zu: the answer is not %" PRIu64 " %" PRIu64
                 " %" PRIu64,
                 i + 2, it->code, it->number, it->tag);
    }
    run_again(t);
}

/* Document 01's edges: those marked K. */
static void try_edges(trial *t)
{
    start(t, 1, 1);
    expect(t, cetomuhi_split(0, 0, 0), 8);
    expect(t, cetomuhi_split(0, 0, 16), 8);
    expect(t, cetomuhi_split(0, 0, 15), 0);
    expect(t, cetomuhi_revoke(0, 0), 10);
    expect(t, cetomuhi_merge(0, 0), 0);
    expect(t, cetomuhi_give(0, 0, 1), 0);
    expect(t, cetomuhi_take(1, 0, 0), 0);
    expect(t, cetomuhi_take(1, 0, 0), 6);
    expect(t, cetomuhi_take(0, 0, 0), 7);
    set_up(t, cetomuhi_zero(0, 0));
    set_up(t, cetomuhi_map(0, 0, 0));
    expect(t, cetomuhi_load(1, 0, 15, 1), 0);
    expect(t, cetomuhi_load(1, 0, 16, 1), 17);
    set_up(t, cetomuhi_unmap(0, 0));
    expect(t, cetomuhi_revoke(0, 0), 0);
    expect_answer(t, cetomuhi_sweep(0, 15), 1, 0);
    expect(t, cetomuhi_collect(0), 11);
    expect_answer(t, cetomuhi_sweep(0, 1), 0, 0);
    expect(t, cetomuhi_collect(0), 0);
}

/* The 64th and the 65th reservation. */
static void fill_table(trial *t)
{
    start(t, 5, 1);
    for (uint64_t base = 0; base < 63; base++)
        expect(t, cetomuhi_split(0, base, 1), 0);
    expect(t, cetomuhi_split(0, 63, 1), 9);
    expect(t, cetomuhi_split(0, 63, 17), 8);
    expect(t, cetomuhi_merge(0, 0), 0);
    expect_answer(t, cetomuhi_take(0, 0, 7), 2, 0);
}

/* A mailbox that is empty, and one that is full: what is in it stays. */
static void fill_mailbox(trial *t)
{
    start(t, 2, 1);
    set_up(t, cetomuhi_take(0, 0, 0));
    set_up(t, cetomuhi_narrow(0, 0, 1, 1, 1, 1));
    expect(t, cetomuhi_receive(1, 0), 19);
    expect(t, cetomuhi_grant(0, 0, 1), 0);
    expect(t, cetomuhi_grant(0, 1, 1), 19);
    expect_answer(t, cetomuhi_receive(1, 0), capability(0, 32, 3), 1);
}

/* Register 7 and 8, and party 7 and 8, as each operand that names one, with all others 0. */
static void name_registers(trial *t)
{
    static const uint64_t numbers[] = {7, 8, 9, 16, 64, 128, 255};
    start(t, 2, 1);
    for (uint64_t kind = 1; kind < KINDS; kind++)
        for (size_t operand = 0; operand < operand_count(kind); operand++)
            for (size_t i = 0; i < sizeof numbers / sizeof numbers[0]; i++) {
                cetomuhi_call call = {{kind}};
                call.numbers[1 + operand] = numbers[i];
                try_reader_and_writer(t, &call);
                if (is_judged_by_4(kind, operand))
                    make(t, call);
            }
}

static void in_fixed_order(trial *t)
{
    hold_session(t);
    try_edges(t);
    fill_table(t);
    fill_mailbox(t);
    name_registers(t);
    try_starts(t);
    start(t, 3, 2);
    for (size_t way = 0; way < WAYS_TO_BREAK_A_STATE; way++)
        try_broken_state(t, way);
    try_lent_lengths(t);
}

/* ---- Random orders ---- */

/* A command from a place of random bytes, most of them small. */
static void make_of_bytes(trial *t)
{
    uint8_t input[40];
    const size_t length = below(t, sizeof input + 1);
    const uint64_t small = once_in(t, 3) ? 256 : 9;
    for (size_t i = 0; i < length; i++)
        input[i] = (uint8_t)below(t, small);
    const size_t at = below(t, 12);
    if (at < length && !once_in(t, 4))
        input[at] = (uint8_t)(1 + below(t, KINDS - 1));
    make_at(t, input, length, at);
    tally(t, BYTES);
}

/* A call of any kind with any operands. */
static cetomuhi_call any_call(trial *t)
{
    cetomuhi_call call = {{1 + below(t, KINDS - 1)}};
    for (size_t i = 0; i < operand_count(call.numbers[0]); i++) {
        const size_t width = operand_bytes(call.numbers[0], i);
        const uint64_t most = width == 8 ? UINT64_MAX : UINT64_C(1) << 8 * width;
        call.numbers[1 + i] = below(t, once_in(t, 2) ? most : 10);
    }
    return call;
}

static void in_random_order(trial *t)
{
    static const weights often = {0, 3, 4, 2, 3, 2, 2, 2, 4, 2, 4, 4, 4, 3, 2, 3, 3, 4, 2, 3, 2, 1};
    const uint64_t v = 1 + below(t, 5);
    start(t, v, 1 + below(t, 4));
    for (int i = 0; i < 8; i++) {
        make_likely(t, often, 4);
        make_of_bytes(t);
        const cetomuhi_call call = any_call(t);
        try_reader_and_writer(t, &call);
        make(t, call);
    }
    run_again(t);
    if (try_broken_state(t, below(t, WAYS_TO_BREAK_A_STATE)))
        tally(t, STATES);
    if (once_in(t, 8))
        try_random_state(t);
    try_lent_lengths(t);
    tally(t, LENGTHS);
}

const check answered = {
    "answered",
    "An answer comes back from every call, for all bytes, states and lent memory; a call that "
    "can't be granted gets the one refusal number that document 01 gives it, with state, cells and "
    "tags as before.",
    "document 01's session and edges, register and party 8 as every operand, calls to bytes and "
    "back, starts, broken states and wrong lengths of lent memory",
    "likely calls, any calls and commands from random bytes, all of them once more in runs; then a "
    "broken state and wrong lengths",
    "an answer is not the document's; a refused call changes a byte; bytes used are not the "
    "command's; 1, 2 or 3 comes without its reason or does not come; a run of commands differs",
    {"calls", "refused ones", "places in random bytes", "broken states", "wrong lengths", "runs"},
    begin,
    watch,
    in_fixed_order,
    in_random_order,
};
