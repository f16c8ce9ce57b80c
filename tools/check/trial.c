#define _POSIX_C_SOURCE 200809L
#include "trial.h"

#include <inttypes.h>
#include <stdarg.h>
#include <stdio.h>
#include <unistd.h>

#include "calls.h"
#include "report.h"
#include "seen.h"

/* ---- What came of it ---- */

void end_with(const result *came, int descriptor)
{
    const char *from = (const char *)came;
    size_t left = sizeof *came;
    while (left > 0) {
        const ssize_t written = write(descriptor, from, left);
        if (written <= 0)
            _exit(1);
        from += written;
        left -= (size_t)written;
    }
    _exit(0);
}

/* Which order it was, its last calls, and how to see it again. */
static void add_place(result *came, const trial *t)
{
    char words[200];
    const uint64_t made = t->doing->made;
    const uint64_t shown = made < LAST_CALLS ? made : LAST_CALLS;
    add_order(came, t->doing);
    add_words(came, ", after %" PRIu64 " calls on V %u, F %u", made, t->before.state.numbers[0],
              t->before.state.numbers[1]);
    if (shown > 0)
        add_words(came, "; the last calls and answers:");
    for (uint64_t i = made - shown; i < made; i++) {
        const cetomuhi_answer *answer = &t->answers[i % LAST_CALLS];
        write_call(words, sizeof words, &t->calls[i % LAST_CALLS]);
        add_words(came, " %s -> %" PRIu64 " %" PRIu64 " %" PRIu64 "%s", words, answer->code,
                  answer->number, answer->tag, i + 1 < made ? "," : "");
    }
    add_again(came, t->which, t->how, t->doing);
}

static _Noreturn void end_failed(trial *t, const char *first, const char *format, va_list rest)
{
    static result came;
    char words[600];
    vsnprintf(words, sizeof words, format, rest);
    add_words(&came, "%s%s", first, words);
    add_place(&came, t);
    end_with(&came, t->descriptor);
}

void fail(trial *t, const char *format, ...)
{
    va_list rest;
    va_start(rest, format);
    end_failed(t, "", format, rest);
}

void untested(trial *t, const char *format, ...)
{
    va_list rest;
    va_start(rest, format);
    end_failed(t, "untested: ", format, rest);
}

void tally(trial *t, size_t which)
{
    t->tallies[which] += t->doing->order > 0;
}

/* ---- What must hold after every call ---- */

void keep(trial *t)
{
    const size_t cells = lent_cells(&t->before.state);
    t->before.state = t->machine.state;
    memcpy(t->before.cells, t->machine.cells, cells * sizeof t->before.cells[0]);
    memcpy(t->before.tags, t->machine.tags, cells);
}

/* What a call changed of the lent memory, or NULL. */
static const char *changed_memory(const trial *t)
{
    const size_t cells = lent_cells(&t->before.state);
    if (memcmp(t->machine.cells, t->before.cells, cells * sizeof t->before.cells[0]) != 0)
        return "lent cells";
    return memcmp(t->machine.tags, t->before.tags, cells) != 0 ? "lent tags" : NULL;
}

/* What it changed at all, or NULL. */
static const char *changed(const trial *t)
{
    if (memcmp(&t->machine.state, &t->before.state, sizeof t->before.state) != 0)
        return "the state";
    return changed_memory(t);
}

static void test_refused(trial *t, const cetomuhi_call *call, cetomuhi_answer answer)
{
    const uint64_t code = answer.code;
    if (code >= CETOMUHI_REFUSED_ILL_FORMED && code <= CETOMUHI_REFUSED_NO_COMMAND)
        fail(t, "the library refuses its own state or a whole command (%" PRIu64 ": %s)", code,
             cetomuhi_refusal_words(code));
    if (!can_answer(call->numbers[0], code))
        fail(t, "code %" PRIu64 " is none that this call can get", code);
    if (answer.number != 0 || answer.tag != 0)
        fail(t, "a refused call is answered with a number or a tag");
    if (changed(t) != NULL)
        fail(t, "a refused call changed %s", changed(t));
}

static void test_granted(trial *t, uint64_t kind, cetomuhi_answer answer)
{
    if (answer.number != 0 && !names_number(kind))
        fail(t, "a number is answered where none is named");
    if (answer.tag > (names_tag(kind) ? 1u : 0u))
        fail(t, "a tag is answered where none is named");
    if (!writes_memory(kind) && changed_memory(t) != NULL)
        fail(t, "a call that writes no memory changed %s", changed_memory(t));
}

static void test_answer(trial *t, const cetomuhi_call *call, size_t length, cetomuhi_answer answer)
{
    const uint64_t early = early_refusal(call);
    if (answer.code != CETOMUHI_GRANTED)
        test_refused(t, call, answer);
    else
        test_granted(t, call->numbers[0], answer);
    if (early != 0 && answer.code != early)
        fail(t, "not refused under %" PRIu64 ": %s", early, cetomuhi_refusal_words(early));
    if (early == 0 && answer.code != 0 && answer.code <= CETOMUHI_REFUSED_NOT_MANAGER)
        fail(t, "refused under %" PRIu64 " without a reason", answer.code);
    if (answer.used != length)
        fail(t, "%" PRIu64 " bytes are said to be used of %zu", answer.used, length);
    if (!cetomuhi_machine_well_formed(&t->machine))
        fail(t, "the state is not well formed after the call");
    if (!is_readable(&t->machine.state, &t->before.state))
        fail(t, "the reservations do not tile the cells, or a page shows no frame");
}

/* Memory past the last frame is not lent. */
static void test_rest(trial *t)
{
    for (size_t at = lent_cells(&t->before.state); at < CETOMUHI_MEMORY_CELLS; at++)
        if (t->machine.cells[at] != 0 || t->machine.tags[at] != 0)
            fail(t, "memory that was not lent is written");
}

/* ---- Calls ---- */

void start(trial *t, uint64_t v, uint64_t f)
{
    test_rest(t);
    t->doing->made = 0;
    t->doing->call = (cetomuhi_call){{0}};
    const uint8_t code = cetomuhi_machine_start(&t->machine, v, f);
    if (code != CETOMUHI_GRANTED)
        untested(t, "a start with V %" PRIu64 ", F %" PRIu64 " was refused (%u)", v, f, code);
    t->before = t->machine;
    if (!cetomuhi_machine_well_formed(&t->machine) || cetomuhi_page_count(&t->machine.state) != v ||
        cetomuhi_frame_count(&t->machine.state) != f ||
        !is_readable(&t->machine.state, &t->machine.state))
        untested(t, "a fresh state is not well formed");
    if (t->which->begin != NULL)
        t->which->begin(t);
}

/* Where no command stands. */
static void test_no_command(trial *t, cetomuhi_answer answer)
{
    if (answer.code != CETOMUHI_REFUSED_NO_COMMAND || answer.number != 0 || answer.tag != 0 ||
        answer.used != 0)
        fail(t,
             "no whole command stands there, and the answer is %" PRIu64 " with %" PRIu64
             " bytes used and not 3 with 0",
             answer.code, answer.used);
    if (changed(t) != NULL)
        fail(t, "no whole command stands there, and %s changed", changed(t));
}

cetomuhi_answer make_at(trial *t, const uint8_t *input, size_t input_length, size_t at)
{
    cetomuhi_call call;
    const size_t length = call_at(input, input_length, at, &call);
    t->doing->call = call;
    const cetomuhi_answer answer = cetomuhi_machine_command(&t->machine, input, input_length, at);
    t->calls[t->doing->made % LAST_CALLS] = call;
    t->answers[t->doing->made % LAST_CALLS] = answer;
    t->doing->made++;
    if (length == 0) {
        test_no_command(t, answer);
        return answer;
    }
    test_answer(t, &call, length, answer);
    if (t->which->watch != NULL)
        t->which->watch(t, &call, answer);
    if (answer.code == CETOMUHI_GRANTED)
        keep(t);
    return answer;
}

cetomuhi_answer make(trial *t, cetomuhi_call call)
{
    uint8_t bytes[CETOMUHI_COMMAND_BYTES];
    return make_at(t, bytes, bytes_of(&call, bytes), 0);
}

cetomuhi_answer set_up(trial *t, cetomuhi_call call)
{
    char words[200];
    const cetomuhi_answer answer = make(t, call);
    write_call(words, sizeof words, &call);
    if (answer.code != CETOMUHI_GRANTED)
        untested(t, "%s was refused (%" PRIu64 ": %s)", words, answer.code,
                 cetomuhi_refusal_words(answer.code));
    return answer;
}

void expect(trial *t, cetomuhi_call call, uint64_t code)
{
    const uint64_t came = make(t, call).code;
    if (came != code)
        fail(t, "the answer is %" PRIu64 " (%s) and not %" PRIu64 " (%s)", came,
             cetomuhi_refusal_words(came), code, cetomuhi_refusal_words(code));
}

void expect_answer(trial *t, cetomuhi_call call, uint64_t number, uint64_t tag)
{
    const cetomuhi_answer came = make(t, call);
    if (came.code != CETOMUHI_GRANTED || came.number != number || came.tag != tag)
        fail(t, "the answer is not 0 %" PRIu64 " %" PRIu64, number, tag);
}

bool was_granted(const cetomuhi_call *call, cetomuhi_answer answer, uint64_t kind)
{
    return answer.code == CETOMUHI_GRANTED && call->numbers[0] == kind;
}

bool was_take(const cetomuhi_call *call, cetomuhi_answer answer)
{
    return was_granted(call, answer, CETOMUHI_TAKE) ||
           was_granted(call, answer, CETOMUHI_TAKE_MASKED);
}

/* ---- Random numbers ---- */

static uint64_t next(uint64_t from)
{
    const uint64_t to = from * UINT64_C(6364136223846793005) + UINT64_C(1442695040888963407);
    return to ^ to >> 32;
}

uint64_t below(trial *t, uint64_t n)
{
    t->chance = next(t->chance);
    return n == 0 ? 0 : (t->chance >> 16) % n;
}

bool once_in(trial *t, uint64_t n)
{
    return below(t, n) == 0;
}

/* ---- A check from end to end ---- */

/* The numbers of an order hang on the seed, the check's name and the order alone. */
static void begin_order(trial *t, uint64_t order)
{
    t->doing->order = order;
    t->doing->made = 0;
    t->chance = next(t->how->seed);
    for (const char *letter = t->which->name; *letter != 0; letter++)
        t->chance = next(t->chance + (unsigned char)*letter);
    t->chance = next(next(t->chance) + order);
}

static _Noreturn void end_passed(trial *t)
{
    static result came = {true, ""};
    char digits[32];
    const char *between = "";
    if (t->how->orders == 0) {
        add_words(&came, "in the fixed order; there was no random one");
        end_with(&came, t->descriptor);
    }
    for (size_t i = 0; i < TALLIES && t->which->tallies[i] != NULL; i++) {
        if (t->how->orders >= ENOUGH && t->tallies[i] == 0)
            untested(t, "in %" PRIu64 " random orders there were no %s", t->how->orders,
                     t->which->tallies[i]);
        grouped(digits, sizeof digits, t->tallies[i]);
        add_words(&came, "%s%s %s", between, digits, t->which->tallies[i]);
        between = ", ";
    }
    end_with(&came, t->descriptor);
}

void run_trial(const check *which, const settings *how, int descriptor, progress *doing)
{
    static trial t;
    t.doing = doing;
    t.which = which;
    t.how = how;
    t.descriptor = descriptor;
    begin_order(&t, 0);
    which->in_fixed_order(&t);
    test_rest(&t);
    for (uint64_t order = 1; order <= how->orders; order++) {
        begin_order(&t, order);
        which->in_random_order(&t);
        test_rest(&t);
    }
    end_passed(&t);
}
