#include "session.h"

#include <inttypes.h>

#include "calls.h"
#include "causes.h"
#include "words.h"

void rewind_session(session *of, const session_file *file)
{
    of->file = file;
    of->count = 0;
}

/* ---- Steps ---- */

/* The bytes of the command at a place: all that are left if they end within it, one if it is none.
 */
static size_t command_length(const session_file *file, size_t at)
{
    const size_t wanted = bytes_of(file->bytes[at]);
    return wanted < file->length - at ? wanted : file->length - at;
}

static unsigned start_number(const session_file *file, size_t first, size_t end)
{
    unsigned number = 0;
    for (size_t at = first; at < end && file->length >= START; at++)
        number = number << 8 | file->bytes[at];
    return number;
}

static unsigned v_of(const session_file *file)
{
    return start_number(file, 0, 2);
}

static unsigned f_of(const session_file *file)
{
    return start_number(file, 2, 3);
}

/* A start by the first bytes; V 0, which is refused, if they are cut short. */
static void make_start(session *of)
{
    const session_file *const file = of->file;
    const uint8_t code = cetomuhi_machine_start(&of->after, v_of(file), f_of(file));
    const size_t length = file->length < START ? file->length : START;
    const step it = {0, length, {code, 0, 0, length}};
    memset(&of->before, 0, sizeof of->before);
    of->steps[of->count++] = it;
}

bool has_ended(const session *of)
{
    const uint64_t code = of->steps[of->count - 1].answer.code;
    return code != CETOMUHI_GRANTED && code <= CETOMUHI_REFUSED_NO_COMMAND;
}

bool next_step(session *of)
{
    const session_file *const file = of->file;
    if (of->count == 0) {
        make_start(of);
        return true;
    }
    const step last = of->steps[of->count - 1];
    step it = {last.at + last.length, 0, {0, 0, 0, 0}};
    if (has_ended(of) || it.at >= file->length || of->count >= STEPS)
        return false;
    of->before = of->after;
    it.answer = cetomuhi_machine_command(&of->after, file->bytes, file->length, it.at);
    it.length = it.answer.used > 0 ? (size_t)it.answer.used : command_length(file, it.at);
    of->steps[of->count++] = it;
    return true;
}

size_t first_line(const session *of, size_t which)
{
    const step *const it = &of->steps[which];
    return it->length == 0 ? 0 : of->file->lines[it->at];
}

size_t last_line(const session *of, size_t which)
{
    const step *const it = &of->steps[which];
    return it->length == 0 ? 0 : of->file->lines[it->at + it->length - 1];
}

/* ---- In words ---- */

static void add_start(text *to, const session *of)
{
    if (of->file->length < START) {
        add(to, "refused: start, cut short");
        return;
    }
    add(to, "start with V %u and F %u", v_of(of->file), f_of(of->file));
    if (has_ended(of)) {
        add(to, "; refused: ");
        add_start_cause(to, v_of(of->file), f_of(of->file));
    }
}

static void add_no_command(text *to, const session *of, const step *it)
{
    const unsigned byte = of->file->bytes[it->at];
    if (*operands_of(byte) == '\0')
        add(to, "refused: %02X is no command", byte);
    else
        add(to, "refused: the input ends within command %02X", byte);
}

/* The word that a load found, and why its tag is not there any more. */
static void add_loaded(text *to, const session *of, const cetomuhi_call *call, cetomuhi_word answer)
{
    const cetomuhi_state *const state = &of->before.state;
    const cetomuhi_word a = cetomuhi_register_at(state, operand(call, "P"), operand(call, "a"));
    const cetomuhi_capability through = cetomuhi_capability_of(a.cell);
    cetomuhi_word found = {0, 0};
    add(to, ": ");
    add_word(to, answer, state);
    if (answer.tag != 0 || !shown_word(&of->before, through.base + operand(call, "off"), &found) ||
        found.tag == 0)
        return;
    add(to, ", without its tag: ");
    if (through.permissions & CETOMUHI_MAY_LOAD_CAPABILITY)
        add(to, "it is dying");
    else
        add(to, "register %" PRIu64 " loads no capabilities", operand(call, "a"));
}

/* What a granted call's answer says. */
static void add_granted(text *to, const session *of, const cetomuhi_call *call, const step *it)
{
    const cetomuhi_state *const state = &of->before.state;
    const cetomuhi_word answer = {it->answer.number, (uint8_t)it->answer.tag};
    const char *const plural = it->answer.number == 1 ? "" : "s";
    switch (call->numbers[0]) {
    case CETOMUHI_TAKE:
    case CETOMUHI_TAKE_MASKED:
        add(to, ": %" PRIu64 " cell%s", it->answer.number, plural);
        return;
    case CETOMUHI_SWEEP:
        add(to, ": %" PRIu64 " cell%s left", it->answer.number, plural);
        return;
    case CETOMUHI_LOAD:
        add_loaded(to, of, call, answer);
        return;
    case CETOMUHI_STORE:
        if (is_dying(cetomuhi_register_at(state, operand(call, "P"), operand(call, "s")), state))
            add(to, ", without its tag: it is dying");
        return;
    case CETOMUHI_RECEIVE:
        add(to, ": ");
        add_word(to, answer, state);
        return;
    default:
        return;
    }
}

void add_step(text *to, const session *of)
{
    const step *const it = &of->steps[of->count - 1];
    cetomuhi_call call = {{0}};
    if (of->count == 1) {
        add_start(to, of);
        return;
    }
    if (cetomuhi_call_read(&call, of->file->bytes, of->file->length, it->at) == 0) {
        add_no_command(to, of, it);
        return;
    }
    add_call(to, &call);
    if (it->answer.code == CETOMUHI_GRANTED) {
        add_granted(to, of, &call, it);
        return;
    }
    add(to, "; refused: ");
    add_cause(to, &of->before, &call, it->answer.code);
}
