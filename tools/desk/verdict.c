#include "verdict.h"

#include <inttypes.h>
#include <stdarg.h>
#include <stdio.h>

#define LISTED 8 /* lines that a sentence names */

/* The expected answers held against those that came. */
typedef struct compared {
    size_t stated; /* of which there is a command */
    size_t differ;
    size_t unreached;         /* behind an early end */
    const expectation *first; /* that differs */
} compared;

/* A line on standard error that begins with the file's name. */
#ifdef __GNUC__
__attribute__((format(printf, 2, 3)))
#endif
static void
tell(const session *of, const char *format, ...)
{
    va_list values;
    fprintf(stderr, "desk: %s: ", of->file->name);
    va_start(values, format);
    vfprintf(stderr, format, values);
    va_end(values);
    fputc('\n', stderr);
}

/* ---- Expected answers ---- */

/* The last step that begins in a line; the count of steps if none does. `from` is one of those that
 * do not begin before the line. */
static size_t step_in_line(const session *of, size_t line, size_t from)
{
    size_t found = of->count;
    for (size_t which = from; which < of->count && first_line(of, which) <= line; which++)
        if (first_line(of, which) == line)
            found = which;
    return found;
}

static bool is_as_expected(const session *of, size_t which, const expectation *wanted)
{
    const cetomuhi_answer *const it = &of->steps[which].answer;
    return it->code == wanted->numbers[0] && it->number == wanted->numbers[1] &&
           it->tag == wanted->numbers[2];
}

/* Whether a line lies behind the last step, which ended the session early. */
static bool is_behind(const session *of, size_t line)
{
    return line > last_line(of, of->count - 1);
}

static compared compare(const session *of, bool early)
{
    compared found = {0, 0, 0, NULL};
    size_t from = 0;
    for (size_t at = 0; at < of->file->expected_count; at++) {
        const expectation *const wanted = &of->file->expected[at];
        while (from < of->count && first_line(of, from) < wanted->line)
            from++;
        const size_t which = step_in_line(of, wanted->line, from);
        if (early && is_behind(of, wanted->line)) {
            found.unreached++;
            continue;
        }
        found.stated += which < of->count;
        if (which < of->count && is_as_expected(of, which, wanted))
            continue;
        found.differ++;
        if (found.first == NULL)
            found.first = wanted;
    }
    return found;
}

/* Makes the steps anew up to this one, and says it in words. */
static void replay(text *to, session *of, size_t which)
{
    const size_t count = of->count;
    rewind_session(of, of->file);
    for (size_t made = 0; made <= which; made++)
        next_step(of);
    add_step(to, of);
    while (of->count < count)
        next_step(of);
}

static void tell_difference(session *of, const expectation *wanted)
{
    text words = {"", 0};
    const uint64_t *const numbers = wanted->numbers;
    const size_t which = step_in_line(of, wanted->line, 0);
    add(&words, "line %zu: expected %" PRIu64 " %" PRIu64 " %" PRIu64 ", ", wanted->line,
        numbers[0], numbers[1], numbers[2]);
    if (which == of->count) {
        tell(of, "%sbut no command begins there", words.bytes);
        return;
    }
    const cetomuhi_answer it = of->steps[which].answer;
    add(&words, "answered %" PRIu64 " %" PRIu64 " %" PRIu64 ": ", it.code, it.number, it.tag);
    replay(&words, of, which);
    tell(of, "%s", words.bytes);
}

/* ---- Commands that run on, and an early end ---- */

/* The first step that goes on into another line, if each before it has a line of its own: else the
 * file does not have a command a line. The count of steps if there is none. */
static size_t running_on(const session *of)
{
    for (size_t which = 0; which < of->count; which++) {
        if (last_line(of, which) > first_line(of, which))
            return which;
        if (which + 1 < of->count && last_line(of, which + 1) == first_line(of, which))
            return of->count;
    }
    return of->count;
}

static bool tell_running_on(const session *of)
{
    const size_t which = running_on(of);
    text name = {"", 0};
    if (which == of->count)
        return false;
    if (which == 0)
        add(&name, "the start");
    else
        add(&name, "command %02X", of->file->bytes[of->steps[which].at]);
    tell(of, "line %zu: %s runs on into line %zu", first_line(of, which), name.bytes,
         last_line(of, which));
    return true;
}

/* Whether the file itself says that the session ends with its last line. */
static bool end_is_expected(const session *of)
{
    const session_file *const file = of->file;
    const size_t last = of->count - 1;
    if (file->all > INPUT || file->length == 0 ||
        first_line(of, last) < file->lines[file->length - 1])
        return false;
    for (size_t at = 0; at < file->expected_count; at++)
        if (file->expected[at].line == first_line(of, last))
            return is_as_expected(of, last, &file->expected[at]);
    return false;
}

static bool ends_early(const session *of)
{
    return of->file->all > INPUT || (has_ended(of) && !end_is_expected(of));
}

static void tell_early_end(session *of)
{
    const session_file *const file = of->file;
    const size_t last = of->count - 1;
    text words = {"", 0};
    if (file->all > INPUT)
        tell(of,
             "%zu bytes, of which a session looks at the first 32,768: the rest, from line %zu on, "
             "is not run",
             file->all, file->cut);
    if (!has_ended(of))
        return;
    if (file->length == 0) {
        tell(of, "the session ends at its start: there is no byte");
        return;
    }
    replay(&words, of, last);
    tell(of, "line %zu: the session ends early: %s; %zu of %zu bytes are left",
         first_line(of, last), words.bytes, file->all - of->steps[last].at, file->all);
}

/* ---- The sentence ---- */

/* The lines of refused steps of which the file states nothing. */
static void add_refused(text *to, const session *of)
{
    size_t found = 0;
    size_t at = 0;
    for (size_t which = 0; which < of->count; which++) {
        const size_t line = first_line(of, which);
        while (at < of->file->expected_count && of->file->expected[at].line < line)
            at++;
        const bool stated = at < of->file->expected_count && of->file->expected[at].line == line &&
                            step_in_line(of, line, which) == which;
        if (stated || of->steps[which].answer.code == CETOMUHI_GRANTED)
            continue;
        if (found++ < LISTED)
            add(to, "%s %zu (%" PRIu64 ")", found == 1 ? "; refused and not stated: line" : ",",
                line, of->steps[which].answer.code);
    }
    if (found > LISTED)
        add(to, " and %zu more", found - LISTED);
}

static void tell_sentence(const session *of, const compared *found)
{
    text words = {"", 0};
    const char *const plural = of->count == 1 ? "" : "s";
    if (found->differ > 0)
        add(&words, "%zu of %zu expected answers did not come; the first is that of line %zu",
            found->differ, of->file->expected_count, found->first->line);
    else if (found->stated == 0)
        add(&words, "%zu answer%s; the file states none that it expects", of->count, plural);
    else if (found->stated == of->count)
        add(&words, "%zu answer%s, each as the file expects", of->count, plural);
    else
        add(&words, "%zu answer%s, of which the file states %zu, each as it came", of->count,
            plural, found->stated);
    add_refused(&words, of);
    if (found->unreached > 0)
        add(&words, "; %zu expected answers were not reached", found->unreached);
    tell(of, "%s", words.bytes);
}

int tell_verdict(session *of)
{
    const bool early = ends_early(of);
    const compared found = compare(of, early);
    const bool runs_on = tell_running_on(of);
    if (found.first != NULL)
        tell_difference(of, found.first);
    if (early)
        tell_early_end(of);
    tell_sentence(of, &found);
    if (found.differ > 0 || runs_on)
        return STATUS_DIFFERS;
    return early ? STATUS_ENDED_EARLY : STATUS_GOOD;
}
