/* Runs a session file over the library and prints its lines; help() says how. */
#define _POSIX_C_SOURCE 200809L
#include <errno.h>
#include <fcntl.h>
#include <stdio.h>
#include <string.h>
#include <unistd.h>

#include "show.h"
#include "verdict.h"

#define MAP_WIDTH 80 /* of a map where the columns are not known */

/* The words of the command line. */
typedef struct wanted {
    const char *file;
    bool help;
    bool bytes;
    manner how;
} wanted;

static const char help_text[] =
    "desk FILE.hex [--explain] [--state | --state=changes | --state=end] [--map]\n"
    "\n"
    "Runs a session of the reservation machine and prints a line `code number tag` for the\n"
    "start and each command. Code 0 means granted; another is the number of the refusal.\n"
    "\n"
    "FILE.hex has V (two bytes), F (one byte), then commands, in hexadecimal digits with\n"
    "blanks and comments from # to the line's end; - is standard input. A comment\n"
    "`# -> code number tag` says which answer the line's command must get: it is compared,\n"
    "and the first that differs is told with its line. The session ends with the file, or\n"
    "after a refusal 1 to 3. No byte after the first 32,768 is looked at. Its lines go to\n"
    "standard output, what it came to in a sentence to standard error.\n"
    "\n"
    "--explain        beside each line its call in words, what the answer says and, if it\n"
    "                 is refused, why\n"
    "--state          after each line the machine's state, or 'as before' if neither it nor\n"
    "                 lent memory changed: reservations and who took them, a running\n"
    "                 revocation, pages, frames, registers and mailboxes in use, principals\n"
    "                 and claims (unless principal 0 is the only one and has none), cells of\n"
    "                 Mapped frames that are not 0 or are tagged, and what a sweep or a\n"
    "                 collect cleared. A capability is shown by its cells and permissions;\n"
    "                 it is dying if its base is being revoked. Of a Revoking reservation\n"
    "                 the state does not tell whether party 0 had taken it or it was Open\n"
    "--state=changes  after each line what of it changed\n"
    "--state=end      the state once, after the last line\n"
    "--map            after each line a map, or 'as before' if it would be the same again:\n"
    "                 where reservations begin, each cell's state with the holder or the\n"
    "                 taker, pages, frames, and the place of a sweep that runs; a legend\n"
    "                 stands above the first. A character is 1, 2, 4, 8, ... cells, so that\n"
    "                 the map fits. With --state the map stands below the tables, with\n"
    "                 --state=end both come once\n"
    "--bytes          writes the file's bytes and does nothing else\n"
    "--help           this text\n"
    "\n"
    "Lines are folded to COLUMNS, if it is 1 to 9999, else to the terminal's width, but not\n"
    "below 40. Where neither is known, they are not folded, and a map takes 80.\n"
    "\n"
    "Exit status: 0, the session ran to the file's end and each answer that the file states\n"
    "came; 1, one did not, or a command runs on into the next line of a file that had a\n"
    "command a line; 2, bad use, or a file that can't be read; 3, output was lost; 4, the\n"
    "session ended early; 5, something that is needed is missing or does not fit.\n";

static int fail(int status, const char *words)
{
    fprintf(stderr, "desk: %s\n", words);
    return status;
}

static bool is(const char *word, const char *other)
{
    return strcmp(word, other) == 0;
}

/* Whether a word is an option, which is then set. */
static bool is_option(wanted *to, const char *word)
{
    if (is(word, "--explain"))
        to->how.explain = true;
    else if (is(word, "--map"))
        to->how.map = true;
    else if (is(word, "--bytes"))
        to->bytes = true;
    else if (is(word, "--help") || is(word, "-h"))
        to->help = true;
    else if (is(word, "--state") || is(word, "--state=changes") || is(word, "--state=end"))
        to->how.tables = true;
    else
        return false;
    to->how.changes = to->how.changes || is(word, "--state=changes");
    to->how.each = to->how.each && !is(word, "--state=end");
    return true;
}

/* Sets what is wanted; else says what is wrong with the words. */
static bool read_words(wanted *to, int argc, char **argv, text *fault)
{
    to->how.each = true;
    for (int at = 1; at < argc; at++) {
        const char *const word = argv[at];
        if (is_option(to, word))
            continue;
        if (word[0] == '-' && word[1] != '\0') {
            add(fault, "%s: no such option; --help says which there are", word);
            return false;
        }
        if (to->file != NULL) {
            add(fault, "%s and %s: one file at a time", to->file, word);
            return false;
        }
        to->file = word;
    }
    if (to->file == NULL && !to->help)
        add(fault, "no file is named; --help says how");
    else if (to->how.changes && !to->how.each)
        add(fault, "--state=changes and --state=end: one of them");
    return fault->length == 0;
}

/* Whether all that was printed is where it was to go. */
static int flushed(int status)
{
    text words = {"", 0};
    errno = 0;
    if (fflush(stdout) == 0 && !ferror(stdout))
        return status;
    add(&words, "standard output could not be written%s%s", errno == 0 ? "" : ": ",
        errno == 0 ? "" : strerror(errno));
    return fail(STATUS_OUTPUT_LOST, words.bytes);
}

/* A closed descriptor is filled, so that no file that is opened takes its place. Standard output is
 * filled with what cannot be written. */
static bool fill_closed(void)
{
    for (int which = STDIN_FILENO; which <= STDERR_FILENO; which++)
        if (fcntl(which, F_GETFD) == -1 &&
            open("/dev/null", which == STDOUT_FILENO ? O_RDONLY : O_RDWR) != which)
            return false;
    return true;
}

static int run(const session_file *file, const manner *how)
{
    static session it;
    rewind_session(&it, file);
    while (next_step(&it))
        continue;
    show_session(&it, how);
    if (flushed(STATUS_GOOD) != STATUS_GOOD)
        return STATUS_OUTPUT_LOST;
    return tell_verdict(&it);
}

int main(int argc, char **argv)
{
    static session_file file;
    wanted words = {.file = NULL};
    text fault = {"", 0};
    if (!fill_closed())
        return STATUS_OUTPUT_LOST;
    if (!read_words(&words, argc, argv, &fault))
        return fail(STATUS_BAD_USE, fault.bytes);
    if (words.help) {
        fputs(help_text, stdout);
        return flushed(STATUS_GOOD);
    }
    if (!cetomuhi_matches())
        return fail(STATUS_NOT_BUILT, "the library is not the one that cetomuhi.h describes");
    if (!read_session(&file, words.file, &fault)) {
        fprintf(stderr, "desk: %s: %s\n", file.name, fault.bytes);
        return STATUS_BAD_USE;
    }
    if (words.bytes) {
        fwrite(file.bytes, 1, file.length, stdout);
        return flushed(STATUS_GOOD);
    }
    words.how.width = line_width(UNFOLDED);
    words.how.map_width = line_width(MAP_WIDTH);
    return run(&file, &words.how);
}
