#include "session_file.h"

#include <ctype.h>
#include <errno.h>
#include <stdio.h>
#include <stdlib.h>
#include <string.h>

#define COMMENT 120 /* of a comment, what an expected answer may take */

/* Where the reader stands in a line. */
typedef struct reader {
    session_file *file;
    text *fault;
    size_t line;
    size_t digits; /* in the line so far */
    unsigned high; /* the first digit of a byte whose second is to come */
    bool in_comment;
    char comment[COMMENT + 1];
    size_t comment_length;
} reader;

static bool fail(reader *at, const char *words)
{
    add(at->fault, "line %zu: %s", at->line, words);
    return false;
}

static void take_byte(reader *at, uint8_t byte)
{
    session_file *const file = at->file;
    if (file->length < INPUT) {
        file->bytes[file->length] = byte;
        file->lines[file->length++] = at->line;
    } else if (file->cut == 0) {
        file->cut = at->line;
    }
    file->all++;
}

static bool take_digit(reader *at, int digit)
{
    const unsigned value =
        digit <= '9' ? (unsigned)(digit - '0') : (unsigned)(toupper(digit) - 'A' + 10);
    if (at->digits++ % 2 == 0)
        at->high = value;
    else
        take_byte(at, (uint8_t)(at->high << 4 | value));
    return true;
}

static bool no_digit(reader *at, int byte)
{
    text words = {"", 0};
    if (isprint(byte))
        add(&words, "'%c' is no hexadecimal digit", byte);
    else
        add(&words, "byte %02X is no hexadecimal digit", (unsigned)byte);
    return fail(at, words.bytes);
}

/* Room for one more is made in steps of a power of two. */
static bool expects(reader *at, const uint64_t numbers[3])
{
    session_file *const file = at->file;
    const size_t count = file->expected_count;
    const expectation it = {at->line, {numbers[0], numbers[1], numbers[2]}};
    if ((count & (count - 1)) == 0) {
        const size_t room = count == 0 ? 1 : 2 * count;
        expectation *const more = realloc(file->expected, room * sizeof it);
        if (more == NULL)
            return fail(at, "no memory for another expected answer");
        file->expected = more;
    }
    file->expected[file->expected_count++] = it;
    return true;
}

/* A decimal number and blanks around it. */
static bool take_number(char **next, uint64_t *number)
{
    *next += strspn(*next, " \t");
    if (!isdigit((unsigned char)**next))
        return false;
    errno = 0;
    *number = strtoull(*next, next, 10);
    return errno == 0 && strchr(" \t", **next) != NULL;
}

/* The comment of a line, at its end: an expected answer, or words. A number that ends with the room
 * may be half of one. */
static bool take_comment(reader *at)
{
    uint64_t it[3];
    at->comment[at->comment_length] = '\0';
    char *next = at->comment + strspn(at->comment, " \t");
    if (strncmp(next, "->", 2) != 0)
        return true;
    next += 2;
    if (!take_number(&next, &it[0]) || !take_number(&next, &it[1]) || !take_number(&next, &it[2]) ||
        next == at->comment + COMMENT)
        return fail(at, "behind '# ->' stand three numbers: code, number and tag");
    return expects(at, it);
}

static bool end_line(reader *at)
{
    text words = {"", 0};
    add(&words, "%zu digits, an odd count", at->digits);
    if (at->digits % 2 != 0)
        return fail(at, words.bytes);
    if (at->in_comment && !take_comment(at))
        return false;
    at->line++;
    at->digits = 0;
    at->in_comment = false;
    at->comment_length = 0;
    return true;
}

static bool take(reader *at, int byte)
{
    if (byte == '\n')
        return end_line(at);
    if (at->in_comment) {
        if (at->comment_length < COMMENT)
            at->comment[at->comment_length++] = (char)byte;
        return true;
    }
    if (byte == '#') {
        at->in_comment = true;
        return true;
    }
    if (byte == ' ' || (byte >= '\t' && byte <= '\r'))
        return true;
    return isxdigit(byte) ? take_digit(at, byte) : no_digit(at, byte);
}

/* The mark that editors put before Unicode text: that of UTF-8 is passed over. */
static bool pass_mark(reader *at, FILE *from, int *byte)
{
    static const int utf8[] = {0xEF, 0xBB, 0xBF};
    const int first = *byte;
    if (first == utf8[0]) {
        for (size_t which = 0; which < 3; which++, *byte = getc(from))
            if (*byte != utf8[which])
                return no_digit(at, first);
        return true;
    }
    if (first == 0xFF || first == 0xFE) {
        *byte = getc(from);
        if (first + *byte == 0xFF + 0xFE)
            return fail(at, "the file is UTF-16 text; it must be ASCII or UTF-8");
        return no_digit(at, first);
    }
    return true;
}

/* A line ends with LF, CR or both. */
static bool take_all(reader *at, FILE *from)
{
    int byte = getc(from);
    bool good = pass_mark(at, from, &byte);
    while (good && byte != EOF) {
        const int next = getc(from);
        if (byte != '\r')
            good = take(at, byte);
        else if (next != '\n')
            good = take(at, '\n');
        byte = next;
    }
    return good && (ferror(from) || end_line(at));
}

bool read_session(session_file *file, const char *path, text *fault)
{
    const bool standard = strcmp(path, "-") == 0;
    reader at = {.file = file, .fault = fault, .line = 1};
    FILE *const from = standard ? stdin : fopen(path, "rb");
    memset(file, 0, sizeof *file);
    file->name = standard ? "standard input" : path;
    if (from == NULL) {
        add(fault, "%s", strerror(errno));
        return false;
    }
    const bool good = take_all(&at, from);
    if (good && ferror(from))
        add(fault, "%s", strerror(errno));
    const bool read = good && !ferror(from);
    if (!standard)
        fclose(from);
    return read;
}
