#define _DEFAULT_SOURCE /* ioctl's TIOCGWINSZ */
#include "text.h"

#include <stdarg.h>
#include <stdio.h>
#include <stdlib.h>
#include <string.h>
#include <sys/ioctl.h>
#include <unistd.h>

#define MARGIN 4   /* columns before a table */
#define WORD 14    /* for a table's word */
#define THING 20   /* for what a row is about */
#define SAID 24    /* for what is said of it, at least */
#define INDENTED 2 /* one level of a narrow table */
#define WIDEST 9999

void add(text *to, const char *format, ...)
{
    va_list values;
    const size_t room = sizeof to->bytes - to->length;
    va_start(values, format);
    const int wanted = vsnprintf(to->bytes + to->length, room, format, values);
    va_end(values);
    if (wanted > 0)
        to->length += (size_t)wanted < room ? (size_t)wanted : room - 1;
}

/* How many of the bytes stand on one line of so many columns; a word that is longer than that is
 * cut. */
static size_t line_length(const char *words, size_t room)
{
    const size_t length = strlen(words);
    size_t end = room;
    if (length <= room)
        return length;
    while (end > 0 && words[end] != ' ')
        end--;
    return end > 0 ? end : room;
}

void put_folded(const char *words, size_t column, size_t margin, size_t width)
{
    for (;;) {
        const size_t used = line_length(words, width > column ? width - column : 1);
        printf("%.*s\n", (int)used, words);
        words += used;
        words += strspn(words, " ");
        if (*words == '\0')
            return;
        printf("%*s", (int)margin, "");
        column = margin;
    }
}

static void put_narrow_row(const char *word, const text *thing, const text *said, size_t width)
{
    if (*word != '\0')
        printf("%*s%s\n", MARGIN, "", word);
    printf("%*s%s\n", MARGIN + INDENTED, "", thing->bytes);
    printf("%*s", MARGIN + 2 * INDENTED, "");
    put_folded(said->bytes, MARGIN + 2 * INDENTED, MARGIN + 2 * INDENTED, width);
}

void put_row(const char **word, const text *thing, const text *said, size_t width)
{
    const size_t margin = MARGIN + WORD + THING;
    const bool overlong = thing->length >= THING;
    const size_t column = overlong ? MARGIN + WORD + thing->length + 1 : margin;
    const char *const first = *word;
    *word = "";
    if (width < margin + SAID) {
        put_narrow_row(first, thing, said, width);
        return;
    }
    printf("%*s%-*s%-*s", MARGIN, "", WORD, first, (int)(column - MARGIN - WORD), thing->bytes);
    put_folded(said->bytes, column, margin, width);
}

static size_t known_width(const char *digits)
{
    char *end = NULL;
    const bool begins = digits != NULL && digits[0] >= '1' && digits[0] <= '9';
    const unsigned long width = begins ? strtoul(digits, &end, 10) : 0;
    return begins && *end == '\0' && width <= WIDEST ? width : 0;
}

static size_t terminal_width(void)
{
    struct winsize size;
    memset(&size, 0, sizeof size);
    const bool known = isatty(STDOUT_FILENO) && ioctl(STDOUT_FILENO, TIOCGWINSZ, &size) == 0;
    return known && size.ws_col <= WIDEST ? size.ws_col : 0;
}

size_t line_width(size_t otherwise)
{
    size_t width = known_width(getenv("COLUMNS"));
    if (width == 0)
        width = terminal_width();
    if (width == 0)
        return otherwise;
    return width < NARROWEST ? NARROWEST : width;
}
