/* Texts of a bounded length, and lines that are folded at blanks to fit the width. */
#ifndef TEXT_H
#define TEXT_H

#include <stdbool.h>
#include <stddef.h>

#define TEXT_ROOM 600    /* more than the longest call with its cause takes */
#define NARROWEST 40     /* columns of a line, at least */
#define UNFOLDED 1000000 /* of a line that is as long as its words */

typedef struct text {
    char bytes[TEXT_ROOM];
    size_t length;
} text;

/* Adds what printf would print; what does not fit is left out. */
#ifdef __GNUC__
__attribute__((format(printf, 2, 3)))
#endif
void add(text *to, const char *format, ...);

/* Prints words that begin in column `column`; further lines begin in column `margin`. */
void put_folded(const char *words, size_t column, size_t margin, size_t width);

/* A row of a table: its word in the first row alone, what the row is about, what is said of it. A
 * narrow line has one below the other. */
void put_row(const char **word, const text *thing, const text *said, size_t width);

/* The columns for a line: COLUMNS, else those of the terminal that standard output is, and at least
 * NARROWEST; `otherwise` if they are not known. What is not 1 to 9999 counts as not known. */
size_t line_width(size_t otherwise);

#endif
