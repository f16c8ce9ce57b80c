/* The words of the command line. */
#ifndef OPTIONS_H
#define OPTIONS_H

#include "check.h"

/* The exit statuses. */
enum { ALL_PASS = 0, SOME_FAIL = 1, BAD_USE = 2, OUTPUT_LOST = 3 };

typedef struct options {
    settings how;
    bool chosen[CHECKS]; /* by --only; all if none was named */
    size_t chosen_count;
    const char *protocol; /* NULL: none is written */
    bool list;
    bool help;
} options;

/* False, and a line on standard error, if a word is wrong. */
bool read_options(options *wanted, int argc, char **argv);

void print_help(void);
void print_list(void);

/* A line on standard error. */
void complain(const char *format, ...) __attribute__((format(printf, 1, 2)));

#endif
