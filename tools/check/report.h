/* What is printed, folded to 80 columns, on standard output and in the record alike. */
#ifndef REPORT_H
#define REPORT_H

#include <stdio.h>

#include "check.h"

/* A number with a comma before each three digits. */
void grouped(char *out, size_t room, uint64_t number);

/* The words in lines of at most 80 columns. The first begins with `head`; the others with as many
 * blanks as `column` says, and so does the first if the head is shorter. */
void fold(FILE *out, const char *head, int column, const char *words);

/* A check's number and name, its sentence, what is tried and what would be a failure. */
void report_check(FILE *out, size_t number, const check *which, const settings *how);

/* Its line that begins with PASS or FAIL. */
void report_result(FILE *out, const check *which, const result *came);

/* More words behind a result's sentence. */
void add_words(result *came, const char *format, ...) __attribute__((format(printf, 2, 3)));

/* In which order it came about, and how to see it again. */
void add_order(result *came, const progress *doing);
void add_again(result *came, const check *which, const settings *how, const progress *doing);

#endif
