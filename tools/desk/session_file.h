/* A session file: hexadecimal digits, blanks, and comments from # to the line's end. A comment that
 * begins with -> says which answer its line expects: code, number and tag. */
#ifndef SESSION_FILE_H
#define SESSION_FILE_H

#include <stdint.h>

#include "text.h"

#define INPUT 32768 /* the bytes that a session looks at */

typedef struct expectation {
    size_t line;
    uint64_t numbers[3]; /* code, number, tag */
} expectation;

typedef struct session_file {
    const char *name;
    uint8_t bytes[INPUT];
    size_t lines[INPUT]; /* the line that each byte stands in, from 1 on */
    size_t length;       /* of the bytes that are looked at */
    size_t all;          /* bytes in the file */
    size_t cut;          /* the line of the first byte that is not looked at */
    expectation *expected;
    size_t expected_count;
} session_file;

/* Reads the file that a path names, or standard input for -. If that fails, `fault` says why. */
bool read_session(session_file *file, const char *path, text *fault);

#endif
