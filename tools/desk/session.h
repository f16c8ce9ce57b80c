/* A session over the library, step by step: the start, then a command a step. */
#ifndef SESSION_H
#define SESSION_H

#include "cetomuhi.h"
#include "session_file.h"

#define START 3                         /* the bytes of V and F */
#define STEPS (2 + (INPUT - START) / 2) /* the start, commands of two bytes at least, and an end   \
                                         */

typedef struct step {
    size_t at;     /* where it begins in the bytes */
    size_t length; /* of it; less than it wants where the bytes end within it */
    cetomuhi_answer answer;
} step;

typedef struct session {
    const session_file *file;
    cetomuhi_machine before; /* the last step */
    cetomuhi_machine after;
    step steps[STEPS];
    size_t count;
} session;

/* Sets a session to before its start. */
void rewind_session(session *of, const session_file *file);

/* Makes the next step; false if there is none: the bytes are at their end, or a refusal 1 to 3
 * came. */
bool next_step(session *of);

/* Whether a refusal 1 to 3 has ended it. */
bool has_ended(const session *of);

/* The line in which a step begins, and the one in which it ends; 0 if it has no bytes. */
size_t first_line(const session *of, size_t which);
size_t last_line(const session *of, size_t which);

/* The last step in words: the call, what its answer says, or why it was refused. */
void add_step(text *to, const session *of);

#endif
