/* A machine under trial. Calls are made on it one at a time; what must hold after each of them,
 * whichever the check, is tested in one place. A failure ends the process with its sentence. */
#ifndef TRIAL_H
#define TRIAL_H

#include "check.h"

enum { LAST_CALLS = 6, CELLS = CETOMUHI_PAGE_CELLS };

struct trial {
    cetomuhi_machine machine;
    cetomuhi_machine before; /* as the last call found it */
    const check *which;
    const settings *how;
    int descriptor;  /* the result goes there */
    progress *doing; /* the order, and how many calls were made in it */
    uint64_t chance; /* where the random numbers stand */
    cetomuhi_call calls[LAST_CALLS];
    cetomuhi_answer answers[LAST_CALLS];
    uint64_t tallies[TALLIES];
};

/* ---- Calls ---- */

/* A fresh machine over zeroed memory. */
void start(trial *t, uint64_t v, uint64_t f);

cetomuhi_answer make(trial *t, cetomuhi_call call);

/* The command that stands at a place of the input. If no whole one does, refusal 3 is due. */
cetomuhi_answer make_at(trial *t, const uint8_t *input, size_t length, size_t at);

/* A call without which the check says nothing: if it is refused, the check is untested. */
cetomuhi_answer set_up(trial *t, cetomuhi_call call);

/* A call that is the point, and its code. */
void expect(trial *t, cetomuhi_call call, uint64_t code);

/* The same, granted, with number and tag. */
void expect_answer(trial *t, cetomuhi_call call, uint64_t number, uint64_t tag);

/* The last call was granted, and is of this kind. */
bool was_granted(const cetomuhi_call *call, cetomuhi_answer answer, uint64_t kind);
bool was_take(const cetomuhi_call *call, cetomuhi_answer answer);

/* After memory or state were written by hand: the next call finds them so. */
void keep(trial *t);

/* ---- What came of it ---- */

_Noreturn void fail(trial *t, const char *format, ...) __attribute__((format(printf, 2, 3)));
_Noreturn void untested(trial *t, const char *format, ...) __attribute__((format(printf, 2, 3)));

/* One more of what stands at this place of the check's tallies. Those of the fixed order are not
 * counted. */
void tally(trial *t, size_t which);

/* ---- Random numbers ---- */

/* 0 to n - 1; 0 if n is 0. One call has at most one of these among its arguments, whose order is
 * the compiler's: a seed means the same orders wherever the program is built. */
uint64_t below(trial *t, uint64_t n);
bool once_in(trial *t, uint64_t n);

#endif
