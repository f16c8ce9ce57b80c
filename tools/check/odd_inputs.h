/* What a caller may hand over though no machine would: the rest of check 11. */
#ifndef ODD_INPUTS_H
#define ODD_INPUTS_H

#include "trial.h"

enum { WAYS_TO_BREAK_A_STATE = 24 };

/* The machine's state, which is well formed, broken in one way, and a command: refusal 1. False if
 * the way does not fit the state. The state is put back. */
bool try_broken_state(trial *t, size_t way);

/* All of a state's bytes are random ones. It is put back. */
void try_random_state(trial *t);

/* Cells and tags of wrong lengths: refusal 2. */
void try_lent_lengths(trial *t);

/* A call's bytes by the library's writer and reader, and the bounds of both. */
void try_reader_and_writer(trial *t, const cetomuhi_call *call);

/* V and F out of range: refusal 1 and the all-zero state. */
void try_starts(trial *t);

#endif
