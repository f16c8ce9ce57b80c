/* Calls about capabilities that a running revocation is to end. */
#ifndef DYING_H
#define DYING_H

#include "seen.h"

/* The lent cell that a granted load or store, the last call, addressed. */
uint64_t addressed_cell(trial *t, const cetomuhi_call *call);

/* A party that has a dying capability and a way to store it does so. False if there is none. */
bool store_dying(trial *t, const revocation *runs);

/* A party that reaches a cell with a dying capability loads it into register d. */
bool load_dying(trial *t, const revocation *runs, uint64_t d);

#endif
