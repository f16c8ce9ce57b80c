/* Why a call was refused, found in the state before it. */
#ifndef CAUSES_H
#define CAUSES_H

#include "calls.h"

/* Adds which of a refusal's causes it was. Where the state shows none, which no right machine leads
 * to, the words say so. */
void add_cause(text *to, const cetomuhi_machine *before, const cetomuhi_call *call, uint64_t code);

/* The same for a refused start. */
void add_start_cause(text *to, unsigned v, unsigned f);

#endif
