/* Calls as document 01 and its requests write them: their bytes, and what can be said of an answer
 * without a look at the state. Nothing here asks the library. */
#ifndef CALLS_H
#define CALLS_H

#include "cetomuhi.h"

enum { KINDS = 22 }; /* 0 is none */

/* The call's bytes, first in `out`: their length. */
size_t bytes_of(const cetomuhi_call *call, uint8_t out[CETOMUHI_COMMAND_BYTES]);

/* The call that stands at a place of the input: its length, or 0 if no whole one does. */
size_t call_at(const uint8_t *input, size_t length, size_t at, cetomuhi_call *call);

/* How many operands a kind has, the party included, and how many bytes one of them is. */
size_t operand_count(uint64_t kind);
size_t operand_bytes(uint64_t kind, size_t operand);

/* Whether the operand names a party or a register, which refusal 4 judges. */
bool is_judged_by_4(uint64_t kind, size_t operand);

/* Refusal 4 or 5, which no state decides, or 0. */
uint64_t early_refusal(const cetomuhi_call *call);

/* Whether a command can be answered by this code. */
bool can_answer(uint64_t kind, uint64_t code);

/* Whether the document names a number, or a tag, for a granted call of the kind. */
bool names_number(uint64_t kind);
bool names_tag(uint64_t kind);

/* Whether a granted call of the kind writes lent memory. */
bool writes_memory(uint64_t kind);

/* "take 1 0 2": its word and operands. What was written there. */
int write_call(char *out, size_t room, const cetomuhi_call *call);

#endif
