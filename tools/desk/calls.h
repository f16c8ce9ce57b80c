/* Calls and answers in words. */
#ifndef CALLS_H
#define CALLS_H

#include "cetomuhi.h"
#include "text.h"

/* The operands of a command in their order, as the documents have them: "P base/2 reg". Empty if
 * the byte is no command. */
const char *operands_of(uint64_t command);

/* How many bytes a command has; 1 if the byte is none. */
size_t bytes_of(uint64_t command);

/* An operand of a call by its name; 0 if it has none of that name. */
uint64_t operand(const cetomuhi_call *call, const char *name);

/* The name of an operand and the place behind it and its blanks; NULL behind the last. */
const char *next_operand(const char *layout, char name[16]);

/* The call in words: "party 3 takes the reservation at cell 0 into register 0". */
void add_call(text *to, const cetomuhi_call *call);

/* Words with an operand's number for each {name}. */
void add_filled(text *to, const char *words, const cetomuhi_call *call);

#endif
