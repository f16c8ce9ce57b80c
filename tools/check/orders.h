/* Random calls that are likely to be granted, by what the machine's state shows. */
#ifndef ORDERS_H
#define ORDERS_H

#include "calls.h"
#include "trial.h"

/* How often each kind comes. */
typedef uint8_t weights[KINDS];

/* A call of one of the kinds. Now and then an operand is any number. */
cetomuhi_call likely_call(trial *t, const weights often);

/* So many of them. */
void make_likely(trial *t, const weights often, uint64_t count);

/* A machine of v pages and f frames, f of its pages Mapped. Each page is a reservation, and the
 * Mapped ones are given to the first parties in turn, which take them with all permissions. */
void settle(trial *t, uint64_t v, uint64_t f, uint64_t parties);

/* A reservation of whole pages, which are unmapped if they are Mapped, is revoked. False if none
 * was. */
bool begin_revocation(trial *t);

/* What is left is swept, and the revocation collected. */
void end_revocation(trial *t);

#endif
