/* A refused call with the state before it. */
#ifndef REFUSED_H
#define REFUSED_H

#include "calls.h"

typedef struct refused {
    const cetomuhi_state *state;
    const cetomuhi_call *call;
} refused;

#endif
