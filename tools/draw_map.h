/* The machine's state as a map. */
#ifndef DRAW_MAP_H
#define DRAW_MAP_H

#include <stdbool.h>

#include "cetomuhi.h"

/* Draws the state in lines of `width` columns at most (40 if it is less), the first time below a
 * legend; or says 'as before' if the drawing would be the last one again. Below the state's tables
 * an empty line comes first, and an all-zero state is left to them. */
void draw_map(const cetomuhi_state *state, size_t width, bool below_tables);

#endif
