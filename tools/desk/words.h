/* Words of a state in words: capabilities, reservations, ranges. */
#ifndef WORDS_H
#define WORDS_H

#include "cetomuhi.h"
#include "text.h"

/* "5", or "5 to 7". */
void add_range(text *to, size_t first, size_t last);

/* "page 5", or "pages 5 to 7". */
void add_named_range(text *to, const char *name, size_t first, size_t last);

/* "cells 16 to 31" for a base and a length; "no cell" for length 0. */
void add_cells(text *to, size_t base, size_t length);

/* "Open, held by party 0", "Taken by party 3", "Revoking, taken by several parties". */
void add_standing(text *to, cetomuhi_reservation it);

/* "Unmapped", "Freed", "Mapped to frame 3". */
void add_page_state(text *to, cetomuhi_page it);

/* Permissions in words: "load and store", "all permissions". */
void add_permissions(text *to, unsigned permissions);

/* A capability by its cells and permissions, with "; dying" if its base is being revoked. */
void add_capability(text *to, uint64_t cell, const cetomuhi_state *state);

/* A capability, or "number 42". */
void add_word(text *to, cetomuhi_word word, const cetomuhi_state *state);

/* Whether a word is a capability whose base lies in the range that is being revoked. */
bool is_dying(cetomuhi_word word, const cetomuhi_state *state);

/* The word of lent memory that a virtual cell shows; false if its page is not Mapped. */
bool shown_word(const cetomuhi_machine *machine, uint64_t cell, cetomuhi_word *word);

#endif
