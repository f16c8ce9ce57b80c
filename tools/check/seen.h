/* What a check sees of a machine without asking the library. */
#ifndef SEEN_H
#define SEEN_H

#include "trial.h"

typedef struct range {
    uint64_t base;
    uint64_t length; /* 0: no cells */
} range;

static inline bool is_in(range cells, uint64_t cell)
{
    return cell >= cells.base && cell - cells.base < cells.length;
}

/* Whether a capability begins in the range, which is what a revocation looks at. */
static inline bool begins_in(range cells, uint64_t word)
{
    return is_in(cells, word & 0xFFFF);
}

/* The number of a capability. */
static inline uint64_t capability(uint64_t base, uint64_t length, uint64_t permissions)
{
    return base | length << 16 | permissions << 32;
}

/* Whether V and F are as they were at the start, the rows tile the V pages, and what pages show are
 * frames: what the checks rely on when they look at a state. */
bool is_readable(const cetomuhi_state *state, const cetomuhi_state *before);

/* How many cells its lent memory has. */
static inline size_t lent_cells(const cetomuhi_state *state)
{
    const size_t cells = CELLS * cetomuhi_frame_count(state);
    return cells < CETOMUHI_MEMORY_CELLS ? cells : CETOMUHI_MEMORY_CELLS;
}

/* The row that begins at a cell, or none of length 0. */
cetomuhi_reservation row_at(const cetomuhi_state *state, uint64_t base);

/* Where in lent memory a virtual cell is shown, or -1. */
long lent_place(const cetomuhi_state *state, uint64_t cell);

/* Whether a word is one that is looked for. */
typedef bool wanted(range cells, uint64_t word);

bool reaches_into(range cells, uint64_t word);

/* A tagged word that is wanted, in a register but number `except`, a mailbox or a cell of a Mapped
 * page: true, and `where` says where it is. */
bool find_tagged(const cetomuhi_machine *machine, range cells, wanted *is_wanted, size_t except,
                 char *where, size_t room);

enum { NO_REGISTER = CETOMUHI_WORDS };

/* The revocation by the calls that were granted. When it is over, `cells` is still its range. */
typedef struct revocation {
    bool runs;
    range cells;
    uint64_t left; /* cells of lent memory that no sweep has passed */
} revocation;

void follow(revocation *it, const trial *t, const cetomuhi_call *call, cetomuhi_answer answer);

static inline bool is_dying(const revocation *it, uint64_t word)
{
    return it->runs && begins_in(it->cells, word);
}

#endif
