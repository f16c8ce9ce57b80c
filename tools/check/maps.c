/* Check 9: the questions about a table, against a walk over its cells one by one. */
#include <inttypes.h>

#include "orders.h"
#include "seen.h"

enum { LISTED, FOUND, NONE, BROKEN, OF_STATES };

enum { MOST = 4096, ROOM = CETOMUHI_ROWS + 2 };

static const uint16_t stood = 0xA5A5; /* where nothing is written */
static const uint64_t stood_wide = UINT64_C(0xA5A5A5A5A5A5A5A5);

/* Records that may be no table, and the number of the record that each cell lies in. */
typedef struct table {
    uint64_t rows[CETOMUHI_ROWS + 1];
    size_t count;
    uint64_t end;
    uint8_t around[MOST];
} table;

typedef uint8_t question(const uint64_t *rows, size_t rows_len, uint64_t first, uint64_t cells,
                         uint16_t *bases, size_t bases_len, uint64_t *count);

static cetomuhi_reservation record_of(const table *of, size_t i)
{
    const uint64_t row = of->rows[i];
    return (cetomuhi_reservation){(uint16_t)row, (uint16_t)(row >> 16), (uint8_t)(row >> 32), 0, 0};
}

static void add(table *to, uint64_t length, uint64_t state, uint64_t rest)
{
    for (uint64_t i = 0; i < length; i++)
        to->around[to->end + i] = (uint8_t)to->count;
    to->rows[to->count++] = to->end | length << 16 | state << 32 | rest << 40;
    to->end += length;
}

/* ---- The walk ---- */

/* Whether a record is to be listed: one of its cells is in the range, or all are. */
static bool is_listed(const table *of, size_t record, uint64_t first, uint64_t cells, bool all)
{
    uint64_t in = 0;
    for (uint64_t cell = first; cell < first + cells; cell++)
        in += of->around[cell] == record;
    return all ? in == record_of(of, record).length : in > 0;
}

/* The base of the nearest Open record of enough cells; MOST if there is none. */
static uint64_t nearest_base(const table *of, uint64_t cell, uint64_t cells)
{
    uint64_t best = UINT64_MAX;
    uint64_t base = MOST;
    for (uint64_t at = 0; at < of->end; at++) {
        const cetomuhi_reservation it = record_of(of, of->around[at]);
        const uint64_t distance = at > cell ? at - cell : cell - at;
        if (it.state != CETOMUHI_OPEN || it.length < cells || (base != MOST && distance >= best))
            continue;
        best = distance;
        base = it.base;
    }
    return base;
}

/* ---- Questions ---- */

static void refuse_list(trial *t, question *asked, const table *of, uint64_t first, uint64_t cells,
                        size_t room)
{
    uint16_t bases[ROOM];
    uint64_t count = stood_wide;
    for (size_t i = 0; i < ROOM; i++)
        bases[i] = stood;
    const uint8_t code = asked(of->rows, of->count, first, cells, bases, room, &count);
    if (code != CETOMUHI_REFUSED_WRONG_RANGE)
        fail(t,
             "a list of cells %" PRIu64 " and %" PRIu64 " on from %zu records that are no "
             "table, or past their end, or with room %zu, is answered with %u and not 25",
             first, cells, of->count, room, code);
    for (size_t i = 0; i < ROOM; i++)
        if (bases[i] != stood || count != stood_wide)
            fail(t, "a list that is refused under 25 wrote something");
    tally(t, BROKEN);
}

static void ask_list(trial *t, question *asked, const table *of, uint64_t first, uint64_t cells)
{
    const bool all = asked == cetomuhi_within;
    uint16_t bases[ROOM];
    uint64_t count = stood_wide;
    size_t listed = 0;
    for (size_t i = 0; i < ROOM; i++)
        bases[i] = stood;
    const uint8_t code = asked(of->rows, of->count, first, cells, bases, ROOM, &count);
    if (code != 0)
        fail(t, "a list of %" PRIu64 " cells from %" PRIu64 " on is refused (%u)", cells, first,
             code);
    for (size_t i = 0; i < of->count; i++)
        if (is_listed(of, i, first, cells, all) && bases[listed++] != record_of(of, i).base)
            fail(t,
                 "%s %" PRIu64 " cells from %" PRIu64 " on: the record of base %u is not listed "
                 "in its place",
                 all ? "within" : "sharing", cells, first, record_of(of, i).base);
    if (count != listed)
        fail(t, "%s %" PRIu64 " cells from %" PRIu64 " on: %" PRIu64 " are listed and not %zu",
             all ? "within" : "sharing", cells, first, count, listed);
    for (size_t i = listed; i < ROOM; i++)
        if (bases[i] != stood)
            fail(t, "a list wrote more than the bases that it names");
    tally(t, LISTED);
}

static void ask_nearest(trial *t, const table *of, uint64_t cell, uint64_t cells)
{
    const uint64_t base = nearest_base(of, cell, cells);
    uint64_t got[2] = {stood_wide, stood_wide};
    const uint8_t code = cetomuhi_nearest(of->rows, of->count, cell, cells, &got[0], &got[1]);
    const bool is_there = base != MOST;
    if (code != 0 || got[0] != is_there || got[1] != (is_there ? base : 0))
        fail(t,
             "nearest to %" PRIu64 " of %" PRIu64 " cells: %u %" PRIu64 " %" PRIu64
             " and not 0 %d %" PRIu64,
             cell, cells, code, got[0], got[1], is_there, is_there ? base : 0);
    tally(t, is_there ? FOUND : NONE);
}

static void refuse_nearest(trial *t, const table *of, uint64_t cell, uint64_t cells)
{
    uint64_t got[2] = {stood_wide, stood_wide};
    const uint8_t code = cetomuhi_nearest(of->rows, of->count, cell, cells, &got[0], &got[1]);
    if (code != CETOMUHI_REFUSED_WRONG_RANGE || got[0] != stood_wide || got[1] != stood_wide)
        fail(t,
             "nearest, of records that are no table or of 0 cells, is answered with %u and not "
             "25, or wrote something",
             code);
    tally(t, BROKEN);
}

/* All three of records that are no table. */
static void refuse_all(trial *t, const table *of)
{
    refuse_list(t, cetomuhi_sharing, of, 0, 1, ROOM);
    refuse_list(t, cetomuhi_within, of, 0, 1, ROOM);
    refuse_nearest(t, of, below(t, MOST), 1);
}

/* Lists that a table refuses: no cells, past its end, or too little room. */
static void refuse_ranges(trial *t, const table *of)
{
    question *const asked = once_in(t, 2) ? cetomuhi_sharing : cetomuhi_within;
    const uint64_t first = below(t, of->end);
    refuse_list(t, asked, of, first, 0, ROOM);
    refuse_list(t, asked, of, first, of->end - first + 1, ROOM);
    refuse_list(t, asked, of, of->end, 1, ROOM);
    refuse_list(t, asked, of, UINT64_MAX, 2, ROOM); /* whose end is 1 if it is cut to 64 bits */
    refuse_list(t, asked, of, first, UINT64_MAX, ROOM);
    refuse_list(t, asked, of, 0, 1, CETOMUHI_ROWS - 1);
    refuse_nearest(t, of, first, 0);
}

static void ask_all(trial *t, const table *of)
{
    for (int i = 0; i < 3; i++) {
        const uint64_t first = below(t, of->end);
        const uint64_t cells = 1 + below(t, of->end - first);
        ask_list(t, cetomuhi_sharing, of, first, cells);
        ask_list(t, cetomuhi_within, of, first, cells);
        const uint64_t cell = once_in(t, 4) ? t->chance : below(t, of->end + 20);
        ask_nearest(t, of, cell, 1 + below(t, once_in(t, 6) ? MOST : 1 + of->end / of->count));
    }
    ask_list(t, cetomuhi_within, of, 0, of->end);
    refuse_ranges(t, of);
}

/* ---- Tables ---- */

/* Worked out by hand for the records of five_records: lists, and what is nearest. */
typedef struct listing {
    question *asked;
    uint64_t first, cells, count;
    uint16_t bases[5];
} listing;

static const listing lists[] = {
    {cetomuhi_sharing, 9, 2, 2, {0, 10}},
    {cetomuhi_sharing, 10, 1, 1, {10}},
    {cetomuhi_sharing, 29, 7, 3, {10, 30, 35}},
    {cetomuhi_sharing, 99, 1, 1, {55}},
    {cetomuhi_sharing, 0, 100, 5, {0, 10, 30, 35, 55}},
    {cetomuhi_within, 9, 27, 2, {10, 30}},
    {cetomuhi_within, 0, 10, 1, {0}},
    {cetomuhi_within, 1, 9, 0, {0}},
    {cetomuhi_within, 30, 25, 2, {30, 35}},
    {cetomuhi_within, 10, 19, 0, {0}},
    {cetomuhi_within, 0, 100, 5, {0, 10, 30, 35, 55}},
};

/* Cell, cells, whether one is found, its base. */
static const uint64_t nearests[][4] = {
    {5, 1, 1, 0},  {19, 1, 1, 0},   {20, 1, 1, 30}, {44, 1, 1, 30},      {45, 1, 1, 55},
    {32, 6, 1, 0}, {33, 6, 1, 55},  {31, 6, 1, 0},  {0, 11, 1, 55},      {0, 45, 1, 55},
    {0, 46, 0, 0}, {99, 10, 1, 55}, {34, 5, 1, 30}, {1000000, 1, 1, 55}, {UINT64_MAX, 9, 1, 55},
};

/* 0 to 9 Open, 10 to 29 Taken, 30 to 34 Open, 35 to 54 Revoking, 55 to 99 Open. */
static void five_records(table *to)
{
    memset(to, 0, sizeof *to);
    add(to, 10, CETOMUHI_OPEN, 0);
    add(to, 20, CETOMUHI_TAKEN, 0);
    add(to, 5, CETOMUHI_OPEN, 0);
    add(to, 20, CETOMUHI_REVOKING, 0);
    add(to, 45, CETOMUHI_OPEN, 0);
}

static void ask_five(trial *t, const table *of)
{
    for (size_t i = 0; i < sizeof lists / sizeof lists[0]; i++) {
        const listing *it = &lists[i];
        uint16_t bases[CETOMUHI_ROWS] = {0};
        uint64_t count = 0;
        if (it->asked(of->rows, of->count, it->first, it->cells, bases, CETOMUHI_ROWS, &count) !=
                0 ||
            count != it->count || memcmp(bases, it->bases, sizeof it->bases) != 0)
            fail(t, "five records: the list of %" PRIu64 " cells from %" PRIu64 " on is wrong",
                 it->cells, it->first);
    }
    for (size_t i = 0; i < sizeof nearests / sizeof nearests[0]; i++) {
        const uint64_t *it = nearests[i];
        uint64_t found = 2;
        uint64_t base = 2;
        if (cetomuhi_nearest(of->rows, of->count, it[0], it[1], &found, &base) != 0 ||
            found != it[2] || base != it[3])
            fail(t, "five records: nearest to %" PRIu64 " of %" PRIu64 " cells is wrong", it[0],
                 it[1]);
    }
}

/* A table with one thing wrong about it. */
static void break_table(trial *t, table *it, uint64_t how)
{
    const size_t some = below(t, it->count);
    switch (how) {
    case 0:
        it->count = 0;
        break;
    case 1:
        it->rows[some] &= ~(UINT64_C(0xFFFF) << 16); /* length 0 */
        break;
    case 2:
        it->rows[some] += 1; /* begins a cell too high */
        break;
    case 3:
        it->rows[it->count - 1] += (uint64_t)(MOST + 1 - it->end) << 16; /* ends at 4,097 */
        break;
    case 4:
        it->rows[0] += UINT64_C(1) << 16; /* overlaps the next one, or is too long */
        if (it->count == 1)
            it->rows[0] |= UINT64_C(0x8000) << 16;
        break;
    default:
        while (it->count <= CETOMUHI_ROWS) { /* 65 records that tile */
            it->rows[it->count] = it->end | UINT64_C(1) << 16;
            it->count++;
            it->end++;
        }
    }
}

enum { WAYS_TO_BREAK = 6 };

static void random_table(trial *t, table *to)
{
    const uint64_t most = once_in(t, 3) ? MOST / CETOMUHI_ROWS : 12;
    const size_t count = once_in(t, 6) ? CETOMUHI_ROWS : 1 + below(t, CETOMUHI_ROWS);
    memset(to, 0, sizeof *to);
    while (to->count < count) {
        const uint64_t length = 1 + below(t, most);
        const uint64_t state = once_in(t, 3) ? 0 : below(t, once_in(t, 4) ? 256 : 3);
        add(to, length, state, below(t, 1 << 16));
    }
}

/* The table of a machine that has split, taken and revoked. */
static void table_of_state(trial *t, table *to)
{
    static const weights often = {[CETOMUHI_SPLIT] = 8,
                                  [CETOMUHI_TAKE] = 4,
                                  [CETOMUHI_REVOKE] = 2,
                                  [CETOMUHI_GIVE] = 2,
                                  [CETOMUHI_MERGE] = 1};
    start(t, 1 + below(t, 8), 1);
    make_likely(t, often, 16);
    memset(to, 0, sizeof *to);
    for (size_t i = 0; i < cetomuhi_row_count(&t->machine.state); i++) {
        const cetomuhi_reservation row = cetomuhi_reservation_at(&t->machine.state, i);
        add(to, row.length, row.state, 0);
        to->rows[i] = t->machine.state.rows[i];
    }
}

static void in_fixed_order(trial *t)
{
    static table it;
    five_records(&it);
    ask_five(t, &it);
    refuse_ranges(t, &it);
    for (uint64_t how = 0; how < WAYS_TO_BREAK; how++) {
        five_records(&it);
        break_table(t, &it, how);
        refuse_all(t, &it);
    }
}

static void in_random_order(trial *t)
{
    static table it;
    random_table(t, &it);
    ask_all(t, &it);
    break_table(t, &it, below(t, WAYS_TO_BREAK));
    refuse_all(t, &it);
    table_of_state(t, &it);
    ask_all(t, &it);
    const uint64_t first = below(t, it.end);
    const cetomuhi_listed listed = cetomuhi_machine_sharing(&t->machine, first, 1);
    if (listed.code != 0 || listed.count != 1 ||
        listed.bases[0] != record_of(&it, it.around[first]).base)
        fail(t, "a machine does not list the reservation of its cell %" PRIu64, first);
    tally(t, OF_STATES);
}

const check maps = {
    "maps",
    "Which reservations lie here (2026-07): those sharing cells with a range, those within it, and "
    "the Open one nearest to a cell, for the operators' maps.",
    "lists and nearest ones of five records, worked out by hand; records that are no table, ranges "
    "without a cell or past the end, and too little room",
    "tables of 1 to 64 records and of machines, and broken ones",
    "an answer is not that of a walk over the cells one by one; records that are no table, or a "
    "range that does not fit, are not refused under 25; something else is written",
    {"lists", "nearest ones found", "searches with none to find", "questions refused under 25",
     "tables of machines"},
    NULL,
    NULL,
    in_fixed_order,
    in_random_order,
};
