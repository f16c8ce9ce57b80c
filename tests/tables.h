/* Tables of reservations, and the questions about them with the answers that they must get. */
#ifndef TABLES_H
#define TABLES_H

#include "expect.h"

enum { ROOM = CETOMUHI_ROWS + 2 };

/* What stands where an answer goes, which no question would write by chance. */
static const uint16_t stood = 0xA5A5;
static const uint64_t stood_wide = UINT64_C(0xA5A5A5A5A5A5A5A5);

/* Records, with room for one too many. */
struct table {
    uint64_t rows[CETOMUHI_ROWS + 1];
    size_t length;
};

static uint64_t record(uint64_t base, uint64_t length, uint64_t state) {
    const uint64_t taker = state == CETOMUHI_OPEN ? CETOMUHI_TAKER_NONE : 2;
    return base | length << 16 | state << 32 | UINT64_C(1) << 40 | taker << 48;
}

static void add(struct table *t, uint64_t base, uint64_t length, uint64_t state) {
    t->rows[t->length++] = record(base, length, state);
}

/* Seven records, of every state and of one that is none; they end at 100. */
static struct table seven(void) {
    struct table t = {{0}, 0};
    add(&t, 0, 16, CETOMUHI_OPEN);
    add(&t, 16, 8, CETOMUHI_TAKEN);
    add(&t, 24, 8, CETOMUHI_OPEN);
    add(&t, 32, 32, CETOMUHI_REVOKING);
    add(&t, 64, 4, CETOMUHI_OPEN);
    add(&t, 68, 1, 3);
    add(&t, 69, 31, CETOMUHI_OPEN);
    return t;
}

/* `count` records of `cells` cells each, all of them in one state. */
static struct table equal(size_t count, uint64_t cells, uint64_t state) {
    struct table t = {{0}, 0};
    while (t.length < count)
        add(&t, t.length * cells, cells, state);
    return t;
}

/* One or two records. */
static struct table pair(uint64_t one, uint64_t another) {
    const struct table t = {{one, another}, another == 0 ? 1 : 2};
    return t;
}

/* A machine whose state is the table and 0 otherwise, not well formed. With 65 records the last one
 * stands where the state's rows have ended. */
static const cetomuhi_machine *machine_of(const struct table *t) {
    static cetomuhi_machine m;
    memset(&m, 0, sizeof m);
    memcpy(m.state.rows, t->rows, sizeof m.state.rows);
    m.state.principals[0] = t->rows[CETOMUHI_ROWS];
    m.state.numbers[2] = (uint16_t)t->length;
    return &m;
}

/* ---- Lists ---- */

/* A question whose answer is a list, in the three ways to ask it. */
struct question {
    uint8_t (*of_records)(const uint64_t *, size_t, uint64_t, uint64_t, uint16_t *, size_t,
                          uint64_t *);
    cetomuhi_listed (*of_state)(const cetomuhi_state *, uint64_t, uint64_t);
    cetomuhi_listed (*of_machine)(const cetomuhi_machine *, uint64_t, uint64_t);
};

static const struct question sharing = {cetomuhi_sharing, cetomuhi_state_sharing,
                                        cetomuhi_machine_sharing};
static const struct question within = {cetomuhi_within, cetomuhi_state_within,
                                       cetomuhi_machine_within};

/* A list from a lent slice of some length: code and count are those given, the bases come first,
 * and every other number of the slice and all records are kept. */
static void lent(const struct question *q, const struct table *t, uint64_t first, uint64_t cells,
                 size_t room, uint8_t code, const uint16_t *bases, size_t count) {
    const struct table before = *t;
    uint16_t slice[ROOM];
    uint16_t expected[ROOM];
    uint64_t counted = stood_wide;
    for (size_t i = 0; i < ROOM; i++) {
        slice[i] = stood;
        expected[i] = i < count ? bases[i] : stood;
    }
    CHECK(q->of_records(t->rows, t->length, first, cells, slice, room, &counted) == code);
    CHECK(counted == (code == 0 ? count : stood_wide));
    CHECK(memcmp(slice, expected, sizeof slice) == 0);
    CHECK(memcmp(t, &before, sizeof before) == 0);
}

/* A list as a state or a machine gives it. */
static void listed(cetomuhi_listed answer, uint8_t code, const uint16_t *bases, size_t count) {
    CHECK(answer.code == code && answer.count == count);
    for (size_t i = 0; i < CETOMUHI_ROWS; i++)
        CHECK(answer.bases[i] == (i < count ? bases[i] : 0));
}

/* A list in the three ways, and from a slice that is just long enough or longer. */
static void ask(const struct question *q, const struct table *t, uint64_t first, uint64_t cells,
                uint8_t code, const uint16_t *bases, size_t count) {
    const cetomuhi_machine *m = machine_of(t);
    const cetomuhi_machine before = *m;
    for (size_t room = CETOMUHI_ROWS; room <= ROOM; room++)
        lent(q, t, first, cells, room, code, bases, count);
    listed(q->of_state(&m->state, first, cells), code, bases, count);
    listed(q->of_machine(m, first, cells), code, bases, count);
    CHECK(memcmp(m, &before, sizeof before) == 0);
}

/* A list whose bases are given as text, such as "0 16". */
static void list(const struct question *q, const struct table *t, uint64_t first, uint64_t cells,
                 const char *text) {
    uint16_t bases[CETOMUHI_ROWS] = {0};
    size_t count = 0;
    while (*text != 0) {
        char *rest = NULL;
        bases[count++] = (uint16_t)strtoul(text, &rest, 10);
        text = rest;
    }
    ask(q, t, first, cells, CETOMUHI_GRANTED, bases, count);
}

static void no_list(const struct question *q, const struct table *t, uint64_t first,
                    uint64_t cells) {
    ask(q, t, first, cells, CETOMUHI_REFUSED_WRONG_RANGE, NULL, 0);
}

static void no_lists(const struct table *t, uint64_t first, uint64_t cells) {
    no_list(&sharing, t, first, cells);
    no_list(&within, t, first, cells);
}

/* ---- The nearest ---- */

/* The nearest as a state or a machine gives it. */
static void nearest_is(cetomuhi_nearest_open answer, uint8_t code, uint64_t found, uint64_t base) {
    CHECK(answer.code == code && answer.found == found && answer.base == base);
}

/* Asked in the three ways. Both numbers are written, or none of them. */
static void nearest(const struct table *t, uint64_t cell, uint64_t cells, uint8_t code,
                    uint64_t found, uint64_t base) {
    const struct table before = *t;
    const cetomuhi_machine *m = machine_of(t);
    const bool granted = code == CETOMUHI_GRANTED;
    uint64_t written[] = {stood_wide, stood_wide};
    CHECK(cetomuhi_nearest(t->rows, t->length, cell, cells, &written[0], &written[1]) == code);
    CHECK(written[0] == (granted ? found : stood_wide));
    CHECK(written[1] == (granted ? base : stood_wide));
    CHECK(memcmp(t, &before, sizeof before) == 0);
    nearest_is(cetomuhi_state_nearest(&m->state, cell, cells), code, found, base);
    nearest_is(cetomuhi_machine_nearest(m, cell, cells), code, found, base);
}

static void found(const struct table *t, uint64_t cell, uint64_t cells, uint64_t base) {
    nearest(t, cell, cells, CETOMUHI_GRANTED, 1, base);
}

static void none(const struct table *t, uint64_t cell, uint64_t cells) {
    nearest(t, cell, cells, CETOMUHI_GRANTED, 0, 0);
}

static void no_nearest(const struct table *t, uint64_t cell, uint64_t cells) {
    nearest(t, cell, cells, CETOMUHI_REFUSED_WRONG_RANGE, 0, 0);
}

#endif
