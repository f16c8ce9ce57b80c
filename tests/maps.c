/* Tests of the questions about a table: which reservations share cells with a range, which lie
 * within it, which Open one is nearest to a cell; refusal 25, one cause at a time; and that nothing
 * but the answer is written. */
#include "tables.h"

enum { ENDING = 4096 };

/* ---- What is answered ---- */

static void test_sharing(void) {
    const struct table t = seven();
    list(&sharing, &t, 0, 1, "0");
    list(&sharing, &t, 15, 1, "0");
    list(&sharing, &t, 15, 2, "0 16");
    list(&sharing, &t, 16, 1, "16");
    list(&sharing, &t, 24, 8, "24");
    list(&sharing, &t, 23, 8, "16 24");
    list(&sharing, &t, 23, 10, "16 24 32");
    list(&sharing, &t, 40, 4, "32");
    list(&sharing, &t, 67, 3, "64 68 69");
    list(&sharing, &t, 99, 1, "69");
    list(&sharing, &t, 0, 100, "0 16 24 32 64 68 69");
}

static void test_within(void) {
    const struct table t = seven();
    list(&within, &t, 0, 16, "0");
    list(&within, &t, 1, 22, "");
    list(&within, &t, 1, 23, "16");
    list(&within, &t, 15, 10, "16");
    list(&within, &t, 16, 8, "16");
    list(&within, &t, 23, 42, "24 32");
    list(&within, &t, 23, 45, "24 32 64");
    list(&within, &t, 68, 1, "68");
    list(&within, &t, 69, 31, "69");
    list(&within, &t, 0, 100, "0 16 24 32 64 68 69");
    /* A range inside one reservation, all but its first or its last cell, and the last cell. */
    list(&within, &t, 40, 4, "");
    list(&within, &t, 33, 31, "");
    list(&within, &t, 32, 31, "");
    list(&within, &t, 99, 1, "");
}

/* 64 records of 64 cells end at 4,096, and a list may name them all. */
static void test_full_table(void) {
    const struct table t = equal(CETOMUHI_ROWS, 64, CETOMUHI_OPEN);
    uint16_t bases[CETOMUHI_ROWS];
    for (size_t i = 0; i < CETOMUHI_ROWS; i++)
        bases[i] = (uint16_t)(64 * i);
    ask(&sharing, &t, 0, ENDING, 0, bases, CETOMUHI_ROWS);
    ask(&sharing, &t, 63, ENDING - 126, 0, bases, CETOMUHI_ROWS);
    ask(&sharing, &t, 64, ENDING - 64, 0, bases + 1, CETOMUHI_ROWS - 1);
    ask(&within, &t, 0, ENDING, 0, bases, CETOMUHI_ROWS);
    ask(&within, &t, 1, ENDING - 1, 0, bases + 1, CETOMUHI_ROWS - 1);
    ask(&within, &t, 0, ENDING - 1, 0, bases, CETOMUHI_ROWS - 1);
    list(&sharing, &t, ENDING - 1, 1, "4032");
    list(&sharing, &t, 63, 2, "0 64");
    list(&within, &t, 63, 66, "64");
    list(&within, &t, ENDING - 1, 1, "");
    no_lists(&t, ENDING - 1, 2);
    no_lists(&t, ENDING, 1);
    found(&t, ENDING - 1, 64, 4032);
    found(&t, 1984, 64, 1984); /* the one below is 1 from there */
    found(&t, 2047, 64, 1984);
    none(&t, 2000, 65);
}

/* The smallest table, and one record of 4,096 cells. */
static void test_one_record(void) {
    const struct table small = equal(1, 1, CETOMUHI_OPEN);
    const struct table large = equal(1, ENDING, CETOMUHI_OPEN);
    list(&sharing, &small, 0, 1, "0");
    list(&within, &small, 0, 1, "0");
    no_lists(&small, 0, 2);
    found(&small, UINT64_MAX, 1, 0);
    none(&small, 0, 2);
    list(&sharing, &large, ENDING - 1, 1, "0");
    list(&within, &large, 0, ENDING, "0");
    list(&within, &large, 0, ENDING - 1, "");
    found(&large, 0, ENDING, 0);
    none(&large, 0, ENDING + 1);
}

/* Open are 0 to 15, 24 to 31, 64 to 67 and 69 to 99: 16, 8, 4 and 31 cells. */
static void test_nearest(void) {
    const struct table t = seven();
    found(&t, 0, 1, 0);
    found(&t, 27, 1, 24);
    found(&t, 67, 4, 64);
    found(&t, 19, 1, 0);  /* 4 from 15, 5 from 24 */
    found(&t, 20, 1, 24); /* 5 from 15, 4 from 24 */
    found(&t, 47, 1, 24); /* 16 from 31, 17 from 64 */
    found(&t, 48, 1, 64);
    /* As far from one as from the other: the lower base. */
    found(&t, 68, 1, 64); /* 1 from 67 and from 69 */
    found(&t, 50, 8, 24); /* 19 from 31 and from 69 */
    found(&t, 51, 8, 69);
    found(&t, 42, 9, 0); /* 27 from 15 and from 69 */
    found(&t, 43, 9, 69);
    /* Those of fewer cells are passed over, also where the cell lies in one. */
    found(&t, 65, 5, 69); /* 4 from 69, 34 from 31 */
    found(&t, 27, 16, 0); /* 12 from 15, 42 from 69 */
    found(&t, 0, 17, 69);
    found(&t, 0, 31, 69);
    none(&t, 80, 32);
}

/* Cells past the end, and numbers and distances whose low bits alone would be others: cell 5 is in
 * 0, and one cell is in all. */
static void test_large_numbers(void) {
    static const uint64_t above[] = {256, 65536, UINT64_C(1) << 32, UINT64_C(1) << 63};
    struct table low = seven();
    const struct table t = low;
    low.rows[6] |= UINT64_C(1) << 32; /* now Taken */
    for (size_t i = 0; i < COUNT(above); i++) {
        found(&t, above[i] + 5, 1, 69);
        found(&t, above[i] + 50, 1, 69);  /* above + 19 from 31, above - 49 from 99 */
        found(&low, above[i] + 5, 5, 24); /* 64 has 4 cells */
        none(&t, 5, above[i] + 1);
        no_lists(&t, above[i] + 5, 1);
        no_lists(&t, 5, above[i] + 1);
    }
    found(&t, 100, 1, 69);
    found(&t, 100, 9, 69);
    found(&t, UINT64_MAX, 1, 69);
    found(&t, UINT64_MAX, 31, 69);
    found(&low, UINT64_MAX, 1, 64);
    found(&low, UINT64_MAX, 9, 0);
    none(&t, UINT64_MAX, 32);
    none(&t, 5, UINT64_MAX);
    none(&t, UINT64_MAX, UINT64_MAX);
}

/* Open is number 0 alone; the lists take every state. */
static void test_states(void) {
    for (uint64_t state = 0; state < 256; state++) {
        const struct table t = equal(3, 16, state);
        list(&sharing, &t, 15, 2, "0 16");
        list(&within, &t, 15, 33, "16 32");
        if (state == CETOMUHI_OPEN)
            found(&t, 20, 16, 16);
        else
            none(&t, 20, 16);
    }
}

/* Holders and takers that no state has, and the bits above them, are not looked at. */
static void test_other_bits(void) {
    struct table t = seven();
    for (size_t i = 0; i < t.length; i++)
        t.rows[i] |= UINT64_C(0xFFFFFF) << 40;
    list(&sharing, &t, 23, 10, "16 24 32");
    list(&within, &t, 23, 42, "24 32");
    found(&t, 50, 8, 24);
    for (size_t i = 0; i < t.length; i++)
        t.rows[i] &= 0xFFFFFFFF;
    list(&sharing, &t, 67, 3, "64 68 69");
    found(&t, 50, 1, 32); /* all are Open now */
}

/* ---- What is refused ---- */

/* Records that are no table: every question is refused, also about a cell in one of them, such as
 * cell 4. */
static void no_table(struct table t) {
    no_lists(&t, 4, 1);
    no_nearest(&t, 4, 1);
}

static void test_how_many(void) {
    const struct table t = {{0}, 0};
    no_table(t);
    no_table(equal(CETOMUHI_ROWS + 1, 1, CETOMUHI_OPEN));
}

static void test_length_0(void) {
    struct table t = pair(record(0, 0, CETOMUHI_OPEN), 0);
    no_table(t);
    no_table(pair(record(0, 0, CETOMUHI_OPEN), record(0, 16, CETOMUHI_OPEN)));
    no_table(pair(record(0, 16, CETOMUHI_OPEN), record(16, 0, CETOMUHI_OPEN)));
    t = equal(2, 16, CETOMUHI_OPEN);
    t.rows[2] = t.rows[1];
    t.rows[1] = record(16, 0, CETOMUHI_OPEN);
    t.length = 3;
    no_table(t);
}

static void test_tiling(void) {
    struct table t = equal(CETOMUHI_ROWS, 64, CETOMUHI_OPEN);
    const uint64_t first = record(0, 16, CETOMUHI_OPEN);
    const struct table sound = pair(first, record(16, 16, CETOMUHI_OPEN));
    list(&sharing, &sound, 0, 32, "0 16");
    no_table(pair(first, record(17, 15, CETOMUHI_OPEN))); /* a gap */
    no_table(pair(first, record(15, 17, CETOMUHI_OPEN))); /* an overlap */
    no_table(pair(first, first));
    no_table(pair(record(16, 16, CETOMUHI_OPEN), first));
    no_table(pair(record(1, 16, CETOMUHI_OPEN), 0)); /* cell 0 is nobody's */
    no_table(pair(record(1, 16, CETOMUHI_OPEN), record(17, 16, CETOMUHI_OPEN)));
    t.rows[63] = record(4031, 64, CETOMUHI_OPEN); /* the last one alone */
    no_table(t);
    t.rows[63] = record(4033, 63, CETOMUHI_OPEN);
    no_table(t);
}

/* An end above 4,096. The last three records would end at 5 if sums were cut to 16 bits. */
static void test_end(void) {
    struct table t = pair(record(0, 65535, CETOMUHI_OPEN), record(65535, 1, CETOMUHI_OPEN));
    no_table(pair(record(0, ENDING + 1, CETOMUHI_OPEN), 0));
    no_table(pair(record(0, ENDING - 1, CETOMUHI_OPEN), record(ENDING - 1, 2, CETOMUHI_OPEN)));
    no_table(pair(record(0, ENDING, CETOMUHI_OPEN), record(ENDING, 1, CETOMUHI_OPEN)));
    no_table(pair(record(0, 65535, CETOMUHI_OPEN), 0));
    no_table(t);
    add(&t, 0, 5, CETOMUHI_OPEN);
    no_table(t);
}

static void test_ranges(void) {
    const struct table t = seven();
    no_lists(&t, 0, 0);
    no_lists(&t, 50, 0);
    no_lists(&t, 100, 0);
    no_lists(&t, 99, 2); /* one past the end */
    no_lists(&t, 0, 101);
    no_lists(&t, 100, 1);
    no_lists(&t, UINT64_MAX, 1); /* the sum is 2^64 */
    no_lists(&t, 1, UINT64_MAX);
    no_lists(&t, UINT64_C(1) << 63, UINT64_C(1) << 63);
    no_lists(&t, UINT64_MAX, 17); /* the sum is 2^64 + 16 */
    no_lists(&t, 50, UINT64_MAX - 9);
    no_lists(&t, UINT64_MAX, UINT64_MAX);
    no_nearest(&t, 0, 0);
    no_nearest(&t, UINT64_MAX, 0);
}

/* A slice for a list is 64 long or more, however short the list. */
static void test_room(void) {
    const struct table t = seven();
    for (size_t room = 0; room < CETOMUHI_ROWS; room++) {
        lent(&sharing, &t, 0, 1, room, CETOMUHI_REFUSED_WRONG_RANGE, NULL, 0);
        lent(&within, &t, 0, 16, room, CETOMUHI_REFUSED_WRONG_RANGE, NULL, 0);
        lent(&within, &t, 40, 4, room, CETOMUHI_REFUSED_WRONG_RANGE, NULL, 0);
    }
}

/* ---- A machine's own table ---- */

static void test_machine(void) {
    static cetomuhi_machine m;
    CHECK(cetomuhi_machine_start(&m, 4, 1) == 0);
    listed(cetomuhi_machine_sharing(&m, 63, 1), 0, (const uint16_t[]){0}, 1);
    grant(&m, cetomuhi_split(0, 0, 16));
    grant(&m, cetomuhi_split(0, 16, 8));
    grant(&m, cetomuhi_split(0, 24, 8));
    expect(&m, cetomuhi_take(0, 16, 0), CETOMUHI_GRANTED, 8);
    grant(&m, cetomuhi_revoke(0, 32));
    listed(cetomuhi_machine_sharing(&m, 20, 13), 0, (const uint16_t[]){16, 24, 32}, 3);
    listed(cetomuhi_machine_within(&m, 15, 49), 0, (const uint16_t[]){16, 24, 32}, 3);
    listed(cetomuhi_machine_sharing(&m, 63, 2), CETOMUHI_REFUSED_WRONG_RANGE, NULL, 0);
    listed(cetomuhi_machine_within(&m, 0, 0), CETOMUHI_REFUSED_WRONG_RANGE, NULL, 0);
    nearest_is(cetomuhi_machine_nearest(&m, 50, 1), 0, 1, 24);
    nearest_is(cetomuhi_machine_nearest(&m, 50, 9), 0, 1, 0);
    nearest_is(cetomuhi_machine_nearest(&m, 50, 17), 0, 0, 0);
    refuse(&m, cetomuhi_take(0, 32, 0), CETOMUHI_REFUSED_WRONG_RESERVATION);
    grant(&m, cetomuhi_sweep(0, 16));
    grant(&m, cetomuhi_collect(0));
    nearest_is(cetomuhi_machine_nearest(&m, 50, 17), 0, 1, 32); /* Open again */
    nearest_is(cetomuhi_machine_nearest(&m, 18, 1), 0, 1, 0);   /* 3 from 15, 6 from 24 */
    grant(&m, cetomuhi_merge(0, 24));
    listed(cetomuhi_machine_sharing(&m, 20, 44), 0, (const uint16_t[]){16, 24}, 2);
    nearest_is(cetomuhi_machine_nearest(&m, 0, 17), 0, 1, 24);
}

/* The count of rows says where the table ends. One above 64 is refused, whatever the rows are. */
static void test_counts(void) {
    const struct table full = equal(CETOMUHI_ROWS, 64, CETOMUHI_OPEN);
    static const uint16_t counts[] = {0, 65, 128, 256 + 64, UINT16_MAX};
    cetomuhi_state state = machine_of(&full)->state;
    for (size_t i = 0; i < COUNT(counts); i++) {
        state.numbers[2] = counts[i];
        listed(cetomuhi_state_sharing(&state, 0, 1), CETOMUHI_REFUSED_WRONG_RANGE, NULL, 0);
        listed(cetomuhi_state_within(&state, 0, 64), CETOMUHI_REFUSED_WRONG_RANGE, NULL, 0);
        nearest_is(cetomuhi_state_nearest(&state, 0, 1), CETOMUHI_REFUSED_WRONG_RANGE, 0, 0);
    }
    state.numbers[2] = 2;
    listed(cetomuhi_state_sharing(&state, 127, 1), 0, (const uint16_t[]){64}, 1);
    listed(cetomuhi_state_sharing(&state, 127, 2), CETOMUHI_REFUSED_WRONG_RANGE, NULL, 0);
    listed(cetomuhi_state_within(&state, 64, 65), CETOMUHI_REFUSED_WRONG_RANGE, NULL, 0);
    nearest_is(cetomuhi_state_nearest(&state, ENDING, 1), 0, 1, 64);
}

int main(void) {
    test_sharing();
    test_within();
    test_full_table();
    test_one_record();
    test_nearest();
    test_large_numbers();
    test_states();
    test_other_bits();
    test_how_many();
    test_length_0();
    test_tiling();
    test_end();
    test_ranges();
    test_room();
    test_machine();
    test_counts();
    return end("maps");
}
