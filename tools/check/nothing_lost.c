/* Check 4: a table of one's own is kept beside the library's. */
#include <inttypes.h>

#include "orders.h"
#include "seen.h"

enum { SPLIT, MERGED, FULL, FILLED };

/* The records without takers. */
static struct {
    size_t count;
    cetomuhi_reservation rows[CETOMUHI_ROWS];
} table;

static void begin(trial *t)
{
    const uint16_t cells = (uint16_t)(CELLS * cetomuhi_page_count(&t->machine.state));
    memset(&table, 0, sizeof table);
    table.count = 1;
    table.rows[0].length = cells;
}

/* The row of the caller's that begins there, or the count. */
static size_t held(uint64_t party, uint64_t base)
{
    size_t i = 0;
    while (i < table.count && (table.rows[i].base != base || table.rows[i].holder != party))
        i++;
    return i;
}

static bool merges(size_t i, uint64_t party)
{
    return i + 1 < table.count && table.rows[i + 1].holder == party &&
           table.rows[i].state == table.rows[i + 1].state &&
           table.rows[i].state != CETOMUHI_REVOKING;
}

/* What the call must be answered with: refusals 6 to 9. */
static uint64_t code_of(const cetomuhi_call *call)
{
    const uint64_t kind = call->numbers[0];
    const size_t i = held(call->numbers[1], call->numbers[2]);
    if (i == table.count)
        return CETOMUHI_REFUSED_NOT_HELD;
    if (kind == CETOMUHI_MERGE)
        return merges(i, call->numbers[1]) ? 0 : CETOMUHI_REFUSED_WRONG_RESERVATION;
    if (table.rows[i].state != CETOMUHI_OPEN)
        return CETOMUHI_REFUSED_WRONG_RESERVATION;
    if (kind != CETOMUHI_SPLIT)
        return 0;
    if (call->numbers[3] == 0 || call->numbers[3] >= table.rows[i].length)
        return CETOMUHI_REFUSED_SPLIT_LENGTH;
    return table.count == CETOMUHI_ROWS ? CETOMUHI_REFUSED_TABLE_FULL : 0;
}

static void split(size_t i, uint16_t length)
{
    for (size_t above = table.count; above > i; above--)
        table.rows[above] = table.rows[above - 1];
    table.count++;
    table.rows[i].length = length;
    table.rows[i + 1].base = (uint16_t)(table.rows[i + 1].base + length);
    table.rows[i + 1].length = (uint16_t)(table.rows[i + 1].length - length);
}

static void merge(size_t i)
{
    table.rows[i].length = (uint16_t)(table.rows[i].length + table.rows[i + 1].length);
    table.count--;
    for (size_t above = i + 1; above < table.count; above++)
        table.rows[above] = table.rows[above + 1];
}

static void change(trial *t, const cetomuhi_call *call)
{
    const size_t i = held(call->numbers[1], call->numbers[2]);
    switch (call->numbers[0]) {
    case CETOMUHI_SPLIT:
        split(i, (uint16_t)call->numbers[3]);
        tally(t, SPLIT);
        if (table.count == CETOMUHI_ROWS)
            tally(t, FILLED);
        break;
    case CETOMUHI_MERGE:
        merge(i);
        tally(t, MERGED);
        break;
    case CETOMUHI_GIVE:
        table.rows[i].holder = (uint8_t)call->numbers[3];
        break;
    default:
        table.rows[i].state = CETOMUHI_TAKEN;
        table.rows[i].holder = 0;
    }
}

static void compare(trial *t)
{
    const cetomuhi_state *state = &t->machine.state;
    if (cetomuhi_row_count(state) != table.count)
        fail(t, "the table has %zu reservations and not %zu", cetomuhi_row_count(state),
             table.count);
    for (size_t i = 0; i < table.count; i++) {
        const cetomuhi_reservation is = cetomuhi_reservation_at(state, i);
        const cetomuhi_reservation *row = &table.rows[i];
        if (is.base != row->base || is.length != row->length || is.state != row->state ||
            is.holder != row->holder)
            fail(t, "reservation %zu of %zu is not the one of base %u, length %u, %s, holder %u",
                 i + 1, table.count, row->base, row->length, cetomuhi_reservation_word(row->state),
                 row->holder);
    }
}

static void watch(trial *t, const cetomuhi_call *call, cetomuhi_answer answer)
{
    const uint64_t kind = call->numbers[0];
    const bool takes = kind == CETOMUHI_TAKE || kind == CETOMUHI_TAKE_MASKED;
    if (answer.code == CETOMUHI_REFUSED_ABOVE_SEVEN)
        return;
    if (takes || kind == CETOMUHI_SPLIT || kind == CETOMUHI_MERGE || kind == CETOMUHI_GIVE) {
        const uint64_t code = code_of(call);
        if (answer.code != code)
            fail(t, "the answer is %" PRIu64 " and not %" PRIu64 " (%s); %zu reservations",
                 answer.code, code, cetomuhi_refusal_words(code), table.count);
        const size_t i = held(call->numbers[1], call->numbers[2]);
        if (takes && code == 0 && answer.number != table.rows[i].length)
            fail(t, "a take answers another length than the reservation's");
        if (code == CETOMUHI_REFUSED_TABLE_FULL)
            tally(t, FULL);
        if (code == 0)
            change(t, call);
    }
    compare(t);
}

/* Reservations of one cell each from the lowest on, until there are 64; the last has 17 cells. */
static void fill(trial *t)
{
    for (uint64_t base = 0; base < CETOMUHI_ROWS - 1; base++)
        set_up(t, cetomuhi_split(0, base, 1));
}

/* Fill the table, merge, split again. */
static void in_fixed_order(trial *t)
{
    start(t, 5, 1);
    fill(t);
    expect(t, cetomuhi_split(0, 63, 1), 9);
    expect(t, cetomuhi_split(0, 63, 17), 8);
    expect(t, cetomuhi_merge(0, 30), 0);
    expect(t, cetomuhi_split(0, 63, 1), 0);
    expect(t, cetomuhi_split(0, 64, 1), 9);
    expect(t, cetomuhi_merge(0, 63), 0);
    expect(t, cetomuhi_split(0, 30, 1), 0);
    expect(t, cetomuhi_split(0, 63, 1), 9);
    for (uint64_t i = 1; i < CETOMUHI_ROWS; i++)
        expect(t, cetomuhi_merge(0, 0), 0);
    expect(t, cetomuhi_merge(0, 0), 7);
    for (uint64_t length = 79; length > 16; length--) /* from the other end */
        expect(t, cetomuhi_split(0, 0, length), 0);
    expect(t, cetomuhi_split(0, 0, 5), 9);
    expect(t, cetomuhi_give(0, 40, 1), 0);
    expect(t, cetomuhi_merge(0, 39), 7);
    expect(t, cetomuhi_merge(1, 40), 7);
    expect(t, cetomuhi_merge(0, 70), 0);
    expect(t, cetomuhi_split(1, 40, 1), 8);
    expect(t, cetomuhi_take(0, 39, 0), 0);
    expect(t, cetomuhi_merge(0, 38), 7);
    expect(t, cetomuhi_merge(0, 39), 7);
    expect(t, cetomuhi_give(1, 40, 0), 0);
    expect(t, cetomuhi_merge(0, 39), 7);
    expect(t, cetomuhi_take(0, 40, 0), 0);
    expect(t, cetomuhi_merge(0, 39), 0);
    expect(t, cetomuhi_split(0, 39, 1), 7);
    expect(t, cetomuhi_split(0, 70, 1), 0);
    expect(t, cetomuhi_split(0, 0, 15), 0);
    expect(t, cetomuhi_split(0, 0, 5), 9);
    expect_answer(t, cetomuhi_take(0, 79, 7), 1, 0);
}

static void in_random_order(trial *t)
{
    static const weights often = {[CETOMUHI_SPLIT] = 9,
                                  [CETOMUHI_MERGE] = 6,
                                  [CETOMUHI_GIVE] = 3,
                                  [CETOMUHI_TAKE] = 1,
                                  [CETOMUHI_TAKE_MASKED] = 1};
    const uint64_t v = 8 + below(t, 9);
    const uint64_t rows = CETOMUHI_ROWS - below(t, 5);
    const uint64_t length = v / 4;
    start(t, v, 1);
    for (uint64_t i = 0; i + 1 < rows; i++)
        set_up(t, cetomuhi_split(0, length * i, length));
    if (once_in(t, 3))
        make_likely(t, (const weights){[CETOMUHI_MERGE] = 1}, 40);
    make_likely(t, often, 40);
}

const check nothing_lost = {
    "nothing-lost",
    "Fill the table, merge, split again. Catches an entry lost for good.",
    "80 cells are split into 64 reservations and a 65th is refused, all are merged into one and "
    "split again from the other end, with gives and takes in between",
    "splits, merges, gives and takes about a full table of 128 to 256 cells",
    "a reservation's base, length, state or holder is not that of a table that is kept beside the "
    "library's; a split is refused below 64 reservations or granted at 64",
    {"splits", "merges", "splits refused at 64 reservations", "tables filled again"},
    begin,
    watch,
    in_fixed_order,
    in_random_order,
};
