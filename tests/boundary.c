/* Tests of the exported functions themselves: wrong lengths, places and rooms, starts, the test of
 * a state, calls to bytes and back. Calls and histories are in histories.c. */
#include "check.h"
#include "widths.h"

/* ---- A state and memory with one entry to spare in each array, so that every length around the
 * right one may be lent ---- */

enum { STATE_SLICES = 10, SLICES = 12, ANSWERS = 8 };

struct wide {
    uint16_t numbers[CETOMUHI_NUMBERS + 1];
    uint64_t words[CETOMUHI_WORDS + 1];
    uint8_t marks[CETOMUHI_WORDS + 1];
    uint64_t mail[CETOMUHI_PARTIES + 1];
    uint8_t flags[CETOMUHI_PARTIES + 1];
    uint64_t rows[CETOMUHI_ROWS + 1];
    uint16_t pages[CETOMUHI_PAGES + 1];
    uint8_t frames[CETOMUHI_FRAMES + 1];
    uint64_t principals[CETOMUHI_PRINCIPALS + 1];
    uint16_t counts[CETOMUHI_COUNTS + 1];
    uint64_t cells[CETOMUHI_MEMORY_CELLS + 1];
    uint8_t tags[CETOMUHI_MEMORY_CELLS + 1];
    uint64_t answers[ANSWERS];
    size_t at;
};

/* The slices of a wide state w, with the lengths n. */
#define WIDE(w, n)                                                                                 \
    (w)->numbers, (n)[0], (w)->words, (n)[1], (w)->marks, (n)[2], (w)->mail, (n)[3], (w)->flags,   \
        (n)[4], (w)->rows, (n)[5], (w)->pages, (n)[6], (w)->frames, (n)[7], (w)->principals,       \
        (n)[8], (w)->counts, (n)[9]
#define LENT(w, n) (w)->cells, (n)[10], (w)->tags, (n)[11]

enum { FRAMES = 3 };

/* The right lengths for F 3. */
static void right_lengths(size_t *lengths) {
    for (size_t which = 0; which < STATE_SLICES; which++)
        lengths[which] = cetomuhi_size(which);
    lengths[10] = lengths[11] = CETOMUHI_PAGE_CELLS * FRAMES;
}

/* Bytes that no function would write by chance, then a fresh state of V 4 and F 3. */
static void fill(struct wide *w) {
    size_t lengths[SLICES];
    right_lengths(lengths);
    memset(w, 0xA5, sizeof *w);
    w->at = 0;
    CHECK(cetomuhi_start(4, FRAMES, WIDE(w, lengths)) == 0);
}

static const uint8_t zero_frame[] = {CETOMUHI_ZERO, 0, 0};

/* Everything under a slice of a wrong length: refused, and every byte but the answer kept. */
static void wrong_length(const struct wide *fresh, const size_t *lengths, uint64_t code) {
    static struct wide w;
    static struct wide before;
    uint64_t cost[] = {5, 1};
    w = *fresh;
    if (code == CETOMUHI_REFUSED_ILL_FORMED) {
        CHECK(cetomuhi_start(4, FRAMES, WIDE(&w, lengths)) == 1);
        CHECK(cetomuhi_start(0, 0, WIDE(&w, lengths)) == 1);
        CHECK(!cetomuhi_well_formed(WIDE(&w, lengths)));
        CHECK(cetomuhi_page_cost(WIDE(&w, lengths), 0, &cost[0], &cost[1]) == 1);
        CHECK(cost[0] == 0 && cost[1] == 0);
        CHECK(cetomuhi_page_cost(WIDE(&w, lengths), 4, &cost[0], &cost[1]) == 1);
        CHECK(memcmp(&w, fresh, sizeof w) == 0);
    }
    for (int run = 0; run < 2; run++) {
        w = before = *fresh;
        const size_t done =
            run ? cetomuhi_commands(WIDE(&w, lengths), LENT(&w, lengths), zero_frame,
                                    sizeof zero_frame, &w.at, w.answers, ANSWERS)
                : cetomuhi_command(WIDE(&w, lengths), LENT(&w, lengths), zero_frame,
                                   sizeof zero_frame, 0, w.answers, ANSWERS);
        before.answers[0] = code;
        before.answers[1] = before.answers[2] = before.answers[3] = 0;
        CHECK(done == 1);
        CHECK(memcmp(&w, &before, sizeof w) == 0);
    }
}

static void test_wrong_lengths(void) {
    static struct wide fresh;
    size_t lengths[SLICES];
    fill(&fresh);
    for (size_t which = 0; which < SLICES; which++) {
        right_lengths(lengths);
        const size_t right = lengths[which];
        const size_t wrong[] = {0, 1, right - 1, right + 1};
        const uint64_t code =
            which < STATE_SLICES ? CETOMUHI_REFUSED_ILL_FORMED : CETOMUHI_REFUSED_LENT_LENGTH;
        for (size_t i = 0; i < COUNT(wrong); i++) {
            lengths[which] = wrong[i];
            wrong_length(&fresh, lengths, code);
        }
    }
}

/* Fewer than four numbers of room: nothing is done. More: the rest is kept. */
static void test_room(void) {
    static struct wide w;
    static struct wide before;
    size_t n[SLICES];
    right_lengths(n);
    fill(&w);
    before = w;
    for (size_t room = 0; room < CETOMUHI_ANSWER_NUMBERS; room++) {
        CHECK(cetomuhi_command(WIDE(&w, n), LENT(&w, n), zero_frame, sizeof zero_frame, 0,
                               w.answers, room) == 0);
        CHECK(cetomuhi_commands(WIDE(&w, n), LENT(&w, n), zero_frame, sizeof zero_frame, &w.at,
                                w.answers, room) == 0);
        CHECK(memcmp(&w, &before, sizeof w) == 0);
    }
    CHECK(cetomuhi_command(WIDE(&w, n), LENT(&w, n), zero_frame, sizeof zero_frame, 0, w.answers,
                           ANSWERS) == 1);
    CHECK(w.answers[0] == 0 && w.answers[1] == 0 && w.answers[2] == 0 && w.answers[3] == 3);
    CHECK(memcmp(w.answers + 4, before.answers + 4, sizeof w.answers / 2) == 0);
    CHECK(w.frames[0] == CETOMUHI_FRAME_FREE && w.frames[1] == CETOMUHI_FRAME_DIRTY);
    CHECK(w.cells[15] == 0 && w.tags[15] == 0);
    CHECK(w.cells[16] == before.cells[16] && w.tags[16] == before.tags[16]);
}

/* Places at and past the end of an input, and the cut of a command at every byte. */
static void test_places(void) {
    static struct wide w;
    static struct wide before;
    size_t n[SLICES];
    const size_t places[] = {sizeof zero_frame, sizeof zero_frame + 1, SIZE_MAX - 1, SIZE_MAX};
    right_lengths(n);
    fill(&w);
    for (size_t i = 0; i < COUNT(places); i++) {
        w.at = places[i];
        before = w;
        CHECK(cetomuhi_commands(WIDE(&w, n), LENT(&w, n), zero_frame, sizeof zero_frame, &w.at,
                                w.answers, ANSWERS) == 0);
        CHECK(memcmp(&w, &before, sizeof w) == 0);
        CHECK(cetomuhi_command(WIDE(&w, n), LENT(&w, n), zero_frame, sizeof zero_frame, places[i],
                               w.answers, ANSWERS) == 1);
        CHECK(w.answers[0] == CETOMUHI_REFUSED_NO_COMMAND && w.answers[3] == 0);
    }
    w.at = 0;
    for (size_t length = 1; length < sizeof zero_frame; length++) {
        before = w;
        before.answers[0] = CETOMUHI_REFUSED_NO_COMMAND;
        CHECK(cetomuhi_commands(WIDE(&w, n), LENT(&w, n), zero_frame, length, &w.at, w.answers,
                                ANSWERS) == 1);
        CHECK(memcmp(&w, &before, sizeof w) == 0);
    }
}

/* ---- Start, version, sizes ---- */

static void test_start(void) {
    static const struct {
        uint64_t v, f;
        uint8_t code;
    } starts[] = {
        {1, 1, 0},   {256, 128, 0}, {2, 1, 0},          {0, 1, 1},          {1, 0, 1},
        {257, 1, 1}, {1, 129, 1},   {UINT64_MAX, 1, 1}, {1, UINT64_MAX, 1}, {65537, 65537, 1},
    };
    static const cetomuhi_state zero;
    cetomuhi_state state;
    for (size_t i = 0; i < COUNT(starts); i++) {
        memset(&state, 0xA5, sizeof state);
        CHECK(cetomuhi_state_start(&state, starts[i].v, starts[i].f) == starts[i].code);
        CHECK(cetomuhi_state_well_formed(&state) == (starts[i].code == 0));
        if (starts[i].code) {
            CHECK(memcmp(&state, &zero, sizeof state) == 0);
            continue;
        }
        const cetomuhi_reservation all = cetomuhi_reservation_at(&state, 0);
        CHECK(cetomuhi_page_count(&state) == starts[i].v);
        CHECK(cetomuhi_frame_count(&state) == starts[i].f);
        CHECK(cetomuhi_row_count(&state) == 1);
        CHECK(all.base == 0 && all.length == CETOMUHI_PAGE_CELLS * starts[i].v);
        CHECK(all.state == CETOMUHI_OPEN && all.holder == 0 && all.taker == CETOMUHI_TAKER_NONE);
        CHECK(state.rows[0] == ((UINT64_C(9) << 48) + 1048576 * starts[i].v));
        CHECK(state.rows[1] == 0 && state.rows[63] == 0);
        CHECK(state.principals[0] == UINT64_C(4294975488));
        for (size_t p = 1; p < CETOMUHI_PRINCIPALS; p++)
            CHECK(state.principals[p] == 0);
        CHECK(memcmp(state.counts, zero.counts, sizeof state.counts) == 0);
    }
}

static void test_sizes(void) {
    CHECK(cetomuhi_matches());
    CHECK(cetomuhi_version() == 5);
    CHECK(cetomuhi_size(8) == 32 && cetomuhi_size(9) == 8192);
    CHECK(cetomuhi_size(10) == 4 && cetomuhi_size(11) == 7);
    for (uint64_t which = 12; which < 300; which++)
        CHECK(cetomuhi_size(which) == 0);
    CHECK(cetomuhi_size(UINT64_MAX) == 0);
}

/* The number of a row of 64 cells from 0 on. */
static uint64_t whole_row(uint64_t state, uint64_t holder, uint64_t taker) {
    return 64 << 16 | state << 32 | holder << 40 | taker << 48;
}

/* One number changed in a fresh state, so that it is no longer well formed. */
static void test_well_formed(void) {
    cetomuhi_state fresh;
    cetomuhi_state state;
    cetomuhi_state_start(&fresh, 4, FRAMES);
#define SPOILT(entry, number)                                                                      \
    state = fresh;                                                                                 \
    state.entry = number;                                                                          \
    CHECK(!cetomuhi_state_well_formed(&state));
    SPOILT(numbers[0], 5)
    SPOILT(numbers[1], 0)
    SPOILT(numbers[2], 2)
    SPOILT(numbers[3], 1)
    SPOILT(numbers[4], 16)
    SPOILT(numbers[5], 16)
    SPOILT(marks[63], 2)
    SPOILT(mail[7], 1)
    SPOILT(flags[0], 255)
    SPOILT(rows[0], whole_row(CETOMUHI_OPEN, 0, CETOMUHI_TAKER_NONE) + (1 << 16))
    SPOILT(rows[0], whole_row(CETOMUHI_OPEN, 8, CETOMUHI_TAKER_NONE))
    SPOILT(rows[0], whole_row(CETOMUHI_OPEN, 0, 0))
    SPOILT(rows[0], whole_row(CETOMUHI_TAKEN, 1, 1))
    SPOILT(rows[0], whole_row(CETOMUHI_TAKEN, 0, CETOMUHI_TAKER_NONE))
    SPOILT(rows[0], whole_row(3, 0, 0))
    SPOILT(rows[0], whole_row(CETOMUHI_OPEN, 0, CETOMUHI_TAKER_NONE + 0x100))
    SPOILT(rows[1], UINT64_C(9) << 48)
    SPOILT(rows[63], 1)
    SPOILT(pages[0], 2)
    SPOILT(pages[4], 1)
    SPOILT(frames[0], 2)
    SPOILT(frames[3], 1)
    SPOILT(principals[0], 0)
    SPOILT(principals[0], principal_of(0, 0, 8191))
    SPOILT(principals[0], principal_of(1, 0, 8192))
    SPOILT(principals[0], principal_of(0, 1, 8192))
    SPOILT(principals[0], 8192)
    SPOILT(principals[0], principal_of(0, 0, 8192) + (UINT64_C(1) << 33))
    SPOILT(principals[1], principal_of(0, 1, 0))
    SPOILT(principals[1], principal_of(0, 2, 0))
    SPOILT(principals[1], principal_of(8, 0, 0))
    SPOILT(principals[1], principal_of(0, 32, 0))
    SPOILT(principals[1], principal_of(0, 0, 1))
    SPOILT(principals[31], 1)
    SPOILT(principals[31], UINT64_C(1) << 63)
    SPOILT(counts[0], 1)
    SPOILT(counts[CETOMUHI_COUNTS - 1], 1)
#undef SPOILT
    state = fresh;
    state.words[63] = UINT64_MAX;
    state.marks[0] = 1;
    CHECK(cetomuhi_state_well_formed(&state));
}

/* A machine with another taker in a row. If it is none that fits, a command is refused under 1 and
 * every byte kept; if it is, the same command is refused for its party. */
static void retake(const cetomuhi_machine *machine, size_t row, uint64_t taker, bool fits) {
    static cetomuhi_machine changed;
    static cetomuhi_machine before;
    changed = *machine;
    changed.state.rows[row] &= ~(UINT64_C(0xFF) << 48);
    changed.state.rows[row] |= taker << 48;
    before = changed;
    CHECK(cetomuhi_reservation_at(&changed.state, row).taker == taker);
    CHECK(cetomuhi_machine_well_formed(&changed) == fits);
    const cetomuhi_answer answer = cetomuhi_machine_call(&changed, cetomuhi_collect(8));
    CHECK(answer.code == (fits ? CETOMUHI_REFUSED_ABOVE_SEVEN : CETOMUHI_REFUSED_ILL_FORMED));
    CHECK(memcmp(&changed, &before, sizeof before) == 0);
}

/* Every taker in an Open, a Taken, a Revoking and an unused row. */
static void test_takers(void) {
    static cetomuhi_machine m;
    CHECK(cetomuhi_machine_start(&m, 4, FRAMES) == 0);
    CHECK(cetomuhi_machine_call(&m, cetomuhi_split(0, 0, 16)).code == 0);
    CHECK(cetomuhi_machine_call(&m, cetomuhi_split(0, 16, 16)).code == 0);
    CHECK(cetomuhi_machine_call(&m, cetomuhi_take(0, 16, 0)).code == 0);
    CHECK(cetomuhi_machine_call(&m, cetomuhi_revoke(0, 32)).code == 0);
    for (uint64_t taker = 0; taker < 256; taker++) {
        retake(&m, 0, taker, taker == CETOMUHI_TAKER_NONE);
        retake(&m, 1, taker, taker <= CETOMUHI_TAKER_SEVERAL);
        retake(&m, 2, taker, taker <= CETOMUHI_TAKER_SEVERAL);
        retake(&m, 3, taker, taker == 0);
        retake(&m, CETOMUHI_ROWS - 1, taker, taker == 0);
    }
}

/* ---- Calls to bytes and back ---- */

/* Operand i of a call: all zero, the largest, or bytes that differ. */
static uint64_t operand(unsigned form, size_t i, unsigned width) {
    const uint64_t largest = UINT64_MAX >> (64 - 8 * width);
    const uint64_t mixed = UINT64_C(0x0123456789ABCDEF) * (i + 1);
    return form == 0 ? 0 : form == 1 ? largest : mixed & largest;
}

/* The bytes that the document gives to a call: their length. */
static size_t written(const cetomuhi_call *call, uint8_t *out) {
    const uint8_t *width = widths[call->numbers[0]];
    size_t length = 0;
    out[length++] = (uint8_t)call->numbers[0];
    for (size_t i = 0; width[i]; i++)
        for (unsigned left = width[i]; left > 0; left--)
            out[length++] = (uint8_t)(call->numbers[i + 1] >> 8 * (left - 1));
    return length;
}

/* A buffer and an input of every length, and an input with more around the call. */
static void round_trip(cetomuhi_call call) {
    uint8_t bytes[16] = {0};
    const size_t length = written(&call, bytes);
    for (size_t room = 0; room <= sizeof bytes; room++) {
        uint8_t out[16];
        uint8_t kept[16];
        const bool fits = length <= room;
        cetomuhi_call back = cetomuhi_collect(99);
        memset(out, 0xEE, sizeof out);
        memset(kept, 0xEE, sizeof kept);
        memcpy(kept, bytes, fits ? length : 0);
        CHECK(cetomuhi_call_write(call, out, room) == (fits ? length : 0));
        CHECK(memcmp(out, kept, sizeof out) == 0);
        CHECK(cetomuhi_call_read(&back, bytes, room, 0) == (fits ? length : 0));
        CHECK(memcmp(&back, fits ? &call : &(cetomuhi_call){{7, 99, 0, 0, 0, 0, 0}}, sizeof back) ==
              0);
    }
    uint8_t longer[24] = {0};
    cetomuhi_call back = cetomuhi_collect(0);
    memcpy(longer + 5, bytes, length);
    CHECK(cetomuhi_call_read(&back, longer, sizeof longer, 5) == length);
    CHECK(memcmp(&back, &call, sizeof back) == 0);
}

/* Numbers that are no call: an operand too large, or a number behind the operands. */
static void no_calls(cetomuhi_call call) {
    const uint8_t *width = widths[call.numbers[0]];
    for (size_t i = 0; i < CETOMUHI_CALL_NUMBERS - 1; i++) {
        uint8_t out[16] = {0};
        const uint8_t kept[16] = {0};
        cetomuhi_call other = call;
        if (width[i] == 8)
            continue;
        other.numbers[i + 1] = UINT64_C(1) << 8 * width[i];
        CHECK(cetomuhi_call_write(other, out, sizeof out) == 0);
        other.numbers[i + 1] = UINT64_MAX;
        CHECK(cetomuhi_call_write(other, out, sizeof out) == 0);
        CHECK(memcmp(out, kept, sizeof out) == 0);
    }
}

static void test_round_trips(void) {
    for (uint64_t kind = 1; kind < COUNT(widths); kind++)
        for (unsigned form = 0; form < 3; form++) {
            cetomuhi_call call = {{kind, 0, 0, 0, 0, 0, 0}};
            for (size_t i = 0; widths[kind][i]; i++)
                call.numbers[i + 1] = operand(form, i, widths[kind][i]);
            round_trip(call);
            no_calls(call);
        }
}

static void test_no_calls(void) {
    uint8_t out[16] = {0};
    uint64_t numbers[8] = {CETOMUHI_COLLECT, 0, 0, 0, 0, 0, 0, 5};
    const uint64_t kinds[] = {0, COUNT(widths), 255, 256, 257, UINT64_MAX};
    for (size_t i = 0; i < COUNT(kinds); i++) {
        const cetomuhi_call call = {{kinds[i], 0, 0, 0, 0, 0, 0}};
        const uint8_t byte[12] = {(uint8_t)kinds[i]};
        CHECK(cetomuhi_call_write(call, out, sizeof out) == 0);
        if (kinds[i] < 256)
            CHECK(cetomuhi_read(byte, sizeof byte, 0, numbers, CETOMUHI_CALL_NUMBERS) == 0);
    }
    for (size_t length = 0; length <= COUNT(numbers); length++) {
        const uint8_t bytes[] = {CETOMUHI_MERGE, 1, 2, 3};
        const bool seven = length == CETOMUHI_CALL_NUMBERS;
        CHECK(cetomuhi_write(numbers, length, out, sizeof out) == (seven ? 2 : 0));
        if (seven)
            continue;
        CHECK(cetomuhi_read(bytes, sizeof bytes, 0, numbers, length) == 0);
        CHECK(numbers[0] == CETOMUHI_COLLECT && numbers[1] == 0 && numbers[7] == 5);
    }
    CHECK(cetomuhi_read(zero_frame, sizeof zero_frame, SIZE_MAX, numbers, CETOMUHI_CALL_NUMBERS) ==
          0);
}

int main(void) {
    test_sizes();
    test_start();
    test_well_formed();
    test_takers();
    test_wrong_lengths();
    test_room();
    test_places();
    test_round_trips();
    test_no_calls();
    return end("boundary");
}
