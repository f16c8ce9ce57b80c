/* Runs a session over the library and prints its lines with the machine's state.
 *
 *     show_state each WHAT WIDTH <BYTES    after each line the state, or 'as before'
 *     show_state end WHAT WIDTH <BYTES     the state once, after the last line
 *
 * WHAT is `tables`, `map` or `both`, WIDTH the columns for a line of the map. The bytes are those
 * that the program `desk` reads. Its lines begin with a digit, those of a state with blanks. */
#include <inttypes.h>
#include <stdbool.h>
#include <stdio.h>
#include <stdlib.h>
#include <string.h>

#include "cetomuhi.h"
#include "draw_map.h"

#define INPUT 32768 /* the bytes of its input that a session looks at */
#define START 3     /* the bytes of V and F */
#define THING 20    /* columns for what a row is about */

/* ---- Rows: a table's word in its first row, what the row is about, what is said of it ---- */

static void row(const char **word)
{
    printf("    %-14s", *word);
    *word = "";
}

static void fill(int used)
{
    printf("%*s", used < THING ? THING - used : 1, "");
}

static int range(size_t first, size_t last)
{
    return first == last ? printf("%zu", first) : printf("%zu to %zu", first, last);
}

static int named_range(const char *name, size_t first, size_t last)
{
    const int used = printf(first == last ? "%s " : "%ss ", name);
    return used + range(first, last);
}

static int cells(size_t base, size_t length)
{
    return named_range("cell", base, base + length - 1);
}

/* ---- The tables ---- */

/* Who took a reservation that is not Open. A revoke of an Open one makes its taker 0, so that a
 * Revoking one with taker 0 is one that party 0 took, or that nobody did. */
static void show_taker(cetomuhi_reservation it)
{
    printf(it.state == CETOMUHI_TAKEN ? " by " : ", taken by ");
    if (it.taker == CETOMUHI_TAKER_SEVERAL)
        printf("several parties");
    else
        printf("party %u", it.taker);
    if (it.state == CETOMUHI_REVOKING && it.taker == 0)
        printf(" or by nobody");
}

static void show_reservations(const cetomuhi_state *state)
{
    const char *word = "reservations";
    for (size_t index = 0; index < cetomuhi_row_count(state); index++) {
        const cetomuhi_reservation it = cetomuhi_reservation_at(state, index);
        row(&word);
        fill(cells(it.base, it.length));
        printf("%s", cetomuhi_reservation_word(it.state));
        if (it.state == CETOMUHI_OPEN)
            printf(", held by party %u", it.holder);
        else
            show_taker(it);
        putchar('\n');
    }
}

static void show_revocation(const cetomuhi_state *state)
{
    const char *word = "revocation";
    const cetomuhi_revocation it = cetomuhi_revocation_of(state);
    if (it.length == 0)
        return;
    row(&word);
    fill(cells(it.base, it.length));
    printf("sweep place %u of %zu\n", it.place, CETOMUHI_PAGE_CELLS * cetomuhi_frame_count(state));
}

/* Whether a page is like the one below it: in the same state, and Mapped to the next frame. */
static bool page_goes_on(const cetomuhi_state *state, size_t page)
{
    const cetomuhi_page below = cetomuhi_page_at(state, page - 1);
    const cetomuhi_page it = cetomuhi_page_at(state, page);
    return it.state == below.state &&
           (it.state != CETOMUHI_PAGE_MAPPED || it.frame == below.frame + 1);
}

static void show_pages(const cetomuhi_state *state)
{
    const char *word = "pages";
    const size_t count = cetomuhi_page_count(state);
    for (size_t first = 0, next = 1; first < count; first = next++) {
        const cetomuhi_page it = cetomuhi_page_at(state, first);
        while (next < count && page_goes_on(state, next))
            next++;
        row(&word);
        fill(range(first, next - 1));
        printf("%s", cetomuhi_page_word(it.state));
        if (it.state == CETOMUHI_PAGE_MAPPED) {
            printf(" to ");
            named_range("frame", it.frame, it.frame + (next - 1 - first));
        }
        putchar('\n');
    }
}

static void show_frames(const cetomuhi_state *state)
{
    const char *word = "frames";
    const size_t count = cetomuhi_frame_count(state);
    for (size_t first = 0, next = 1; first < count; first = next++) {
        const uint8_t it = cetomuhi_frame_at(state, first);
        while (next < count && cetomuhi_frame_at(state, next) == it)
            next++;
        row(&word);
        fill(range(first, next - 1));
        printf("%s\n", cetomuhi_frame_word(it));
    }
}

/* A capability by its parts, or a number. */
static void show_word(cetomuhi_word word)
{
    static const char *const permissions[] = {"load", "store", "load capability",
                                              "store capability"};
    const cetomuhi_capability it = cetomuhi_capability_of(word.cell);
    if (word.tag == 0) {
        printf("number %" PRIu64 ", tag 0\n", word.cell);
        return;
    }
    printf("base %u, length %u, ", it.base, it.length);
    if (it.permissions == 0)
        printf("no permission, ");
    for (unsigned bit = 0; bit < 4; bit++)
        if (it.permissions >> bit & 1)
            printf("%s, ", permissions[bit]);
    printf("tag 1\n");
}

static void show_registers(const cetomuhi_state *state)
{
    const char *word = "registers";
    for (size_t party = 0; party < CETOMUHI_PARTIES; party++)
        for (size_t d = 0; d < CETOMUHI_REGISTERS; d++) {
            const cetomuhi_word it = cetomuhi_register_at(state, party, d);
            if (it.cell == 0 && it.tag == 0)
                continue;
            row(&word);
            fill(printf("party %zu register %zu", party, d));
            show_word(it);
        }
}

static void show_mailboxes(const cetomuhi_state *state)
{
    const char *word = "mailboxes";
    for (size_t party = 0; party < CETOMUHI_PARTIES; party++) {
        const cetomuhi_word it = cetomuhi_mailbox_at(state, party);
        if (it.tag == 0)
            continue;
        row(&word);
        fill(printf("party %zu", party));
        show_word(it);
    }
}

/* Principal 0 is the only one and claims no page, as at a start. */
static bool only_0(const cetomuhi_state *state)
{
    for (size_t p = 1; p < CETOMUHI_PRINCIPALS; p++)
        if (cetomuhi_principal_at(state, p).in_being)
            return false;
    return cetomuhi_principal_at(state, 0).spent == 0;
}

static void show_principals(const cetomuhi_state *state)
{
    const char *word = "principals";
    if (only_0(state))
        return;
    for (size_t p = 0; p < CETOMUHI_PRINCIPALS; p++) {
        const cetomuhi_principal it = cetomuhi_principal_at(state, p);
        if (!it.in_being)
            continue;
        row(&word);
        fill(printf("%zu", p));
        printf("held by party %u, ", it.holder);
        if (p > 0)
            printf("below %u, ", it.parent);
        printf("limit %u, unspent %u\n", it.spent + it.unspent, it.unspent);
    }
}

/* Pages beside each other with the same count of a principal in one row. */
static void show_claims(const cetomuhi_state *state)
{
    const char *word = "claims";
    for (size_t p = 0; p < CETOMUHI_PRINCIPALS; p++)
        for (size_t first = 0, next = 1; first < CETOMUHI_PAGES; first = next++) {
            const unsigned count = cetomuhi_count_at(state, p, first);
            if (count == 0)
                continue;
            while (next < CETOMUHI_PAGES && cetomuhi_count_at(state, p, next) == count)
                next++;
            row(&word);
            fill(named_range("page", first, next - 1));
            printf("principal %zu, count %u\n", p, count);
        }
}

static void show_tables(const cetomuhi_state *state)
{
    if (cetomuhi_page_count(state) == 0)
        printf("    all zero\n");
    show_reservations(state);
    show_revocation(state);
    show_pages(state);
    show_frames(state);
    show_registers(state);
    show_mailboxes(state);
    show_principals(state);
    show_claims(state);
}

/* ---- The session ---- */

/* What is shown of the state, and when. */
typedef struct view {
    bool each; /* after each line; else after the last */
    bool tables;
    bool map;
    size_t width; /* of the map */
} view;

static void show_state(const cetomuhi_state *state, const view *how)
{
    if (how->tables)
        show_tables(state);
    if (how->map)
        draw_map(state, how->width, how->tables);
}

static void show_answer(cetomuhi_answer answer)
{
    printf("%" PRIu64 " %" PRIu64 " %" PRIu64 "\n", answer.code, answer.number, answer.tag);
}

/* A start by the first bytes; V 0, which is refused, if they are cut short. */
static cetomuhi_answer start(cetomuhi_machine *machine, const uint8_t *input, size_t length)
{
    const unsigned v = length < START ? 0 : (unsigned)input[0] << 8 | input[1];
    const unsigned f = length < START ? 0 : input[2];
    const cetomuhi_answer answer = {cetomuhi_machine_start(machine, v, f), 0, 0, START};
    return answer;
}

static bool goes_on(cetomuhi_answer answer)
{
    return answer.code == CETOMUHI_GRANTED || answer.code > CETOMUHI_REFUSED_NO_COMMAND;
}

static void run(const uint8_t *input, size_t length, const view *how)
{
    static cetomuhi_machine machine;
    static cetomuhi_state before;
    cetomuhi_answer answer = start(&machine, input, length);
    size_t at = START;
    show_answer(answer);
    if (how->each)
        show_state(&machine.state, how);
    while (goes_on(answer) && at < length) {
        before = machine.state;
        answer = cetomuhi_machine_command(&machine, input, length, at);
        at += (size_t)answer.used;
        if (how->each)
            putchar('\n');
        show_answer(answer);
        if (how->each && memcmp(&before, &machine.state, sizeof before) == 0)
            printf("    as before\n");
        else if (how->each)
            show_state(&machine.state, how);
    }
    if (!how->each) {
        putchar('\n');
        show_state(&machine.state, how);
    }
}

static int fail(const char *words)
{
    fprintf(stderr, "desk: %s\n", words);
    return 1;
}

static bool same(const char *word, const char *other)
{
    return strcmp(word, other) == 0;
}

/* Whether the words of the command line are such as stand at the top. */
static bool read_words(view *how, int argc, char **argv)
{
    if (argc != 4)
        return false;
    how->each = same(argv[1], "each");
    how->tables = same(argv[2], "tables") || same(argv[2], "both");
    how->map = same(argv[2], "map") || same(argv[2], "both");
    how->width = strtoul(argv[3], NULL, 10);
    return (how->each || same(argv[1], "end")) && (how->tables || how->map);
}

int main(int argc, char **argv)
{
    static uint8_t input[INPUT];
    view how;
    if (!read_words(&how, argc, argv))
        return fail("show_state each|end tables|map|both WIDTH <BYTES");
    if (!cetomuhi_matches())
        return fail("the library is not the one that include/cetomuhi.h describes");
    const size_t length = fread(input, 1, sizeof input, stdin);
    if (ferror(stdin))
        return fail("standard input could not be read");
    run(input, length, &how);
    if (fflush(stdout) != 0 || ferror(stdout))
        return fail("standard output could not be written");
    return 0;
}
