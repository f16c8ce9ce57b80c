/* Draws a state in rows of characters on one scale: a character is a cell or a run of cells. The
 * rows of the table and of the pages run over the virtual cells, those of the frames and of the
 * sweep over the cells of lent memory. Which reservations lie in a run, the library says. */
#include "draw_map.h"

#include <stdio.h>

#define NARROWEST 40 /* columns of a line, at least */
#define MARGIN 12    /* columns before a row, with its word */
#define TICK 8       /* characters from one number of the ruler to the next */
#define WORDS 32     /* more than a number, or the sweep's place in words, takes */
#define ROW (CETOMUHI_PAGE_CELLS * CETOMUHI_PAGES + WORDS)

/* The rows as texts; the sweep's is empty if no revocation runs. */
typedef struct map {
    char bases[ROW];
    char cells[ROW];
    char pages[ROW];
    char frames[ROW];
    char sweep[ROW];
} map;

/* The columns for a row, and the cells of a character. */
typedef struct scale {
    size_t room;
    size_t cells;
} scale;

/* ---- The scale ---- */

static size_t virtual_cells(const cetomuhi_state *state)
{
    return CETOMUHI_PAGE_CELLS * cetomuhi_page_count(state);
}

static size_t lent_cells(const cetomuhi_state *state)
{
    return CETOMUHI_PAGE_CELLS * cetomuhi_frame_count(state);
}

/* How many characters stand for so many cells. */
static size_t characters(size_t cells, scale by)
{
    return (cells + by.cells - 1) / by.cells;
}

/* The least power of two with which the rows fit, the sweep's mark behind the last frame too: so a
 * page is whole characters, or a character whole pages. */
static scale scale_for(const cetomuhi_state *state, size_t width)
{
    scale by = {(width < NARROWEST ? NARROWEST : width) - MARGIN, 1};
    while (characters(virtual_cells(state), by) > by.room ||
           characters(lent_cells(state), by) + 1 > by.room)
        by.cells *= 2;
    return by;
}

/* The cells that a character stands for; the last one may have fewer than the others. */
typedef struct run {
    size_t first;
    size_t count;
} run;

static run run_at(size_t cells, scale by, size_t character)
{
    const size_t first = by.cells * character;
    const run it = {first, cells - first < by.cells ? cells - first : by.cells};
    return it;
}

/* ---- The rows ---- */

static char sign(const char *signs, size_t which)
{
    return which < strlen(signs) ? signs[which] : '?';
}

/* Of the reservation with this base. */
static char reservation_sign(const cetomuhi_state *state, uint16_t base)
{
    size_t row = 0;
    while (row + 1 < cetomuhi_row_count(state) && cetomuhi_reservation_at(state, row).base != base)
        row++;
    const cetomuhi_reservation it = cetomuhi_reservation_at(state, row);
    if (it.state == CETOMUHI_OPEN)
        return sign("01234567", it.holder);
    return sign(it.state == CETOMUHI_TAKEN ? "ABCDEFGHS" : "abcdefghs", it.taker);
}

/* Where reservations begin, and which they are. The library refuses no run of a state's table. */
static void draw_table(map *it, const cetomuhi_state *state, scale by)
{
    const size_t all = virtual_cells(state);
    size_t end = 0;
    for (size_t at = 0; at < characters(all, by); at++) {
        uint16_t bases[CETOMUHI_ROWS] = {0};
        uint64_t count = 0;
        const run cells = run_at(all, by, at);
        cetomuhi_sharing(state->rows, cetomuhi_row_count(state), cells.first, cells.count, bases,
                         CETOMUHI_ROWS, &count);
        const bool begins = count > 0 && bases[count - 1] >= cells.first;
        it->bases[at] = begins ? '|' : ' ';
        it->cells[at] = count == 1 ? reservation_sign(state, bases[0]) : sign("?/", count > 0);
        if (begins)
            end = at + 1;
    }
    it->bases[end] = '\0';
}

static char page_sign(const cetomuhi_state *state, size_t page)
{
    return sign(".-=", cetomuhi_page_at(state, page).state);
}

static char frame_sign(const cetomuhi_state *state, size_t frame)
{
    return sign("-.=", cetomuhi_frame_at(state, frame));
}

/* A row over the pages or the frames of so many cells. */
static void draw_row(char *row, const cetomuhi_state *state, size_t all, scale by,
                     char (*sign_of)(const cetomuhi_state *, size_t))
{
    for (size_t at = 0; at < characters(all, by); at++) {
        const run cells = run_at(all, by, at);
        const size_t last = (cells.first + cells.count - 1) / CETOMUHI_PAGE_CELLS;
        size_t which = cells.first / CETOMUHI_PAGE_CELLS;
        row[at] = sign_of(state, which);
        while (++which <= last)
            if (sign_of(state, which) != row[at])
                row[at] = '/';
    }
}

/* A mark below the next cell to sweep, or behind the last one; after it the place in words, or
 * before it where they do not fit. */
static void draw_sweep(map *it, const cetomuhi_state *state, scale by)
{
    const cetomuhi_revocation running = cetomuhi_revocation_of(state);
    const size_t all = lent_cells(state);
    const size_t mark = running.place < all ? running.place / by.cells : characters(all, by);
    char words[WORDS];
    const int length = snprintf(words, sizeof words, "%u of %zu", running.place, all);
    if (running.length == 0)
        return;
    if (mark + 2 + (size_t)length <= by.room)
        snprintf(it->sweep, sizeof it->sweep, "%*s^ %s", (int)mark, "", words);
    else
        snprintf(it->sweep, sizeof it->sweep, "%*s ^", (int)mark - 1, words);
}

static void draw(map *it, const cetomuhi_state *state, scale by)
{
    memset(it, 0, sizeof *it);
    draw_table(it, state, by);
    draw_row(it->pages, state, virtual_cells(state), by, page_sign);
    draw_row(it->frames, state, lent_cells(state), by, frame_sign);
    draw_sweep(it, state, by);
}

/* ---- What is printed ---- */

static void print_row(const char *word, const char *row)
{
    printf("    %-8s%s\n", word, row);
}

/* A cell's number, its first digit above the cell, at each eighth character. */
static void print_ruler(const cetomuhi_state *state, scale by)
{
    const size_t table = characters(virtual_cells(state), by);
    const size_t memory = characters(lent_cells(state), by);
    size_t used = 0;
    printf("%*s", MARGIN, "");
    for (size_t at = 0; at < table || at < memory; at += TICK) {
        char number[WORDS];
        const int length = snprintf(number, sizeof number, "%zu", by.cells * at);
        if (at + (size_t)length > by.room)
            break;
        used += (size_t)printf("%*s%s", (int)(at - used), "", number);
    }
    putchar('\n');
}

static void print_map(const map *it, const cetomuhi_state *state, scale by)
{
    print_ruler(state, by);
    print_row("bases", it->bases);
    print_row("cells", it->cells);
    print_row("pages", it->pages);
    print_row("frames", it->frames);
    if (it->sweep[0] != '\0')
        print_row("sweep", it->sweep);
}

/* A row of the legend. A line may end behind each of the items. */
static void print_items(const char *word, const char *const *items, scale by)
{
    size_t used = 0;
    printf("    %-8s", word);
    for (; *items != NULL; items++) {
        const bool last = items[1] == NULL;
        if (used > 0 && used + 1 + strlen(*items) + !last > by.room) {
            printf("\n%*s", MARGIN, "");
            used = 0;
        }
        used += (size_t)printf("%s%s%s", used > 0 ? " " : "", *items, last ? "" : ";");
    }
    putchar('\n');
}

/* What the signs mean, in items that fit the narrowest row. Of a Revoking reservation the state
 * does not tell whether party 0 had taken it or it was Open. */
static const struct {
    const char *word;
    const char *items[7];
} legend[] = {
    {"bases", {"| a reservation begins"}},
    {"cells",
     {"0 to 7 Open, by its holder", "A to H Taken, by 0 to 7", "S Taken, by several",
      "a to h, s Revoking likewise", "a also if it was Open", "/ several reservations"}},
    {"pages", {". Unmapped", "- Freed", "= Mapped", "/ several states"}},
    {"frames", {"cells of lent memory", ". Free", "- Dirty", "= Mapped", "/ several states"}},
    {"sweep", {"^ the next cell to sweep", "cells passed of all"}},
};

static void print_legend(const cetomuhi_state *state, scale by)
{
    char sizes[WORDS];
    char each[WORDS];
    const char *const items[] = {sizes, each, "a page and a frame are 16", NULL};
    snprintf(sizes, sizeof sizes, "V %zu, F %zu", cetomuhi_page_count(state),
             cetomuhi_frame_count(state));
    snprintf(each, sizeof each, "a character is %zu cell%s", by.cells, by.cells == 1 ? "" : "s");
    print_items("map", items, by);
    for (size_t at = 0; at < sizeof legend / sizeof legend[0]; at++)
        print_items(legend[at].word, legend[at].items, by);
    putchar('\n');
}

void draw_map(const cetomuhi_state *state, size_t width, bool below_tables)
{
    static map now;
    static map last;
    static bool drawn;
    const scale by = scale_for(state, width);
    if (cetomuhi_page_count(state) == 0) {
        printf("%s", below_tables ? "" : "    all zero\n");
        return;
    }
    draw(&now, state, by);
    if (drawn && memcmp(&now, &last, sizeof now) == 0) {
        printf("%s", below_tables ? "    map     as before\n" : "    as before\n");
        return;
    }
    if (below_tables)
        putchar('\n');
    if (!drawn)
        print_legend(state, by);
    print_map(&now, state, by);
    last = now;
    drawn = true;
}
