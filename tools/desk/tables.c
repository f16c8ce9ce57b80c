#include "tables.h"

#include <stdio.h>

#include "memory.h"
#include "words.h"

static const cetomuhi_state *now(const view *of)
{
    return &of->is->state;
}

static const cetomuhi_state *before(const view *of)
{
    return of->was == NULL ? NULL : &of->was->state;
}

/* ---- Reservations and a revocation ---- */

static bool has_row(const cetomuhi_state *state, uint64_t row)
{
    for (size_t index = 0; index < cetomuhi_row_count(state) && index < CETOMUHI_ROWS; index++)
        if (state->rows[index] == row)
            return true;
    return false;
}

/* The rows tile the cells, so that those which are new say what became of the others. */
static void show_reservations(const view *of)
{
    const char *word = "reservations";
    for (size_t index = 0; index < cetomuhi_row_count(now(of)); index++) {
        const cetomuhi_reservation it = cetomuhi_reservation_at(now(of), index);
        text thing = {"", 0}, said = {"", 0};
        if (before(of) != NULL && has_row(before(of), now(of)->rows[index]))
            continue;
        add_cells(&thing, it.base, it.length);
        add_standing(&said, it);
        put_row(&word, &thing, &said, of->width);
    }
}

static void show_revocation(const view *of)
{
    const char *word = "revocation";
    text thing = {"", 0}, said = {"", 0};
    const cetomuhi_revocation it = cetomuhi_revocation_of(now(of));
    const cetomuhi_revocation none = {0, 0, 0};
    const cetomuhi_revocation was = of->was == NULL ? none : cetomuhi_revocation_of(before(of));
    if (it.base == was.base && it.length == was.length && it.place == was.place)
        return;
    if (it.length == 0) {
        add_cells(&thing, was.base, was.length);
        add(&said, "has ended");
    } else {
        add_cells(&thing, it.base, it.length);
        add(&said, "sweep place %u of %zu", it.place,
            CETOMUHI_PAGE_CELLS * cetomuhi_frame_count(now(of)));
    }
    put_row(&word, &thing, &said, of->width);
}

/* ---- Pages and frames: neighbours that are alike in one row ---- */

static bool shows_page(const view *of, size_t page)
{
    return of->was == NULL || now(of)->pages[page] != before(of)->pages[page];
}

/* Whether a page is like the one below it: in the same state, and Mapped to the next frame. */
static bool page_goes_on(const view *of, size_t page)
{
    const cetomuhi_page below = cetomuhi_page_at(now(of), page - 1);
    const cetomuhi_page it = cetomuhi_page_at(now(of), page);
    return shows_page(of, page) && it.state == below.state &&
           (it.state != CETOMUHI_PAGE_MAPPED || it.frame == below.frame + 1);
}

static void show_pages(const view *of)
{
    const char *word = "pages";
    const size_t count = cetomuhi_page_count(now(of));
    for (size_t first = 0, next = 1; first < count; first = next++) {
        const cetomuhi_page it = cetomuhi_page_at(now(of), first);
        text thing = {"", 0}, said = {"", 0};
        if (!shows_page(of, first))
            continue;
        while (next < count && page_goes_on(of, next))
            next++;
        add_range(&thing, first, next - 1);
        add(&said, "%s", cetomuhi_page_word(it.state));
        if (it.state == CETOMUHI_PAGE_MAPPED) {
            add(&said, " to ");
            add_named_range(&said, "frame", it.frame, it.frame + (next - 1 - first));
        }
        put_row(&word, &thing, &said, of->width);
    }
}

static bool shows_frame(const view *of, size_t frame)
{
    return of->was == NULL || now(of)->frames[frame] != before(of)->frames[frame];
}

static void show_frames(const view *of)
{
    const char *word = "frames";
    const size_t count = cetomuhi_frame_count(now(of));
    for (size_t first = 0, next = 1; first < count; first = next++) {
        const uint8_t it = cetomuhi_frame_at(now(of), first);
        text thing = {"", 0}, said = {"", 0};
        if (!shows_frame(of, first))
            continue;
        while (next < count && shows_frame(of, next) && cetomuhi_frame_at(now(of), next) == it)
            next++;
        add_range(&thing, first, next - 1);
        add(&said, "%s", cetomuhi_frame_word(it));
        put_row(&word, &thing, &said, of->width);
    }
}

/* ---- Registers and mailboxes ---- */

static bool same_word(cetomuhi_word word, cetomuhi_word other)
{
    return word.cell == other.cell && word.tag == other.tag;
}

static void show_registers(const view *of)
{
    const cetomuhi_word nothing = {0, 0};
    const char *title = "registers";
    for (size_t party = 0; party < CETOMUHI_PARTIES; party++)
        for (size_t d = 0; d < CETOMUHI_REGISTERS; d++) {
            const cetomuhi_word it = cetomuhi_register_at(now(of), party, d);
            const cetomuhi_word was =
                of->was == NULL ? nothing : cetomuhi_register_at(before(of), party, d);
            text thing = {"", 0}, said = {"", 0};
            if (same_word(it, was))
                continue;
            add(&thing, "party %zu register %zu", party, d);
            add_word(&said, it, now(of));
            put_row(&title, &thing, &said, of->width);
        }
}

static void show_mailboxes(const view *of)
{
    const cetomuhi_word nothing = {0, 0};
    const char *title = "mailboxes";
    for (size_t party = 0; party < CETOMUHI_PARTIES; party++) {
        const cetomuhi_word it = cetomuhi_mailbox_at(now(of), party);
        const cetomuhi_word was =
            of->was == NULL ? nothing : cetomuhi_mailbox_at(before(of), party);
        text thing = {"", 0}, said = {"", 0};
        if (same_word(it, was))
            continue;
        add(&thing, "party %zu", party);
        if (it.tag == 0)
            add(&said, "empty");
        else
            add_word(&said, it, now(of));
        put_row(&title, &thing, &said, of->width);
    }
}

/* ---- Principals and claims ---- */

/* Principal 0 is the only one and claims no page, as at a start. */
static bool only_0(const cetomuhi_state *state)
{
    for (size_t p = 1; p < CETOMUHI_PRINCIPALS; p++)
        if (cetomuhi_principal_at(state, p).in_being)
            return false;
    return cetomuhi_principal_at(state, 0).spent == 0;
}

static bool same_principal(cetomuhi_principal it, cetomuhi_principal was)
{
    return it.in_being == was.in_being && it.holder == was.holder && it.parent == was.parent &&
           it.spent == was.spent && it.unspent == was.unspent;
}

static void add_principal(text *said, size_t p, cetomuhi_principal it)
{
    if (!it.in_being) {
        add(said, "not in being");
        return;
    }
    add(said, "held by party %u, ", it.holder);
    if (p > 0)
        add(said, "below %u, ", it.parent);
    add(said, "limit %u, unspent %u", it.spent + it.unspent, it.unspent);
}

static void show_principals(const view *of)
{
    const cetomuhi_principal nobody = {false, 0, 0, 0, 0};
    const char *word = "principals";
    if (of->was == NULL && only_0(now(of)))
        return;
    for (size_t p = 0; p < CETOMUHI_PRINCIPALS; p++) {
        const cetomuhi_principal it = cetomuhi_principal_at(now(of), p);
        const cetomuhi_principal was =
            of->was == NULL ? nobody : cetomuhi_principal_at(before(of), p);
        text thing = {"", 0}, said = {"", 0};
        if (same_principal(it, was))
            continue;
        add(&thing, "%zu", p);
        add_principal(&said, p, it);
        put_row(&word, &thing, &said, of->width);
    }
}

static bool shows_count(const view *of, size_t principal, size_t page)
{
    const unsigned was = of->was == NULL ? 0 : cetomuhi_count_at(before(of), principal, page);
    return cetomuhi_count_at(now(of), principal, page) != was;
}

/* Pages beside each other with the same count of a principal in one row. */
static void show_claims(const view *of)
{
    const char *word = "claims";
    for (size_t p = 0; p < CETOMUHI_PRINCIPALS; p++)
        for (size_t first = 0, next = 1; first < CETOMUHI_PAGES; first = next++) {
            const unsigned count = cetomuhi_count_at(now(of), p, first);
            text thing = {"", 0}, said = {"", 0};
            if (!shows_count(of, p, first))
                continue;
            while (next < CETOMUHI_PAGES && shows_count(of, p, next) &&
                   cetomuhi_count_at(now(of), p, next) == count)
                next++;
            add_named_range(&thing, "page", first, next - 1);
            add(&said, "principal %zu, count %u", p, count);
            put_row(&word, &thing, &said, of->width);
        }
}

void show_tables(const view *of)
{
    if (cetomuhi_page_count(now(of)) == 0)
        printf("    all zero\n");
    show_reservations(of);
    show_revocation(of);
    show_pages(of);
    show_frames(of);
    show_registers(of);
    show_mailboxes(of);
    show_principals(of);
    show_claims(of);
    show_memory(of);
}

void show_cleared(const cetomuhi_machine *was, const cetomuhi_machine *is, size_t width)
{
    const char *title = "cleared";
    show_cleared_cells(&title, was, is, width);
    for (size_t party = 0; party < CETOMUHI_PARTIES; party++)
        for (size_t d = 0; d < CETOMUHI_REGISTERS; d++) {
            const cetomuhi_word word = cetomuhi_register_at(&was->state, party, d);
            text thing = {"", 0}, said = {"", 0};
            if (word.tag == 0 || cetomuhi_register_at(&is->state, party, d).tag != 0)
                continue;
            add(&thing, "party %zu register %zu", party, d);
            add_word(&said, word, &was->state);
            put_row(&title, &thing, &said, width);
        }
    for (size_t party = 0; party < CETOMUHI_PARTIES; party++) {
        const cetomuhi_word word = cetomuhi_mailbox_at(&was->state, party);
        text thing = {"", 0}, said = {"", 0};
        if (word.tag == 0 || cetomuhi_mailbox_at(&is->state, party).tag != 0)
            continue;
        add(&thing, "party %zu mailbox", party);
        add_word(&said, word, &was->state);
        put_row(&title, &thing, &said, width);
    }
}
