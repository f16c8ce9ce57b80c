/* Check 2: which pages and frames may show what is known, and a page that is mapped shows nothing
 * of what the frame held. */
#include <inttypes.h>

#include "orders.h"
#include "seen.h"

enum { MAPPED, DIRTY, FREED, LOADS, HELD };

static const uint64_t headword = UINT64_C(0x48454144574F5244); /* the letters HEADWORD */

/* The document's states of pages and frames, by the calls that were granted. */
static uint8_t pages[CETOMUHI_PAGES];
static uint8_t frames[CETOMUHI_FRAMES];
static revocation revoked;

static void begin(trial *t)
{
    (void)t;
    memset(pages, CETOMUHI_PAGE_UNMAPPED, sizeof pages);
    memset(frames, CETOMUHI_FRAME_DIRTY, sizeof frames);
    revoked = (revocation){false, {0, 0}, 0};
}

/* What the call must be answered with; V and F are the machine's. */
static uint64_t code_of_map(const trial *t, uint64_t page, uint64_t frame)
{
    if (page >= cetomuhi_page_count(&t->before.state) ||
        frame >= cetomuhi_frame_count(&t->before.state))
        return CETOMUHI_REFUSED_NO_SUCH_PAGE;
    if (pages[page] != CETOMUHI_PAGE_UNMAPPED)
        return CETOMUHI_REFUSED_WRONG_PAGE;
    return frames[frame] == CETOMUHI_FRAME_FREE ? 0 : CETOMUHI_REFUSED_WRONG_FRAME;
}

static bool is_blank(const trial *t, uint64_t frame)
{
    for (uint64_t at = CELLS * frame; at < CELLS * (frame + 1); at++)
        if (t->machine.cells[at] != 0 || t->machine.tags[at] != 0)
            return false;
    return true;
}

static void watch_map(trial *t, uint64_t page, uint64_t frame, uint64_t came)
{
    const uint64_t code = code_of_map(t, page, frame);
    if (came != code)
        fail(t, "a map is answered with %" PRIu64 " and not %" PRIu64 " (%s)", came, code,
             cetomuhi_refusal_words(code));
    if (code == CETOMUHI_REFUSED_WRONG_FRAME && frames[frame] == CETOMUHI_FRAME_DIRTY)
        tally(t, DIRTY);
    if (code == CETOMUHI_REFUSED_WRONG_PAGE && pages[page] == CETOMUHI_PAGE_FREED)
        tally(t, FREED);
    if (code != 0)
        return;
    if (lent_place(&t->machine.state, CELLS * page) != (long)(CELLS * frame))
        fail(t, "page %" PRIu64 " does not show frame %" PRIu64, page, frame);
    if (!is_blank(t, frame))
        fail(t, "page %" PRIu64 " shows what frame %" PRIu64 " held before", page, frame);
    pages[page] = CETOMUHI_PAGE_MAPPED;
    frames[frame] = CETOMUHI_FRAME_MAPPED;
    tally(t, MAPPED);
}

static void watch_unmap(trial *t, uint64_t page)
{
    const long at = lent_place(&t->before.state, CELLS * page);
    if (at < 0)
        fail(t, "a page is unmapped that shows no frame");
    if (!is_blank(t, (uint64_t)at / CELLS))
        tally(t, HELD);
    pages[page] = CETOMUHI_PAGE_FREED;
    frames[at / CELLS] = CETOMUHI_FRAME_DIRTY;
}

static void set_pages(range cells, uint8_t state)
{
    for (uint64_t page = cells.base / CELLS; page < (cells.base + cells.length) / CELLS; page++)
        pages[page] = state;
}

static void watch(trial *t, const cetomuhi_call *call, cetomuhi_answer answer)
{
    const uint64_t first = call->numbers[2];
    if (call->numbers[0] == CETOMUHI_MAP && answer.code != 4 && answer.code != 5)
        watch_map(t, first, call->numbers[3], answer.code);
    if (was_granted(call, answer, CETOMUHI_UNMAP))
        watch_unmap(t, first);
    if (was_granted(call, answer, CETOMUHI_ZERO)) {
        if (first >= CETOMUHI_FRAMES || frames[first] != CETOMUHI_FRAME_DIRTY)
            fail(t, "a frame is cleared that is not Dirty");
        if (!is_blank(t, first))
            fail(t, "frame %" PRIu64 " was cleared and is not blank", first);
        frames[first] = CETOMUHI_FRAME_FREE;
    }
    follow(&revoked, t, call, answer);
    if (was_granted(call, answer, CETOMUHI_REVOKE))
        set_pages(revoked.cells, CETOMUHI_PAGE_FREED);
    if (was_granted(call, answer, CETOMUHI_COLLECT))
        set_pages(revoked.cells, CETOMUHI_PAGE_UNMAPPED);
}

/* Two pages of house 1 and house 2, and house 1 fills its own with headwords and a capability. */
static void fill_page(trial *t)
{
    start(t, 2, 2);
    expect(t, cetomuhi_map(0, 0, 0), 14); /* after a start frames are Dirty */
    set_up(t, cetomuhi_zero(0, 0));
    expect(t, cetomuhi_zero(0, 0), 14);
    set_up(t, cetomuhi_map(0, 0, 0));
    expect(t, cetomuhi_zero(0, 0), 14);
    expect(t, cetomuhi_map(0, 1, 0), 14);
    set_up(t, cetomuhi_split(0, 0, 16));
    set_up(t, cetomuhi_give(0, 0, 1));
    set_up(t, cetomuhi_give(0, 16, 2));
    set_up(t, cetomuhi_take_masked(1, 0, 0, 15));
    set_up(t, cetomuhi_take_masked(2, 16, 0, 15));
    set_up(t, cetomuhi_number(1, 1, headword));
    for (uint64_t off = 0; off < CELLS; off++)
        set_up(t, cetomuhi_store(1, 0, off, off == 9 ? 0 : 1));
}

/* Unmap an expander's page, give its frame to someone else, read it. */
static void read_frame(trial *t)
{
    fill_page(t);
    expect_answer(t, cetomuhi_load(1, 0, 4, 2), headword, 0);
    expect_answer(t, cetomuhi_load(1, 0, 9, 2), capability(0, 16, 15), 1);
    set_up(t, cetomuhi_unmap(0, 0));
    expect(t, cetomuhi_unmap(0, 0), 13);
    expect(t, cetomuhi_load(1, 0, 4, 2), 18);
    expect(t, cetomuhi_map(0, 1, 0), 14);
    set_up(t, cetomuhi_zero(0, 0));
    set_up(t, cetomuhi_map(0, 1, 0));
    for (uint64_t off = 0; off < CELLS; off++)
        expect_answer(t, cetomuhi_load(2, 0, off, 1), 0, 0);
}

/* The page stays Freed until a collect covers it, though another frame is Free. */
static void read_page(trial *t)
{
    fill_page(t);
    set_up(t, cetomuhi_zero(0, 1));
    set_up(t, cetomuhi_unmap(0, 0));
    expect(t, cetomuhi_map(0, 0, 1), 13);
    set_up(t, cetomuhi_revoke(0, 0));
    expect(t, cetomuhi_map(0, 0, 1), 13);
    set_up(t, cetomuhi_sweep(0, 32));
    expect(t, cetomuhi_map(0, 0, 1), 13);
    set_up(t, cetomuhi_collect(0));
    expect(t, cetomuhi_map(0, 0, 0), 14);
    set_up(t, cetomuhi_zero(0, 0));
    set_up(t, cetomuhi_map(0, 0, 0));
    expect(t, cetomuhi_load(1, 0, 4, 2), 15);
    set_up(t, cetomuhi_give(0, 0, 2));
    set_up(t, cetomuhi_take(2, 0, 3));
    for (uint64_t off = 0; off < CELLS; off++)
        expect_answer(t, cetomuhi_load(2, 3, off, 1), 0, 0);
}

static void in_fixed_order(trial *t)
{
    read_frame(t);
    read_page(t);
}

/* Whoever reaches the page loads a cell of it, right after it was mapped. */
static void load_new_page(trial *t, uint64_t page)
{
    const cetomuhi_state *state = &t->machine.state;
    const range cells = {CELLS * page, CELLS};
    for (size_t at = 0; at < CETOMUHI_WORDS; at++) {
        const cetomuhi_capability it = cetomuhi_capability_of(state->words[at]);
        if (state->marks[at] == 0 || (it.permissions & CETOMUHI_MAY_LOAD) == 0 ||
            !is_in(cells, it.base))
            continue;
        const uint64_t off = below(t, it.length);
        if (!is_in(cells, it.base + off))
            continue;
        expect_answer(t, cetomuhi_load(at / CETOMUHI_REGISTERS, at % CETOMUHI_REGISTERS, off, 7), 0,
                      0);
        tally(t, LOADS);
        return;
    }
}

static void in_random_order(trial *t)
{
    static const weights often = {
        [CETOMUHI_STORE] = 8,  [CETOMUHI_UNMAP] = 4, [CETOMUHI_MAP] = 8,
        [CETOMUHI_ZERO] = 3,   [CETOMUHI_TAKE] = 2,  [CETOMUHI_TAKE_MASKED] = 2,
        [CETOMUHI_REVOKE] = 3, [CETOMUHI_SWEEP] = 2, [CETOMUHI_COLLECT] = 3,
        [CETOMUHI_NUMBER] = 3, [CETOMUHI_GRANT] = 1, [CETOMUHI_RECEIVE] = 1,
        [CETOMUHI_NARROW] = 1};
    const uint64_t v = 2 + below(t, 4);
    settle(t, v, 1 + below(t, v), 3);
    for (int i = 0; i < 45; i++) {
        const cetomuhi_call call = likely_call(t, often);
        const cetomuhi_answer answer = make(t, call);
        if (was_granted(&call, answer, CETOMUHI_MAP))
            load_new_page(t, call.numbers[2]);
        if (i == 15 && begin_revocation(t))
            end_revocation(t);
    }
}

const check crosses_over = {
    "crosses-over",
    "Unmap an expander's page, give its frame to someone else, read it. Catches headwords that "
    "cross over.",
    "party 1 fills a page with headwords, the page is unmapped, and party 2 reads the frame under "
    "another page and under the same one; before the frame is cleared and before a collect both "
    "are refused",
    "stores, unmaps, clearings, maps, takes and revocations of 2 to 5 pages and up to 5 frames, "
    "and "
    "a load from each page that was mapped",
    "a page that was just mapped shows a number other than 0 or a tag; a Dirty frame is mapped; an "
    "unmapped page is mapped again before a collect covers it",
    {"maps granted", "maps of a Dirty frame refused", "maps of a Freed page refused",
     "loads from a new page", "pages unmapped that held something"},
    begin,
    watch,
    in_fixed_order,
    in_random_order,
};
