#include "causes.h"

#include <inttypes.h>

#include "claim_causes.h"
#include "word_causes.h"
#include "words.h"

/* ---- Parties, the table, revocations ---- */

static const char *numbered_kind(const char *name)
{
    static const char *const kinds[][2] = {
        {"P", "party"},    {"to", "party"},   {"holder", "party"}, {"reg", "register"},
        {"a", "register"}, {"s", "register"}, {"d", "register"},
    };
    for (size_t at = 0; at < sizeof kinds / sizeof kinds[0]; at++)
        if (strcmp(kinds[at][0], name) == 0)
            return kinds[at][1];
    return NULL;
}

/* 4: the parties and registers that there are none of. */
static bool above_seven(text *to, const refused *it)
{
    char name[16];
    bool found = false;
    const char *layout = next_operand(operands_of(it->call->numbers[0]), name);
    for (; layout != NULL; layout = next_operand(layout, name)) {
        const char *const kind = numbered_kind(name);
        if (kind == NULL || operand(it->call, name) < CETOMUHI_PARTIES)
            continue;
        add(to, "%s no %s %" PRIu64, found ? " and" : "there is", kind, operand(it->call, name));
        found = true;
    }
    return found;
}

/* 5 */
static bool not_manager(text *to, const refused *it)
{
    add(to, "only party 0 may");
    return operand(it->call, "P") != 0;
}

/* The row with the cell that a call names as its base; the count of rows if there is none. */
static size_t named_row(const refused *it)
{
    const uint64_t base = operand(it->call, "base");
    size_t row = 0;
    for (; row < cetomuhi_row_count(it->state); row++) {
        const cetomuhi_reservation found = cetomuhi_reservation_at(it->state, row);
        if (base < (uint64_t)found.base + found.length)
            break;
    }
    return row;
}

static cetomuhi_reservation named_reservation(const refused *it)
{
    return cetomuhi_reservation_at(it->state, named_row(it));
}

/* 6 */
static bool not_held(text *to, const refused *it)
{
    const cetomuhi_reservation row = named_reservation(it);
    if (row.length == 0) {
        add(to, "the table ends at cell %zu",
            CETOMUHI_PAGE_CELLS * cetomuhi_page_count(it->state) - 1);
        return true;
    }
    if (row.base != operand(it->call, "base")) {
        add(to, "none begins there: it lies within ");
        add_cells(to, row.base, row.length);
        return true;
    }
    add(to, "it is ");
    add_standing(to, row);
    return row.holder != operand(it->call, "P");
}

static bool not_joined(text *to, const refused *it)
{
    const size_t row = named_row(it);
    const cetomuhi_reservation lower = cetomuhi_reservation_at(it->state, row);
    const cetomuhi_reservation upper = cetomuhi_reservation_at(it->state, row + 1);
    if (row + 1 >= cetomuhi_row_count(it->state)) {
        add(to, "no reservation lies above it");
        return true;
    }
    add(to, "it is ");
    add_standing(to, lower);
    add(to, ", and the next one ");
    add_standing(to, upper);
    return upper.holder != operand(it->call, "P") || lower.state != upper.state ||
           lower.state == CETOMUHI_REVOKING;
}

/* 7 */
static bool wrong_reservation(text *to, const refused *it)
{
    const cetomuhi_reservation row = named_reservation(it);
    if (it->call->numbers[0] == CETOMUHI_MERGE)
        return not_joined(to, it);
    add(to, "it is ");
    add_standing(to, row);
    return it->call->numbers[0] == CETOMUHI_REVOKE ? row.state == CETOMUHI_REVOKING
                                                   : row.state != CETOMUHI_OPEN;
}

/* 8 */
static bool split_length(text *to, const refused *it)
{
    const cetomuhi_reservation row = named_reservation(it);
    const uint64_t length = operand(it->call, "len");
    if (length == 0)
        add(to, "the length is 0");
    else
        add(to, "%" PRIu64 " is not below its %u cells", length, row.length);
    return length == 0 || length >= row.length;
}

/* 9 */
static bool table_full(text *to, const refused *it)
{
    add(to, "the table has %zu reservations", cetomuhi_row_count(it->state));
    return cetomuhi_row_count(it->state) == CETOMUHI_ROWS;
}

/* 10 */
static bool not_whole_pages(text *to, const refused *it)
{
    const cetomuhi_reservation row = named_reservation(it);
    const bool base = row.base % CETOMUHI_PAGE_CELLS != 0;
    const bool length = row.length % CETOMUHI_PAGE_CELLS != 0;
    if (base)
        add(to, "its base, %u, is no multiple of 16%s", row.base, length ? ", and " : "");
    if (length)
        add(to, "its length, %u, is no multiple of 16", row.length);
    return base || length;
}

/* 11 */
static bool revocation_order(text *to, const refused *it)
{
    const cetomuhi_revocation running = cetomuhi_revocation_of(it->state);
    const size_t all = CETOMUHI_PAGE_CELLS * cetomuhi_frame_count(it->state);
    const uint64_t kind = it->call->numbers[0];
    if (running.length == 0) {
        add(to, "no revocation runs");
        return kind != CETOMUHI_REVOKE;
    }
    if (kind == CETOMUHI_REVOKE) {
        add_cells(to, running.base, running.length);
        add(to, running.length == 1 ? " is being revoked" : " are being revoked");
        return true;
    }
    add(to, "%zu of %zu cells are left to sweep", all - running.place, all);
    return kind == CETOMUHI_COLLECT && running.place < all;
}

/* ---- Pages and frames ---- */

/* 12 */
static bool no_such_page(text *to, const refused *it)
{
    const char *const layout = operands_of(it->call->numbers[0]);
    const uint64_t page = operand(it->call, "page");
    const uint64_t frame = operand(it->call, "frame");
    const bool no_page = strstr(layout, "page") && page >= cetomuhi_page_count(it->state);
    const bool no_frame = strstr(layout, "frame") && frame >= cetomuhi_frame_count(it->state);
    add(to, "there is ");
    if (no_page)
        add(to, "no page %" PRIu64 "%s", page, no_frame ? " and " : "");
    if (no_frame)
        add(to, "no frame %" PRIu64, frame);
    return no_page || no_frame;
}

/* The page that 13 is about: of a revoke the first Mapped one in its range. */
static size_t wrong_page_of(const refused *it)
{
    const cetomuhi_reservation row = named_reservation(it);
    size_t page = row.base / CETOMUHI_PAGE_CELLS;
    const size_t end = page + row.length / CETOMUHI_PAGE_CELLS;
    if (it->call->numbers[0] != CETOMUHI_REVOKE)
        return operand(it->call, "page");
    while (page < end && cetomuhi_page_at(it->state, page).state != CETOMUHI_PAGE_MAPPED)
        page++;
    return page;
}

/* 13 */
static bool wrong_page(text *to, const refused *it)
{
    const size_t page = wrong_page_of(it);
    const cetomuhi_page found = cetomuhi_page_at(it->state, page);
    add(to, "page %zu is ", page);
    add_page_state(to, found);
    switch (it->call->numbers[0]) {
    case CETOMUHI_MAP:
        return found.state != CETOMUHI_PAGE_UNMAPPED;
    case CETOMUHI_UNMAP:
        return found.state != CETOMUHI_PAGE_MAPPED;
    default:
        return found.state == CETOMUHI_PAGE_MAPPED;
    }
}

/* 14 */
static bool wrong_frame(text *to, const refused *it)
{
    const uint64_t frame = operand(it->call, "frame");
    const uint8_t found = cetomuhi_frame_at(it->state, frame);
    add(to, "frame %" PRIu64 " is %s", frame, cetomuhi_frame_word(found));
    return found !=
           (it->call->numbers[0] == CETOMUHI_MAP ? CETOMUHI_FRAME_FREE : CETOMUHI_FRAME_DIRTY);
}

/* ---- By number ---- */

typedef bool cause(text *to, const refused *it);

static cause *const causes[] = {
    [CETOMUHI_REFUSED_ABOVE_SEVEN] = above_seven,
    [CETOMUHI_REFUSED_NOT_MANAGER] = not_manager,
    [CETOMUHI_REFUSED_NOT_HELD] = not_held,
    [CETOMUHI_REFUSED_WRONG_RESERVATION] = wrong_reservation,
    [CETOMUHI_REFUSED_SPLIT_LENGTH] = split_length,
    [CETOMUHI_REFUSED_TABLE_FULL] = table_full,
    [CETOMUHI_REFUSED_NOT_WHOLE_PAGES] = not_whole_pages,
    [CETOMUHI_REFUSED_REVOCATION_ORDER] = revocation_order,
    [CETOMUHI_REFUSED_NO_SUCH_PAGE] = no_such_page,
    [CETOMUHI_REFUSED_WRONG_PAGE] = wrong_page,
    [CETOMUHI_REFUSED_WRONG_FRAME] = wrong_frame,
    [CETOMUHI_REFUSED_UNTAGGED] = untagged,
    [CETOMUHI_REFUSED_NO_PERMISSION] = no_permission,
    [CETOMUHI_REFUSED_OUT_OF_BOUNDS] = out_of_bounds,
    [CETOMUHI_REFUSED_NOT_MAPPED] = not_mapped,
    [CETOMUHI_REFUSED_MAILBOX] = mailbox,
    [CETOMUHI_REFUSED_WRONG_PRINCIPAL] = wrong_principal,
    [CETOMUHI_REFUSED_CLAIM_LIMIT] = claim_limit,
    [CETOMUHI_REFUSED_CLAIMED] = claimed,
};

void add_cause(text *to, const cetomuhi_machine *before, const cetomuhi_call *call, uint64_t code)
{
    const refused it = {&before->state, call};
    text found = {"", 0};
    const bool known = code < sizeof causes / sizeof causes[0] && causes[code] != NULL;
    if (known && causes[code](&found, &it))
        add(to, "%s", found.bytes);
    else
        add(to, "%s (refusal %" PRIu64 "), of which the state before shows no cause",
            cetomuhi_refusal_words(code), code);
}

void add_start_cause(text *to, unsigned v, unsigned f)
{
    const bool wrong_v = v < 1 || v > CETOMUHI_PAGES;
    const bool wrong_f = f < 1 || f > CETOMUHI_FRAMES;
    if (wrong_v)
        add(to, "V is not 1 to 256%s", wrong_f ? ", and " : "");
    if (wrong_f)
        add(to, "F is not 1 to 128");
}
