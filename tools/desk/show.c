#include "show.h"

#include <inttypes.h>
#include <stdio.h>

#include "draw_map.h"
#include "tables.h"

#define ROOM_FOR_WORDS 24 /* columns beside a line for its call in words, at least */
#define BELOW 4           /* columns before the words where they stand below the line */

static void add_line(text *to, cetomuhi_answer answer)
{
    add(to, "%" PRIu64 " %" PRIu64 " %" PRIu64, answer.code, answer.number, answer.tag);
}

/* The columns of the longest line. */
static size_t longest_line(const session *of)
{
    size_t longest = 0;
    for (size_t which = 0; which < of->count; which++) {
        text line = {"", 0};
        add_line(&line, of->steps[which].answer);
        if (line.length > longest)
            longest = line.length;
    }
    return longest;
}

/* The last step's line, with its call in words beside it, or below it where there is no room. */
static void show_line(const session *of, const manner *how, size_t longest)
{
    text line = {"", 0}, words = {"", 0};
    const size_t column = longest + 2;
    add_line(&line, of->steps[of->count - 1].answer);
    if (!how->explain) {
        printf("%s\n", line.bytes);
        return;
    }
    add_step(&words, of);
    if (how->width < column + ROOM_FOR_WORDS) {
        printf("%s\n%*s", line.bytes, BELOW, "");
        put_folded(words.bytes, BELOW, BELOW, how->width);
        return;
    }
    printf("%-*s", (int)column, line.bytes);
    put_folded(words.bytes, column, column, how->width);
}

/* Whether the last step was a sweep or a collect, which clear tags. */
static bool clears(const session *of)
{
    const uint8_t byte = of->file->bytes[of->steps[of->count - 1].at];
    return of->count > 1 && (byte == CETOMUHI_SWEEP || byte == CETOMUHI_COLLECT);
}

static void show_state(const session *of, const manner *how)
{
    const bool changes = how->changes && of->count > 1;
    const view it = {&of->after, changes ? &of->before : NULL, how->width};
    if (how->tables)
        show_tables(&it);
    if (how->tables && how->each && clears(of))
        show_cleared(&of->before, &of->after, how->width);
    if (how->map)
        draw_map(&of->after.state, how->map_width, how->tables);
}

static bool changed_nothing(const session *of)
{
    return of->count > 1 && memcmp(&of->before, &of->after, sizeof of->after) == 0;
}

void show_session(session *of, const manner *how)
{
    const size_t longest = longest_line(of);
    const bool shows = how->tables || how->map;
    rewind_session(of, of->file);
    while (next_step(of)) {
        if (shows && how->each && of->count > 1)
            putchar('\n');
        show_line(of, how, longest);
        if (shows && how->each && changed_nothing(of))
            printf("    as before\n");
        else if (shows && how->each)
            show_state(of, how);
    }
    if (shows && !how->each) {
        putchar('\n');
        show_state(of, how);
    }
}
