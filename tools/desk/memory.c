#include "memory.h"

#include "words.h"

#define CELLS CETOMUHI_PAGE_CELLS

static cetomuhi_word word_at(const cetomuhi_machine *machine, size_t place)
{
    const cetomuhi_word word = {machine->cells[place], machine->tags[place] != 0};
    return word;
}

static bool same(cetomuhi_word word, cetomuhi_word other)
{
    return word.cell == other.cell && word.tag == other.tag;
}

/* Which cells are shown, and of which machine. */
typedef struct shown {
    const cetomuhi_machine *words;
    const cetomuhi_machine *other;
    bool (*is_shown)(const struct shown *, size_t place);
} shown;

static bool is_used(const shown *of, size_t place)
{
    const cetomuhi_word word = word_at(of->words, place);
    return word.cell != 0 || word.tag != 0;
}

static bool has_changed(const shown *of, size_t place)
{
    return !same(word_at(of->words, place), word_at(of->other, place));
}

static bool is_cleared(const shown *of, size_t place)
{
    return of->words->tags[place] != 0 && of->other->tags[place] == 0;
}

/* The cells of a frame; `name` is what they are called, and the number of the first one. */
static void show_frame(const char **title, const shown *of, size_t frame, const char *name,
                       size_t first_cell, size_t width)
{
    for (size_t first = 0, next = 1; first < CELLS; first = next++) {
        const cetomuhi_word word = word_at(of->words, CELLS * frame + first);
        text thing = {"", 0}, said = {"", 0};
        if (!of->is_shown(of, CELLS * frame + first))
            continue;
        while (next < CELLS && of->is_shown(of, CELLS * frame + next) &&
               same(word_at(of->words, CELLS * frame + next), word))
            next++;
        add_named_range(&thing, name, first_cell + first, first_cell + next - 1);
        add_word(&said, word, &of->words->state);
        put_row(title, &thing, &said, width);
    }
}

/* The Mapped frames in the order of their pages. */
static void show_mapped(const char **title, const shown *of, size_t width)
{
    const cetomuhi_state *const state = &of->words->state;
    for (size_t page = 0; page < cetomuhi_page_count(state); page++) {
        const cetomuhi_page it = cetomuhi_page_at(state, page);
        if (it.state == CETOMUHI_PAGE_MAPPED && it.frame < CETOMUHI_FRAMES)
            show_frame(title, of, it.frame, "cell", CELLS * page, width);
    }
}

/* A frame that is not Mapped has no virtual cells. */
static void show_unmapped(const char **title, const shown *of, size_t width)
{
    const cetomuhi_state *const state = &of->words->state;
    for (size_t frame = 0; frame < cetomuhi_frame_count(state); frame++) {
        text name = {"", 0};
        add(&name, "frame %zu cell", frame);
        if (cetomuhi_frame_at(state, frame) != CETOMUHI_FRAME_MAPPED)
            show_frame(title, of, frame, name.bytes, 0, width);
    }
}

void show_memory(const view *of)
{
    const char *title = "memory";
    const shown used = {of->is, NULL, is_used};
    const shown changed = {of->is, of->was, has_changed};
    show_mapped(&title, of->was == NULL ? &used : &changed, of->width);
    if (of->was != NULL)
        show_unmapped(&title, &changed, of->width);
}

void show_cleared_cells(const char **title, const cetomuhi_machine *before,
                        const cetomuhi_machine *after, size_t width)
{
    const shown cleared = {before, after, is_cleared};
    show_mapped(title, &cleared, width);
}
