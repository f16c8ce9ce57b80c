/* A small composition server: a manager, three dictionary houses (expander, hyphenator, fit check)
 * and a loader share one machine. The loader's entries are taken back while the others go on, and
 * it tries to write with its old capability. Two houses share a page, which stays until both have
 * let go. Each call is one line: `code number tag` as `desk` prints it, who does what, and the
 * answer in words.
 *
 *   cc examples/scene.c $(pkg-config --cflags --libs cetomuhi) -o scene && ./scene */
#include <cetomuhi.h>

#include <inttypes.h>
#include <stdio.h>
#include <stdlib.h>

enum { MANAGER, EXPANDER, HYPHENATOR, FIT_CHECK, LOADER };
enum { PAGES = 5, FRAMES = 5, CELLS = CETOMUHI_PAGE_CELLS * FRAMES, QUEUE = 32 };

/* The first cells of the five ranges, of one page each. */
enum { NOTES = 0, EXPANDED = 16, HYPHENATED = 32, CHECKED = 48, ENTRIES = 64 };

/* The server owns the state and the memory that it lends. */
struct server {
    cetomuhi_state state;
    uint64_t cells[CELLS];
    uint8_t tags[CELLS];
};

struct step {
    cetomuhi_call call;
    const char *sentence;
};

#define PLAY(play, server, steps) play(server, steps, sizeof(steps) / sizeof(steps)[0])

static cetomuhi_memory lent(struct server *server) {
    const cetomuhi_memory memory = {server->cells, server->tags, CELLS};
    return memory;
}

static void fail(const char *words) {
    fprintf(stderr, "scene: %s\n", words);
    exit(1);
}

/* What a granted call of this kind answers, in words. */
static void tell_granted(uint64_t kind, cetomuhi_answer answer) {
    printf("granted");
    switch (kind) {
    case CETOMUHI_TAKE:
    case CETOMUHI_TAKE_MASKED:
        printf(", %" PRIu64 " cells", answer.number);
        break;
    case CETOMUHI_SWEEP:
        printf(", %" PRIu64 " cells left", answer.number);
        break;
    case CETOMUHI_LOAD:
    case CETOMUHI_RECEIVE:
        printf(answer.tag ? ", capability %" PRIu64 : ", %" PRIu64, answer.number);
        break;
    default:
        break;
    }
}

static void tell(uint64_t kind, const char *sentence, cetomuhi_answer answer) {
    char line[64];
    snprintf(line, sizeof line, "%" PRIu64 " %" PRIu64 " %" PRIu64, answer.code, answer.number,
             answer.tag);
    printf("%-15s  %s: ", line, sentence);
    if (answer.code == CETOMUHI_GRANTED)
        tell_granted(kind, answer);
    else
        printf("refused, %s", cetomuhi_refusal_words(answer.code));
    printf("\n");
}

/* Makes the calls one at a time. */
static void one_by_one(struct server *server, const struct step *steps, size_t count) {
    for (size_t i = 0; i < count; i++) {
        const cetomuhi_answer answer =
            cetomuhi_state_call(&server->state, lent(server), steps[i].call);
        tell(steps[i].call.numbers[0], steps[i].sentence, answer);
    }
}

/* Writes the calls into a queue of bytes and does them in one run, which tests the state once. */
static void in_one_run(struct server *server, const struct step *steps, size_t count) {
    uint8_t bytes[QUEUE * CETOMUHI_COMMAND_BYTES];
    cetomuhi_answer answers[QUEUE];
    size_t length = 0;
    size_t at = 0;
    for (size_t i = 0; i < count; i++)
        length += cetomuhi_call_write(steps[i].call, bytes + length, sizeof bytes - length);
    const size_t done =
        cetomuhi_state_commands(&server->state, lent(server), bytes, length, &at, answers, QUEUE);
    for (size_t i = 0; i < done; i++)
        tell(steps[i].call.numbers[0], steps[i].sentence, answers[i]);
    if (done != count || at != length)
        fail("the run ended early");
}

static void start(struct server *server) {
    const uint8_t code = cetomuhi_state_start(&server->state, PAGES, FRAMES);
    const cetomuhi_answer answer = {code, 0, 0, 0};
    tell(0, "The machine starts with 5 pages and 5 frames", answer);
}

static void set_up(struct server *server) {
    const struct step steps[] = {
        {cetomuhi_zero(MANAGER, 0), "The manager zeroes frame 0"},
        {cetomuhi_zero(MANAGER, 1), "The manager zeroes frame 1"},
        {cetomuhi_zero(MANAGER, 2), "The manager zeroes frame 2"},
        {cetomuhi_zero(MANAGER, 3), "The manager zeroes frame 3"},
        {cetomuhi_zero(MANAGER, 4), "The manager zeroes frame 4"},
        {cetomuhi_map(MANAGER, 0, 0), "The manager maps page 0 to frame 0"},
        {cetomuhi_map(MANAGER, 1, 1), "The manager maps page 1 to frame 1"},
        {cetomuhi_map(MANAGER, 2, 2), "The manager maps page 2 to frame 2"},
        {cetomuhi_map(MANAGER, 3, 3), "The manager maps page 3 to frame 3"},
        {cetomuhi_map(MANAGER, 4, 4), "The manager maps page 4 to frame 4"},
        {cetomuhi_split(MANAGER, NOTES, 16), "The manager cuts off cells 0 to 15"},
        {cetomuhi_split(MANAGER, EXPANDED, 16), "The manager cuts off cells 16 to 31"},
        {cetomuhi_split(MANAGER, HYPHENATED, 16), "The manager cuts off cells 32 to 47"},
        {cetomuhi_split(MANAGER, CHECKED, 16), "The manager cuts off cells 48 to 63"},
        {cetomuhi_give(MANAGER, NOTES, LOADER),
         "The manager gives cells 0 to 15 to the loader, for notes of its own"},
        {cetomuhi_give(MANAGER, EXPANDED, EXPANDER),
         "The manager gives cells 16 to 31 to the expander"},
        {cetomuhi_give(MANAGER, HYPHENATED, HYPHENATOR),
         "The manager gives cells 32 to 47 to the hyphenator"},
        {cetomuhi_give(MANAGER, CHECKED, FIT_CHECK),
         "The manager gives cells 48 to 63 to the fit check"},
        {cetomuhi_give(MANAGER, ENTRIES, LOADER),
         "The manager gives cells 64 to 79, the entries, to the loader"},
    };
    PLAY(in_one_run, server, steps);
}

/* The loader and the expander may keep capabilities in their ranges and take them with all
 * permissions; the others store only text. */
static void take_ranges(struct server *server) {
    const struct step steps[] = {
        {cetomuhi_take_masked(LOADER, NOTES, 0, CETOMUHI_ALL_PERMISSIONS),
         "The loader takes its notes"},
        {cetomuhi_take_masked(LOADER, ENTRIES, 1, CETOMUHI_ALL_PERMISSIONS),
         "The loader takes the entries"},
        {cetomuhi_take_masked(EXPANDER, EXPANDED, 0, CETOMUHI_ALL_PERMISSIONS),
         "The expander takes its range"},
        {cetomuhi_take(HYPHENATOR, HYPHENATED, 0), "The hyphenator takes its range"},
        {cetomuhi_take(FIT_CHECK, CHECKED, 0), "The fit check takes its range"},
        {cetomuhi_take(HYPHENATOR, EXPANDED, 1),
         "The hyphenator tries to take the range of the expander"},
    };
    PLAY(one_by_one, server, steps);
}

static void pass_raw_entry(struct server *server) {
    const struct step steps[] = {
        {cetomuhi_number(LOADER, 2, 77), "The loader sets a register to 77, a raw entry"},
        {cetomuhi_store(LOADER, 1, 0, 2), "The loader stores the raw entry"},
        {cetomuhi_narrow(LOADER, 1, 0, 8, CETOMUHI_MAY_LOAD, 3),
         "The loader narrows its capability to eight entries, to load only"},
        {cetomuhi_grant(LOADER, 3, EXPANDER), "The loader grants it to the expander"},
        {cetomuhi_receive(EXPANDER, 1), "The expander receives it"},
        {cetomuhi_load(EXPANDER, 1, 0, 2), "The expander loads the raw entry"},
        {cetomuhi_store(EXPANDER, 1, 0, 2), "The expander tries to store through it"},
        {cetomuhi_load(EXPANDER, 1, 8, 3), "The expander tries to load the ninth entry"},
    };
    PLAY(one_by_one, server, steps);
}

static void pass_expanded_entry(struct server *server) {
    const struct step steps[] = {
        {cetomuhi_number(EXPANDER, 3, 7700),
         "The expander sets a register to 7700, the expanded entry"},
        {cetomuhi_store(EXPANDER, 0, 0, 3), "The expander stores it in its own range"},
        {cetomuhi_narrow(EXPANDER, 0, 0, 1, CETOMUHI_MAY_LOAD, 4),
         "The expander narrows its own capability to that cell, to load only"},
        {cetomuhi_grant(EXPANDER, 4, HYPHENATOR), "The expander grants it to the hyphenator"},
        {cetomuhi_receive(HYPHENATOR, 1), "The hyphenator receives it"},
        {cetomuhi_receive(HYPHENATOR, 2), "The hyphenator looks for more"},
        {cetomuhi_load(HYPHENATOR, 1, 0, 2), "The hyphenator loads the expanded entry"},
    };
    PLAY(one_by_one, server, steps);
}

/* The sweep is cut into slices, and the houses go on between them. */
static void take_entries_back(struct server *server) {
    const struct step steps[] = {
        {cetomuhi_revoke(HYPHENATOR, ENTRIES),
         "The hyphenator tries to take the entries back from the loader"},
        {cetomuhi_revoke(MANAGER, ENTRIES),
         "The manager tries to revoke the entries while they are shown"},
        {cetomuhi_unmap(MANAGER, 4), "The manager unmaps page 4, the entries"},
        {cetomuhi_store(LOADER, 1, 1, 2), "The loader tries to store another raw entry"},
        {cetomuhi_revoke(MANAGER, ENTRIES), "The manager revokes the entries"},
        {cetomuhi_sweep(MANAGER, 20), "The manager sweeps a first slice of 20 cells"},
        {cetomuhi_store(LOADER, 0, 3, 1),
         "The loader stores its old capability in its notes, behind the sweep place"},
        {cetomuhi_load(EXPANDER, 0, 0, 2), "The expander goes on and loads its entry"},
        {cetomuhi_sweep(MANAGER, 30), "The manager sweeps a second slice of 30 cells"},
        {cetomuhi_store(HYPHENATOR, 0, 0, 2),
         "The hyphenator goes on and stores the entry in its own range"},
        {cetomuhi_collect(MANAGER), "The manager tries to collect too early"},
        {cetomuhi_sweep(MANAGER, 30), "The manager sweeps the last slice of 30 cells"},
        {cetomuhi_map(MANAGER, 4, 4),
         "The manager tries to show the entries again before the collect"},
        {cetomuhi_collect(MANAGER), "The manager collects"},
    };
    PLAY(one_by_one, server, steps);
}

static void hand_entries_on(struct server *server) {
    const struct step steps[] = {
        {cetomuhi_map(MANAGER, 4, 4),
         "The manager tries to map page 4 to the frame that the loader wrote"},
        {cetomuhi_zero(MANAGER, 4), "The manager zeroes frame 4"},
        {cetomuhi_map(MANAGER, 4, 4), "The manager maps page 4 to frame 4"},
        {cetomuhi_give(MANAGER, ENTRIES, FIT_CHECK),
         "The manager gives the entries to the fit check"},
        {cetomuhi_take(FIT_CHECK, ENTRIES, 1), "The fit check takes the entries"},
        {cetomuhi_load(FIT_CHECK, 1, 0, 2),
         "The fit check loads the first entry, of which nothing is left"},
        {cetomuhi_number(FIT_CHECK, 3, 7701),
         "The fit check sets a register to 7701, the approved entry"},
        {cetomuhi_store(FIT_CHECK, 1, 0, 3), "The fit check stores it"},
    };
    PLAY(one_by_one, server, steps);
}

static void try_old_capabilities(struct server *server) {
    const struct step steps[] = {
        {cetomuhi_store(LOADER, 1, 0, 2),
         "The loader tries to store its raw entry with its old capability"},
        {cetomuhi_load(LOADER, 0, 3, 4),
         "The loader loads what it kept in its notes, a number without its tag"},
        {cetomuhi_store(LOADER, 4, 0, 2), "The loader tries to store its raw entry with that"},
        {cetomuhi_load(EXPANDER, 1, 0, 2),
         "The expander tries to load a raw entry with what the loader granted"},
        {cetomuhi_load(FIT_CHECK, 1, 0, 2), "The fit check loads the entry as it approved it"},
    };
    PLAY(one_by_one, server, steps);
}

/* A page that two houses need is claimed by a principal of each. */
static void share_page(struct server *server) {
    const struct step steps[] = {
        {cetomuhi_create(MANAGER, 0, 1, 2, EXPANDER),
         "The manager creates principal 1 with limit 2 for the expander"},
        {cetomuhi_create(MANAGER, 0, 2, 1, HYPHENATOR),
         "The manager creates principal 2 with limit 1 for the hyphenator"},
        {cetomuhi_claim(EXPANDER, 1, 1), "The expander claims page 1, its own range"},
        {cetomuhi_claim(HYPHENATOR, 2, 1), "The hyphenator, which reads there, claims page 1 too"},
        {cetomuhi_claim(HYPHENATOR, 2, 2),
         "The hyphenator tries to claim page 2, beyond its limit"},
        {cetomuhi_unmap(MANAGER, 1), "The manager tries to unmap page 1, which both claim"},
        {cetomuhi_release(EXPANDER, 1, 1), "The expander lets go of page 1"},
        {cetomuhi_unmap(MANAGER, 1), "The manager tries to unmap page 1, which one still claims"},
        {cetomuhi_load(HYPHENATOR, 1, 0, 2),
         "The hyphenator loads the expanded entry, which is still there"},
        {cetomuhi_destroy(EXPANDER, 2),
         "The expander tries to destroy the principal of the hyphenator"},
        {cetomuhi_destroy(MANAGER, 2), "The manager destroys principal 2"},
        {cetomuhi_unmap(MANAGER, 1), "The manager unmaps page 1, which nobody claims now"},
    };
    PLAY(one_by_one, server, steps);
}

int main(void) {
    static struct server server;
    if (!cetomuhi_matches())
        fail("the library is not the one that cetomuhi.h describes");
    start(&server);
    set_up(&server);
    take_ranges(&server);
    pass_raw_entry(&server);
    pass_expanded_entry(&server);
    take_entries_back(&server);
    hand_entries_on(&server);
    try_old_capabilities(&server);
    share_page(&server);
    return cetomuhi_state_well_formed(&server.state) ? 0 : 1;
}
