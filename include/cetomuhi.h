/* The reservation machine of the composition server, one call at a time, over memory that the
 * caller owns.
 *
 * The functions of the library (section "The library") are total: they answer for all numbers,
 * bytes and lengths, and a refused call leaves every byte as it was. The inline functions after
 * them put pointers and lengths in their places; they are tested, not proved. "The document" is
 * document 01 with requests 2026-01, 2026-02, 2026-04, 2026-05, 2026-07 and 2026-11, whose numbers
 * the commands and refusals bear.
 *
 * What a caller owes, here as with all C: pointers are valid and aligned for the lengths that go
 * with them, and what a function writes overlaps nothing else that it is handed. Nothing is kept
 * after a return and there are no globals, so that two threads may work on two states; on one
 * state they take turns. */
#ifndef CETOMUHI_H
#define CETOMUHI_H

#include <stddef.h>
#include <stdint.h>
#include <string.h>

#ifdef __cplusplus
#define CETOMUHI_ASSERT(claim, words) static_assert(claim, words)
extern "C" {
#else
#include <stdbool.h>
#define CETOMUHI_ASSERT(claim, words) _Static_assert(claim, words)
#endif

/* ---- Sizes ---- */

#define CETOMUHI_VERSION 5         /* of this boundary; cetomuhi_version() is the library's */
#define CETOMUHI_PAGES 256         /* V is 1 to 256 */
#define CETOMUHI_FRAMES 128        /* F is 1 to 128 */
#define CETOMUHI_PAGE_CELLS 16     /* cells of a page and of a frame */
#define CETOMUHI_MEMORY_CELLS 2048 /* lent memory at its largest: 16 cells for each frame */
#define CETOMUHI_PARTIES 8         /* 0 to 7; party 0 is the manager */
#define CETOMUHI_REGISTERS 8       /* of a party, 0 to 7 */
#define CETOMUHI_WORDS 64          /* registers of all parties */
#define CETOMUHI_ROWS 64           /* reservations at most */
#define CETOMUHI_NUMBERS 6         /* small numbers of a state */
#define CETOMUHI_PRINCIPALS 32     /* 0 to 31; principal 0 is party 0's */
#define CETOMUHI_COUNTS 8192       /* of claims: 256 for each principal */
#define CETOMUHI_WHOLE_LIMIT 8192  /* what the limits of all principals add up to */
#define CETOMUHI_ANSWER_NUMBERS 4  /* code, number, tag, used */
#define CETOMUHI_CALL_NUMBERS 7    /* command, then operands */
#define CETOMUHI_COMMAND_BYTES 11  /* of the longest command, 0E */

/* ---- Commands and refusals, by the document's numbers ---- */

/* The operands stand behind each, in the order of their bytes: one byte each, or /2 or /8. While a
 * revocation runs, load and store drop the tag of a capability with base in its range. */
enum cetomuhi_kind {
    CETOMUHI_TAKE = 0x01,    /* party base/2 reg: Taken, to load and store; answers its length */
    CETOMUHI_SPLIT = 0x02,   /* party base/2 len/2: two Open ones, the lower of len cells */
    CETOMUHI_MERGE = 0x03,   /* party base/2: joined with the next one above */
    CETOMUHI_GIVE = 0x04,    /* party base/2 to: `to` is its holder */
    CETOMUHI_REVOKE = 0x05,  /* party base/2: a revocation of its range begins */
    CETOMUHI_SWEEP = 0x06,   /* party n/2: passes n cells of lent memory; answers the cells left */
    CETOMUHI_COLLECT = 0x07, /* party: registers and mailboxes cleared, the reservation Open */
    CETOMUHI_MAP = 0x08,     /* party page frame: the page shows the frame */
    CETOMUHI_UNMAP = 0x09,   /* party page: the page is Freed, its frame Dirty */
    CETOMUHI_ZERO = 0x0A,    /* party frame: its cells and tags are 0, the frame Free */
    CETOMUHI_LOAD = 0x0B,    /* party a off/2 d: the cell goes to d and is the answer */
    CETOMUHI_STORE = 0x0C,   /* party a off/2 s: register s goes to the cell */
    CETOMUHI_NARROW = 0x0D,  /* party s off/2 len/2 mask d: a part of s, with fewer permissions */
    CETOMUHI_NUMBER = 0x0E,  /* party d value/8: register d holds the value, untagged */
    CETOMUHI_GRANT = 0x0F,   /* party s to: copies into the mailbox of `to` */
    CETOMUHI_RECEIVE = 0x10, /* party d: moves the caller's mailbox to d; answers it */
    CETOMUHI_TAKE_MASKED = 0x11, /* party base/2 reg mask: a take with the permissions in mask */
    CETOMUHI_CREATE = 0x12,  /* party parent child limit/2 holder: a principal below the parent */
    CETOMUHI_CLAIM = 0x13,   /* party principal page: it counts the page once more */
    CETOMUHI_RELEASE = 0x14, /* party principal page: it counts the page once less */
    CETOMUHI_DESTROY = 0x15  /* party principal: it and all below it, and their claims, are gone */
};

/* The code of an answer: the first that applies, in the order of their numbers, but for 20 and 21,
 * which come after 12, and 22, after 13. No call gets 25, which is for questions about a table. */
enum cetomuhi_code {
    CETOMUHI_GRANTED = 0,
    CETOMUHI_REFUSED_ILL_FORMED = 1,  /* the state is not well formed, or V or F out of range */
    CETOMUHI_REFUSED_LENT_LENGTH = 2, /* the lent cells or tags are not 16 F in number */
    CETOMUHI_REFUSED_NO_COMMAND = 3,  /* no whole command stands at the place */
    CETOMUHI_REFUSED_ABOVE_SEVEN = 4, /* a party, a `to`, a holder or a register is above 7 */
    CETOMUHI_REFUSED_NOT_MANAGER = 5, /* 05 to 0A are for party 0 alone */
    CETOMUHI_REFUSED_NOT_HELD = 6,    /* no reservation of the caller's begins at base */
    CETOMUHI_REFUSED_WRONG_RESERVATION = 7, /* not Open; Revoking; or nothing to merge with */
    CETOMUHI_REFUSED_SPLIT_LENGTH = 8,      /* the split length is 0 or not below the length */
    CETOMUHI_REFUSED_TABLE_FULL = 9,        /* there are 64 reservations */
    CETOMUHI_REFUSED_NOT_WHOLE_PAGES = 10,  /* the range to revoke is not whole pages */
    CETOMUHI_REFUSED_REVOCATION_ORDER = 11, /* one runs; none runs; or cells are left to sweep */
    CETOMUHI_REFUSED_NO_SUCH_PAGE = 12,     /* a page is V or more, or a frame F or more */
    CETOMUHI_REFUSED_WRONG_PAGE = 13,       /* the page is not Unmapped, not Mapped, or Mapped */
    CETOMUHI_REFUSED_WRONG_FRAME = 14,      /* the frame to map is not Free, to zero not Dirty */
    CETOMUHI_REFUSED_UNTAGGED = 15,         /* the register holds no capability */
    CETOMUHI_REFUSED_NO_PERMISSION = 16,    /* the capability lacks the permission */
    CETOMUHI_REFUSED_OUT_OF_BOUNDS = 17,    /* outside the capability's cells */
    CETOMUHI_REFUSED_NOT_MAPPED = 18,       /* the page addressed is not Mapped */
    CETOMUHI_REFUSED_MAILBOX = 19,         /* the mailbox granted to is full, or one's own empty */
    CETOMUHI_REFUSED_WRONG_PRINCIPAL = 20, /* not in being; not held as needed; or not free */
    CETOMUHI_REFUSED_CLAIM_LIMIT = 21,     /* too little unspent; a count of 65,535; or one of 0 */
    CETOMUHI_REFUSED_CLAIMED = 22,         /* the page to unmap has a claim */
    CETOMUHI_REFUSED_WRONG_RANGE = 25      /* no table; no cells; past its end; or no room for 64 */
};

/* A refusal in words. */
static inline const char *cetomuhi_refusal_words(uint64_t code) {
    static const char *const words[] = {
        "granted",
        "the state is not well formed, or V or F is out of range",
        "the lent cells or tags are not 16 F in number",
        "no whole command stands at this place",
        "a party or a register is above 7",
        "only party 0 may do this",
        "the caller holds no reservation that begins there",
        "the reservation is in the wrong state, or has no next one to merge with",
        "the split length is 0, or not below the reservation's length",
        "the table has 64 reservations already",
        "the range is not made of whole pages",
        "a revocation runs already, or none runs, or cells are left to sweep",
        "there is no such page or frame",
        "the page is in the wrong state",
        "the frame is in the wrong state",
        "the register holds no capability",
        "the capability lacks a permission",
        "the offset or the length is past the capability's end",
        "the addressed page is not Mapped",
        "the mailbox to grant to is full, or the one to receive from is empty",
        "the principal is not in being or not held as needed, or its number is not free",
        "too little limit is unspent, or the count is at its most, or at 0",
        "the page has a claim",
        NULL, /* 23 and 24 are not in use */
        NULL,
        "the records are no table, the range or length is wrong, or the list has no room",
    };
    const char *const own = code < sizeof words / sizeof words[0] ? words[code] : NULL;
    return own != NULL ? own : "no answer of the machine";
}

/* A command's word: "take" for 0x01. */
static inline const char *cetomuhi_kind_word(uint64_t kind) {
    static const char *const words[] = {
        /* Made by tools/kinds: the words. */
        "no command", "take", "split", "merge", "give", "revoke", "sweep", "collect", "map",
        "unmap", "zero", "load", "store", "narrow", "number", "grant", "receive", "take masked",
        "create", "claim", "release", "destroy",
        /* End of the words. */
    };
    return kind < sizeof words / sizeof words[0] ? words[kind] : words[0];
}

/* ---- A state, lent memory, a call, an answer ---- */

/* The state: 18,456 bytes without padding, numbers in the processor's own byte order. All zero is
 * the document's all-zero state; a server keeps, copies and compares it as plain bytes. */
typedef struct cetomuhi_state {
    uint64_t words[CETOMUHI_WORDS];     /* register d of party p at 8 p + d */
    uint64_t mail[CETOMUHI_PARTIES];    /* the mailbox of party p at p */
    uint64_t rows[CETOMUHI_ROWS];       /* reservations in rising base: base in bits 0 to 15, length
                                           16 to 31, state 32 to 39, holder 40 to 47, taker 48 to
                                           55, the rest 0; an unused one is 0 */
    uint64_t principals[CETOMUHI_PRINCIPALS]; /* unspent limit in bits 0 to 15, parent 16 to 23,
                                           holder 24 to 31, bit 32 set; not in being: 0 */
    uint16_t pages[CETOMUHI_PAGES];     /* 0 Unmapped, 1 Freed, 2 + n Mapped to frame n */
    uint16_t counts[CETOMUHI_COUNTS];   /* how often principal p claims page n at 256 p + n */
    uint16_t numbers[CETOMUHI_NUMBERS]; /* V, F, the count of rows, the sweep place, base and length
                                           of the range being revoked (0 and 0 if none is) */
    uint8_t marks[CETOMUHI_WORDS];      /* the registers' tags, 0 or 1 */
    uint8_t flags[CETOMUHI_PARTIES];    /* the mailboxes' tags; 0: it is empty */
    uint8_t frames[CETOMUHI_FRAMES];    /* 0 Dirty, 1 Free, 2 Mapped */
    uint8_t unused[4];                  /* no part of the state; 0 after a start */
} cetomuhi_state;

CETOMUHI_ASSERT(sizeof(cetomuhi_state) == 18456, "the state has no padding");

/* Lent memory: 16 F cells and as many tags. Frame f begins at 16 f. */
typedef struct cetomuhi_memory {
    uint64_t *cells;
    uint8_t *tags;
    size_t length; /* of cells, and of tags */
} cetomuhi_memory;

/* A state with memory of its own, for every F: 36,888 bytes. */
typedef struct cetomuhi_machine {
    cetomuhi_state state;
    uint64_t cells[CETOMUHI_MEMORY_CELLS];
    uint8_t tags[CETOMUHI_MEMORY_CELLS];
} cetomuhi_machine;

/* A call: its command, then its operands in the order of their bytes, then 0. */
typedef struct cetomuhi_call {
    uint64_t numbers[CETOMUHI_CALL_NUMBERS];
} cetomuhi_call;

typedef struct cetomuhi_answer {
    uint64_t code;   /* an enum cetomuhi_code */
    uint64_t number; /* 0 where the document names none */
    uint64_t tag;    /* 0 or 1 */
    uint64_t used;   /* the command's bytes; 0 under refusals 1 to 3 */
} cetomuhi_answer;

CETOMUHI_ASSERT(sizeof(cetomuhi_answer) == CETOMUHI_ANSWER_NUMBERS * sizeof(uint64_t),
                "answers in a row are their numbers in a row");

/* What a page costs the n principals that claim it, each counted once, however often it claims:
 * 16 = n * share + remainder, and the remainder is below n. With n 0 they are 0 and 16. */
typedef struct cetomuhi_cost {
    uint64_t code;      /* 0, or refusal 1 or 12 */
    uint64_t share;     /* cells for each; 0 if refused */
    uint64_t remainder; /* cells left over; 0 if refused */
} cetomuhi_cost;

/* Reservations by their bases, in rising order. */
typedef struct cetomuhi_listed {
    uint64_t code;                 /* 0, or refusal 25 */
    uint64_t count;                /* how many there are; 0 if refused */
    uint16_t bases[CETOMUHI_ROWS]; /* the first `count` are theirs; the rest is 0 */
} cetomuhi_listed;

/* The Open reservation of enough cells that is nearest to a cell. */
typedef struct cetomuhi_nearest_open {
    uint64_t code;  /* 0, or refusal 25 */
    uint64_t found; /* 1; or 0: no Open one has that many cells, or refused */
    uint64_t base;  /* 0 if none is found */
} cetomuhi_nearest_open;

/* ---- The library ----
 *
 * A slice is a pointer and a length. No pointer may be null, also where the length is 0. Ten
 * slices are a state, with the lengths above; any other length is no state, which is refusal 1. */

/* A state's ten slices, as the functions take them. */
#define CETOMUHI_SLICES(state)                                                                     \
    (state)->numbers, CETOMUHI_NUMBERS, (state)->words, CETOMUHI_WORDS, (state)->marks,            \
        CETOMUHI_WORDS, (state)->mail, CETOMUHI_PARTIES, (state)->flags, CETOMUHI_PARTIES,         \
        (state)->rows, CETOMUHI_ROWS, (state)->pages, CETOMUHI_PAGES, (state)->frames,             \
        CETOMUHI_FRAMES, (state)->principals, CETOMUHI_PRINCIPALS, (state)->counts,                \
        CETOMUHI_COUNTS

/* A fresh state of v virtual pages and f frames: 0. Refusal 1: the all-zero state is written, or
 * nothing if a length is wrong. */
uint8_t cetomuhi_start(uint64_t v, uint64_t f, uint16_t *numbers, size_t numbers_len,
                       uint64_t *words, size_t words_len, uint8_t *marks, size_t marks_len,
                       uint64_t *mail, size_t mail_len, uint8_t *flags, size_t flags_len,
                       uint64_t *rows, size_t rows_len, uint16_t *pages, size_t pages_len,
                       uint8_t *frames, size_t frames_len, uint64_t *principals,
                       size_t principals_len, uint16_t *counts, size_t counts_len);

/* Whether the slices are a well-formed state. */
bool cetomuhi_well_formed(const uint16_t *numbers, size_t numbers_len, const uint64_t *words,
                          size_t words_len, const uint8_t *marks, size_t marks_len,
                          const uint64_t *mail, size_t mail_len, const uint8_t *flags,
                          size_t flags_len, const uint64_t *rows, size_t rows_len,
                          const uint16_t *pages, size_t pages_len, const uint8_t *frames,
                          size_t frames_len, const uint64_t *principals, size_t principals_len,
                          const uint16_t *counts, size_t counts_len);

/* What a page costs those who claim it (cetomuhi_cost), the state tested first: the code. Nothing
 * is changed; share and remainder are written always. */
uint8_t cetomuhi_page_cost(const uint16_t *numbers, size_t numbers_len, const uint64_t *words,
                           size_t words_len, const uint8_t *marks, size_t marks_len,
                           const uint64_t *mail, size_t mail_len, const uint8_t *flags,
                           size_t flags_len, const uint64_t *rows, size_t rows_len,
                           const uint16_t *pages, size_t pages_len, const uint8_t *frames,
                           size_t frames_len, const uint64_t *principals, size_t principals_len,
                           const uint16_t *counts, size_t counts_len, uint64_t page,
                           uint64_t *share, uint64_t *remainder);

/* The next three are asked of a table, a state's or any other: all of `rows` are records like those
 * of a cetomuhi_state, and each begins where the one before ends, the first at cell 0. They answer
 * 0, or refusal 25 and write nothing: the records are none or over 64, have a length 0, do not tile
 * so or end above 4,096; `cells` is 0; or, for the two lists, the range ends past the records or
 * `bases` is shorter than 64. States, holders and takers may be any. */

/* Those that share a cell with the `cells` cells from `first` on: their bases come first in
 * `bases`, whose rest is kept, and `*count` is how many. */
uint8_t cetomuhi_sharing(const uint64_t *rows, size_t rows_len, uint64_t first, uint64_t cells,
                         uint16_t *bases, size_t bases_len, uint64_t *count);

/* The same for those with all their cells in the range. */
uint8_t cetomuhi_within(const uint64_t *rows, size_t rows_len, uint64_t first, uint64_t cells,
                        uint16_t *bases, size_t bases_len, uint64_t *count);

/* Of the Open ones of `cells` cells or more the nearest to `cell`, which may lie anywhere: `*found`
 * is 1 and `*base` its base. Both are 0 if there is none. The distance is to its closest cell, 0
 * inside; of two equally near the lower is found. */
uint8_t cetomuhi_nearest(const uint64_t *rows, size_t rows_len, uint64_t cell, uint64_t cells,
                         uint64_t *found, uint64_t *base);

/* The command that stands at `at`, the state tested first: 1, and code, number, tag and used come
 * first in `answers`. 0, and nothing is done, if `answers` is shorter than four. */
size_t cetomuhi_command(uint16_t *numbers, size_t numbers_len, uint64_t *words, size_t words_len,
                        uint8_t *marks, size_t marks_len, uint64_t *mail, size_t mail_len,
                        uint8_t *flags, size_t flags_len, uint64_t *rows, size_t rows_len,
                        uint16_t *pages, size_t pages_len, uint8_t *frames, size_t frames_len,
                        uint64_t *principals, size_t principals_len, uint16_t *counts,
                        size_t counts_len, uint64_t *cells, size_t cells_len, uint8_t *tags,
                        size_t tags_len, const uint8_t *input, size_t input_len, size_t at,
                        uint64_t *answers, size_t answers_len);

/* The commands from `*at` on, the state tested once: how many were answered, with four numbers for
 * each; `*at` is then the place behind the last. It ends at the input's end, after a refusal 1 to 3
 * (which is counted), or where four more numbers have no room. The answers, the state and the
 * memory are those of as many cetomuhi_command in turn. */
size_t cetomuhi_commands(uint16_t *numbers, size_t numbers_len, uint64_t *words, size_t words_len,
                         uint8_t *marks, size_t marks_len, uint64_t *mail, size_t mail_len,
                         uint8_t *flags, size_t flags_len, uint64_t *rows, size_t rows_len,
                         uint16_t *pages, size_t pages_len, uint8_t *frames, size_t frames_len,
                         uint64_t *principals, size_t principals_len, uint16_t *counts,
                         size_t counts_len, uint64_t *cells, size_t cells_len, uint8_t *tags,
                         size_t tags_len, const uint8_t *input, size_t input_len, size_t *at,
                         uint64_t *answers, size_t answers_len);

/* A call's bytes, first in `out`: their length, or 0 and nothing written if the seven numbers are
 * no call or the bytes do not fit. */
size_t cetomuhi_write(const uint64_t *numbers, size_t numbers_len, uint8_t *out, size_t out_len);

/* The call whose bytes stand at `at`, as seven numbers: its length in bytes, or 0 and nothing
 * written if no call stands there or `numbers` is not seven long. */
size_t cetomuhi_read(const uint8_t *input, size_t input_len, size_t at, uint64_t *numbers,
                     size_t numbers_len);

uint64_t cetomuhi_version(void);

/* The length of slice 0 to 9 of a state; 10: numbers of an answer; 11: of a call; else 0. */
size_t cetomuhi_size(uint64_t which);

/* Whether the library linked is the one that this header describes. */
static inline bool cetomuhi_matches(void) {
    static const size_t sizes[] = {
        CETOMUHI_NUMBERS,        CETOMUHI_WORDS,        CETOMUHI_WORDS, CETOMUHI_PARTIES,
        CETOMUHI_PARTIES,        CETOMUHI_ROWS,         CETOMUHI_PAGES, CETOMUHI_FRAMES,
        CETOMUHI_PRINCIPALS,     CETOMUHI_COUNTS,       CETOMUHI_ANSWER_NUMBERS,
        CETOMUHI_CALL_NUMBERS,
    };
    bool same = cetomuhi_version() == CETOMUHI_VERSION;
    for (size_t which = 0; which < sizeof sizes / sizeof sizes[0]; which++)
        same = same && cetomuhi_size(which) == sizes[which];
    return same;
}

/* ---- Calls ----
 *
 * An operand that does not fit its bytes makes no call: it writes as nothing, and is answered by
 * refusal 3. */

static inline cetomuhi_call cetomuhi_call_of(uint64_t kind, uint64_t party, uint64_t first,
                                             uint64_t second, uint64_t third) {
    const cetomuhi_call call = {{kind, party, first, second, third, 0, 0}};
    return call;
}

/* Made by tools/kinds: the functions, but for the comments above them. */
/* The capability may load and store numbers: permissions 3. */
static inline cetomuhi_call cetomuhi_take(uint64_t party, uint64_t base, uint64_t reg) {
    return cetomuhi_call_of(CETOMUHI_TAKE, party, base, reg, 0);
}
static inline cetomuhi_call cetomuhi_split(uint64_t party, uint64_t base, uint64_t len) {
    return cetomuhi_call_of(CETOMUHI_SPLIT, party, base, len, 0);
}
static inline cetomuhi_call cetomuhi_merge(uint64_t party, uint64_t base) {
    return cetomuhi_call_of(CETOMUHI_MERGE, party, base, 0, 0);
}
static inline cetomuhi_call cetomuhi_give(uint64_t party, uint64_t base, uint64_t to) {
    return cetomuhi_call_of(CETOMUHI_GIVE, party, base, to, 0);
}
static inline cetomuhi_call cetomuhi_revoke(uint64_t party, uint64_t base) {
    return cetomuhi_call_of(CETOMUHI_REVOKE, party, base, 0, 0);
}
static inline cetomuhi_call cetomuhi_sweep(uint64_t party, uint64_t n) {
    return cetomuhi_call_of(CETOMUHI_SWEEP, party, n, 0, 0);
}
static inline cetomuhi_call cetomuhi_collect(uint64_t party) {
    return cetomuhi_call_of(CETOMUHI_COLLECT, party, 0, 0, 0);
}
static inline cetomuhi_call cetomuhi_map(uint64_t party, uint64_t page, uint64_t frame) {
    return cetomuhi_call_of(CETOMUHI_MAP, party, page, frame, 0);
}
static inline cetomuhi_call cetomuhi_unmap(uint64_t party, uint64_t page) {
    return cetomuhi_call_of(CETOMUHI_UNMAP, party, page, 0, 0);
}
static inline cetomuhi_call cetomuhi_zero(uint64_t party, uint64_t frame) {
    return cetomuhi_call_of(CETOMUHI_ZERO, party, frame, 0, 0);
}
static inline cetomuhi_call cetomuhi_load(uint64_t party, uint64_t a, uint64_t off, uint64_t d) {
    return cetomuhi_call_of(CETOMUHI_LOAD, party, a, off, d);
}
static inline cetomuhi_call cetomuhi_store(uint64_t party, uint64_t a, uint64_t off, uint64_t s) {
    return cetomuhi_call_of(CETOMUHI_STORE, party, a, off, s);
}
static inline cetomuhi_call cetomuhi_narrow(uint64_t party, uint64_t s, uint64_t off, uint64_t len,
                                            uint64_t mask, uint64_t d) {
    const cetomuhi_call call = {{CETOMUHI_NARROW, party, s, off, len, mask, d}};
    return call;
}
static inline cetomuhi_call cetomuhi_number(uint64_t party, uint64_t d, uint64_t value) {
    return cetomuhi_call_of(CETOMUHI_NUMBER, party, d, value, 0);
}
static inline cetomuhi_call cetomuhi_grant(uint64_t party, uint64_t s, uint64_t to) {
    return cetomuhi_call_of(CETOMUHI_GRANT, party, s, to, 0);
}
static inline cetomuhi_call cetomuhi_receive(uint64_t party, uint64_t d) {
    return cetomuhi_call_of(CETOMUHI_RECEIVE, party, d, 0, 0);
}
/* Who keeps capabilities in its range takes it with CETOMUHI_ALL_PERMISSIONS. The capability has
 * the permissions in mask, a sum of enum cetomuhi_permission; bits above 15 are ignored, and 0 is
 * granted too. */
static inline cetomuhi_call cetomuhi_take_masked(uint64_t party, uint64_t base, uint64_t reg,
                                                 uint64_t mask) {
    return cetomuhi_call_of(CETOMUHI_TAKE_MASKED, party, base, reg, mask);
}
/* Who holds the parent creates: the limit goes from the parent's, where it is unspent, to the
 * child. */
static inline cetomuhi_call cetomuhi_create(uint64_t party, uint64_t parent, uint64_t child,
                                            uint64_t limit, uint64_t holder) {
    const cetomuhi_call call = {{CETOMUHI_CREATE, party, parent, child, limit, holder, 0}};
    return call;
}
/* Who holds the principal claims and releases. The first count of a page spends 1 of the limit, the
 * last one gives it back; while a page has a claim, it is not unmapped. */
static inline cetomuhi_call cetomuhi_claim(uint64_t party, uint64_t principal, uint64_t page) {
    return cetomuhi_call_of(CETOMUHI_CLAIM, party, principal, page, 0);
}
static inline cetomuhi_call cetomuhi_release(uint64_t party, uint64_t principal, uint64_t page) {
    return cetomuhi_call_of(CETOMUHI_RELEASE, party, principal, page, 0);
}
/* Who holds the principal's parent destroys it; the parent gets the limits, spent and unspent. */
static inline cetomuhi_call cetomuhi_destroy(uint64_t party, uint64_t principal) {
    return cetomuhi_call_of(CETOMUHI_DESTROY, party, principal, 0, 0);
}
/* End of the functions. */

/* A call's bytes, first in `out`: their length, or 0 as with cetomuhi_write. */
static inline size_t cetomuhi_call_write(cetomuhi_call call, uint8_t *out, size_t out_len) {
    return out == NULL ? 0 : cetomuhi_write(call.numbers, CETOMUHI_CALL_NUMBERS, out, out_len);
}

/* The call at a place of the input: its length in bytes, or 0 and `call` as it was. */
static inline size_t cetomuhi_call_read(cetomuhi_call *call, const uint8_t *input, size_t input_len,
                                        size_t at) {
    if (input == NULL)
        return 0;
    return cetomuhi_read(input, input_len, at, call->numbers, CETOMUHI_CALL_NUMBERS);
}

/* ---- A state over lent memory ----
 *
 * A null pointer to memory, input or answers counts as one of length 0. */

/* A fresh state: 0, or 1 and the all-zero state. Lent memory has no part in it. */
static inline uint8_t cetomuhi_state_start(cetomuhi_state *state, uint64_t v, uint64_t f) {
    memset(state->unused, 0, sizeof state->unused);
    return cetomuhi_start(v, f, CETOMUHI_SLICES(state));
}

static inline bool cetomuhi_state_well_formed(const cetomuhi_state *state) {
    return cetomuhi_well_formed(CETOMUHI_SLICES(state));
}

/* What a page costs those who claim it. Lent memory has no part in it. */
static inline cetomuhi_cost cetomuhi_state_page_cost(const cetomuhi_state *state, uint64_t page) {
    cetomuhi_cost cost = {0, 0, 0};
    cost.code = cetomuhi_page_cost(CETOMUHI_SLICES(state), page, &cost.share, &cost.remainder);
    return cost;
}

/* How many rows of the state are its table: its count, or none if it counts more than there are,
 * which is refusal 25. */
static inline size_t cetomuhi_table_length(const cetomuhi_state *state) {
    const size_t count = state->numbers[2];
    return count <= CETOMUHI_ROWS ? count : 0;
}

/* The reservations that share a cell with the `cells` cells from `first` on. The state's table
 * alone is looked at, here and in the next two. */
static inline cetomuhi_listed cetomuhi_state_sharing(const cetomuhi_state *state, uint64_t first,
                                                     uint64_t cells) {
    cetomuhi_listed listed = {0, 0, {0}};
    listed.code = cetomuhi_sharing(state->rows, cetomuhi_table_length(state), first, cells,
                                   listed.bases, CETOMUHI_ROWS, &listed.count);
    return listed;
}

/* Those with all their cells among the `cells` cells from `first` on. */
static inline cetomuhi_listed cetomuhi_state_within(const cetomuhi_state *state, uint64_t first,
                                                    uint64_t cells) {
    cetomuhi_listed listed = {0, 0, {0}};
    listed.code = cetomuhi_within(state->rows, cetomuhi_table_length(state), first, cells,
                                  listed.bases, CETOMUHI_ROWS, &listed.count);
    return listed;
}

/* The Open one of `cells` cells or more that is nearest to `cell`. */
static inline cetomuhi_nearest_open cetomuhi_state_nearest(const cetomuhi_state *state,
                                                           uint64_t cell, uint64_t cells) {
    cetomuhi_nearest_open nearest = {0, 0, 0};
    nearest.code = cetomuhi_nearest(state->rows, cetomuhi_table_length(state), cell, cells,
                                    &nearest.found, &nearest.base);
    return nearest;
}

/* The memory, or none of it if a pointer is null; `cell` and `tag` are there to be pointed at. */
static inline cetomuhi_memory cetomuhi_lent(cetomuhi_memory memory, uint64_t *cell, uint8_t *tag) {
    const cetomuhi_memory none = {cell, tag, 0};
    return memory.cells == NULL || memory.tags == NULL ? none : memory;
}

/* The command that stands at a place of the input. */
static inline cetomuhi_answer cetomuhi_state_command(cetomuhi_state *state, cetomuhi_memory memory,
                                                     const uint8_t *input, size_t input_len,
                                                     size_t at) {
    uint64_t cell = 0;
    uint8_t byte = 0;
    cetomuhi_answer answer = {0, 0, 0, 0};
    memory = cetomuhi_lent(memory, &cell, &byte);
    cetomuhi_command(CETOMUHI_SLICES(state), memory.cells, memory.length, memory.tags,
                     memory.length, input == NULL ? &byte : input, input == NULL ? 0 : input_len,
                     at, (uint64_t *)&answer, CETOMUHI_ANSWER_NUMBERS);
    return answer;
}

/* One call. Numbers that are no call count as an input without a byte. */
static inline cetomuhi_answer cetomuhi_state_call(cetomuhi_state *state, cetomuhi_memory memory,
                                                  cetomuhi_call call) {
    uint8_t bytes[CETOMUHI_COMMAND_BYTES] = {0};
    const size_t length = cetomuhi_call_write(call, bytes, sizeof bytes);
    return cetomuhi_state_command(state, memory, bytes, length, 0);
}

/* A run of commands from `*at` on: how many of the `room` answers were filled. */
static inline size_t cetomuhi_state_commands(cetomuhi_state *state, cetomuhi_memory memory,
                                             const uint8_t *input, size_t input_len, size_t *at,
                                             cetomuhi_answer *answers, size_t room) {
    uint64_t cell = 0;
    uint8_t tag = 0;
    if (input == NULL || answers == NULL)
        return 0;
    memory = cetomuhi_lent(memory, &cell, &tag);
    return cetomuhi_commands(CETOMUHI_SLICES(state), memory.cells, memory.length, memory.tags,
                             memory.length, input, input_len, at, (uint64_t *)answers,
                             CETOMUHI_ANSWER_NUMBERS * room);
}

/* ---- A machine: a state with memory of its own ---- */

/* A fresh machine with zeroed memory: 0, or 1 and all of it zero. */
static inline uint8_t cetomuhi_machine_start(cetomuhi_machine *machine, uint64_t v, uint64_t f) {
    memset(machine, 0, sizeof *machine);
    return cetomuhi_state_start(&machine->state, v, f);
}

/* The memory of a machine's F frames. */
static inline cetomuhi_memory cetomuhi_machine_memory(cetomuhi_machine *machine) {
    const size_t cells = (size_t)CETOMUHI_PAGE_CELLS * machine->state.numbers[1];
    const cetomuhi_memory memory = {machine->cells, machine->tags,
                                    cells < CETOMUHI_MEMORY_CELLS ? cells : CETOMUHI_MEMORY_CELLS};
    return memory;
}

static inline bool cetomuhi_machine_well_formed(const cetomuhi_machine *machine) {
    return cetomuhi_state_well_formed(&machine->state);
}

static inline cetomuhi_cost cetomuhi_machine_page_cost(const cetomuhi_machine *machine,
                                                       uint64_t page) {
    return cetomuhi_state_page_cost(&machine->state, page);
}

static inline cetomuhi_listed cetomuhi_machine_sharing(const cetomuhi_machine *machine,
                                                       uint64_t first, uint64_t cells) {
    return cetomuhi_state_sharing(&machine->state, first, cells);
}

static inline cetomuhi_listed cetomuhi_machine_within(const cetomuhi_machine *machine,
                                                      uint64_t first, uint64_t cells) {
    return cetomuhi_state_within(&machine->state, first, cells);
}

static inline cetomuhi_nearest_open cetomuhi_machine_nearest(const cetomuhi_machine *machine,
                                                             uint64_t cell, uint64_t cells) {
    return cetomuhi_state_nearest(&machine->state, cell, cells);
}

static inline cetomuhi_answer cetomuhi_machine_command(cetomuhi_machine *machine,
                                                       const uint8_t *input, size_t input_len,
                                                       size_t at) {
    return cetomuhi_state_command(&machine->state, cetomuhi_machine_memory(machine), input,
                                  input_len, at);
}

static inline cetomuhi_answer cetomuhi_machine_call(cetomuhi_machine *machine, cetomuhi_call call) {
    return cetomuhi_state_call(&machine->state, cetomuhi_machine_memory(machine), call);
}

static inline size_t cetomuhi_machine_commands(cetomuhi_machine *machine, const uint8_t *input,
                                               size_t input_len, size_t *at,
                                               cetomuhi_answer *answers, size_t room) {
    return cetomuhi_state_commands(&machine->state, cetomuhi_machine_memory(machine), input,
                                   input_len, at, answers, room);
}

/* ---- Showing a state ----
 *
 * Each answers for every state and number; past the end of an array all is 0. */

enum cetomuhi_reservation_state { CETOMUHI_OPEN = 0, CETOMUHI_TAKEN = 1, CETOMUHI_REVOKING = 2 };
/* A taker that is no party. */
enum cetomuhi_taker {
    CETOMUHI_TAKER_SEVERAL = 8, /* a merge joined Taken ones of different takers */
    CETOMUHI_TAKER_NONE = 9     /* the reservation is Open */
};
enum cetomuhi_page_state {
    CETOMUHI_PAGE_UNMAPPED = 0,
    CETOMUHI_PAGE_FREED = 1,
    CETOMUHI_PAGE_MAPPED = 2
};
enum cetomuhi_frame_state {
    CETOMUHI_FRAME_DIRTY = 0,
    CETOMUHI_FRAME_FREE = 1,
    CETOMUHI_FRAME_MAPPED = 2
};
enum cetomuhi_permission {
    CETOMUHI_MAY_LOAD = 1,
    CETOMUHI_MAY_STORE = 2,
    CETOMUHI_MAY_LOAD_CAPABILITY = 4,
    CETOMUHI_MAY_STORE_CAPABILITY = 8,
    CETOMUHI_ALL_PERMISSIONS = 15 /* the four */
};

typedef struct cetomuhi_reservation {
    uint16_t base;
    uint16_t length;
    uint8_t state; /* an enum cetomuhi_reservation_state */
    uint8_t holder;
    uint8_t taker; /* the party that took it, or an enum cetomuhi_taker; of a Revoking one 0 says
                      that party 0 took it, or that it was Open */
} cetomuhi_reservation;

typedef struct cetomuhi_page {
    uint8_t state;  /* an enum cetomuhi_page_state */
    uint16_t frame; /* of a Mapped one; else 0 */
} cetomuhi_page;

/* A register, or a mailbox (empty if untagged). */
typedef struct cetomuhi_word {
    uint64_t cell;
    uint8_t tag;
} cetomuhi_word;

/* What the cell of a capability says. */
typedef struct cetomuhi_capability {
    uint16_t base;
    uint16_t length;
    uint8_t permissions; /* a sum of enum cetomuhi_permission */
} cetomuhi_capability;

/* The revocation that runs; all 0, the length too, if none does. */
typedef struct cetomuhi_revocation {
    uint16_t base;
    uint16_t length;
    uint16_t place; /* the cells of lent memory that the sweep has passed */
} cetomuhi_revocation;

/* A principal; all 0 if it is not in being. Its limit is what it has spent and what is unspent. */
typedef struct cetomuhi_principal {
    bool in_being;
    uint8_t holder;
    uint8_t parent; /* of principal 0, which has none, 0 */
    uint16_t spent; /* the pages that it claims */
    uint16_t unspent;
} cetomuhi_principal;

/* How many virtual pages, frames and reservations the state has. */
static inline size_t cetomuhi_page_count(const cetomuhi_state *state) {
    return state->numbers[0];
}
static inline size_t cetomuhi_frame_count(const cetomuhi_state *state) {
    return state->numbers[1];
}
static inline size_t cetomuhi_row_count(const cetomuhi_state *state) {
    return state->numbers[2];
}

static inline cetomuhi_reservation cetomuhi_reservation_at(const cetomuhi_state *state,
                                                           size_t row) {
    const uint64_t code = row < CETOMUHI_ROWS ? state->rows[row] : 0;
    const cetomuhi_reservation reservation = {
        (uint16_t)(code & 0xFFFF), (uint16_t)(code >> 16 & 0xFFFF), (uint8_t)(code >> 32 & 0xFF),
        (uint8_t)(code >> 40 & 0xFF), (uint8_t)(code >> 48 & 0xFF)};
    return reservation;
}

static inline cetomuhi_page cetomuhi_page_at(const cetomuhi_state *state, size_t page) {
    const uint16_t code = page < CETOMUHI_PAGES ? state->pages[page] : 0;
    const cetomuhi_page shown = {(uint8_t)(code < 2 ? code : 2),
                                 (uint16_t)(code < 2 ? 0 : code - 2)};
    return shown;
}

/* An enum cetomuhi_frame_state. */
static inline uint8_t cetomuhi_frame_at(const cetomuhi_state *state, size_t frame) {
    return frame < CETOMUHI_FRAMES ? state->frames[frame] : 0;
}

static inline cetomuhi_word cetomuhi_register_at(const cetomuhi_state *state, size_t party,
                                                 size_t d) {
    const bool there = party < CETOMUHI_PARTIES && d < CETOMUHI_REGISTERS;
    const size_t at = there ? CETOMUHI_REGISTERS * party + d : 0;
    const cetomuhi_word word = {there ? state->words[at] : 0,
                                there ? state->marks[at] : (uint8_t)0};
    return word;
}

static inline cetomuhi_word cetomuhi_mailbox_at(const cetomuhi_state *state, size_t party) {
    const bool there = party < CETOMUHI_PARTIES;
    const size_t at = there ? party : 0;
    const cetomuhi_word word = {there ? state->mail[at] : 0, there ? state->flags[at] : (uint8_t)0};
    return word;
}

/* How often a principal claims a page. */
static inline uint16_t cetomuhi_count_at(const cetomuhi_state *state, size_t principal,
                                         size_t page) {
    const bool there = principal < CETOMUHI_PRINCIPALS && page < CETOMUHI_PAGES;
    return there ? state->counts[CETOMUHI_PAGES * principal + page] : (uint16_t)0;
}

static inline cetomuhi_principal cetomuhi_principal_at(const cetomuhi_state *state,
                                                       size_t principal) {
    const uint64_t code = principal < CETOMUHI_PRINCIPALS ? state->principals[principal] : 0;
    uint16_t spent = 0;
    for (size_t page = 0; page < CETOMUHI_PAGES; page++)
        spent = (uint16_t)(spent + (cetomuhi_count_at(state, principal, page) > 0));
    const cetomuhi_principal it = {code >> 32 != 0, (uint8_t)(code >> 24 & 0xFF),
                                   (uint8_t)(code >> 16 & 0xFF), spent, (uint16_t)(code & 0xFFFF)};
    return it;
}

static inline cetomuhi_capability cetomuhi_capability_of(uint64_t cell) {
    const cetomuhi_capability capability = {
        (uint16_t)(cell & 0xFFFF), (uint16_t)(cell >> 16 & 0xFFFF), (uint8_t)(cell >> 32 & 0xFF)};
    return capability;
}

static inline cetomuhi_revocation cetomuhi_revocation_of(const cetomuhi_state *state) {
    const cetomuhi_revocation revocation = {state->numbers[4], state->numbers[5],
                                            state->numbers[3]};
    return revocation;
}

/* The document's words for the states. */
static inline const char *cetomuhi_reservation_word(uint64_t state) {
    static const char *const words[] = {"Open", "Taken", "Revoking"};
    return state < 3 ? words[state] : "no state";
}
static inline const char *cetomuhi_page_word(uint64_t state) {
    static const char *const words[] = {"Unmapped", "Freed", "Mapped"};
    return state < 3 ? words[state] : "no state";
}
static inline const char *cetomuhi_frame_word(uint64_t state) {
    static const char *const words[] = {"Dirty", "Free", "Mapped"};
    return state < 3 ? words[state] : "no state";
}

#ifdef __cplusplus
}
#endif

#endif
