/* A check of the installed library, and what came of it. */
#ifndef CHECK_H
#define CHECK_H

#include <stdbool.h>
#include <stddef.h>
#include <stdint.h>

#include "cetomuhi.h"

enum {
    CHECKS = 11,
    TALLIES = 6,   /* that a check keeps at most */
    ENOUGH = 200,  /* random orders in which nothing that is tallied may stay away */
    RESULT = 2000, /* bytes of a result's sentence */
    ORDERS = 2000, /* random orders of a check, unless told otherwise */
    SECONDS = 20   /* that a check may take, unless told otherwise */
};

typedef struct trial trial;

typedef struct check {
    const char *name;
    const char *sentence; /* what it is about, in the customer's words */
    const char *fixed;    /* what is tried in the fixed order */
    const char *random;   /* and in each random one */
    const char *failure;  /* what would be one */
    const char *tallies[TALLIES];
    /* A machine was started: so begins what the check knows of it. */
    void (*begin)(trial *t);
    /* A call was answered, and nothing is wrong with it that would be wrong in every check. */
    void (*watch)(trial *t, const cetomuhi_call *call, cetomuhi_answer answer);
    void (*in_fixed_order)(trial *t);
    void (*in_random_order)(trial *t);
} check;

/* What is tried, and for how long. */
typedef struct settings {
    uint64_t seed;
    uint64_t orders;
    uint64_t seconds;
} settings;

typedef struct result {
    bool passed;
    char sentence[RESULT];
} result;

/* What a check is about to do, for when it does not come back. */
typedef struct progress {
    uint64_t order; /* of the random ones; 0: the fixed one */
    uint64_t made;  /* calls since the machine was started */
    cetomuhi_call call;
} progress;

extern const check lent_once, crosses_over, survivor, nothing_lost, take_masked, claims, takers,
    load_filtered, maps, page_cost, answered;

/* The checks in the order in which they run. */
extern const check *const checks[CHECKS];

/* Runs a check in this process, which then ends; its result is written to the descriptor. */
_Noreturn void run_trial(const check *which, const settings *how, int descriptor, progress *doing);

/* Hands a result over and ends the process. */
_Noreturn void end_with(const result *came, int descriptor);

#endif
