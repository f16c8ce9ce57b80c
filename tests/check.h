/* What the tests in C share: claims are counted, those that fail are printed. */
#ifndef CHECK_H
#define CHECK_H

#include <cetomuhi.h>

#include <stdio.h>
#include <stdlib.h>

#define COUNT(array) (sizeof(array) / sizeof(array)[0])
#define CHECK(claim) check(claim, #claim, __FILE__, __LINE__)

static unsigned long checks;
static unsigned long failures;

static void check(bool holds, const char *claim, const char *file, int line) {
    checks++;
    if (holds)
        return;
    if (failures < 20)
        printf("%s:%d: does not hold: %s\n", file, line, claim);
    failures++;
}

/* The number of a principal in being. */
static inline uint64_t principal_of(uint64_t holder, uint64_t parent, uint64_t unspent) {
    return unspent | parent << 16 | holder << 24 | UINT64_C(1) << 32;
}

/* The exit status of the program. */
static int end(const char *name) {
    printf("%s: %lu claims hold, %lu do not\n", name, checks - failures, failures);
    return failures == 0 && checks > 0 ? 0 : 1;
}

#endif
