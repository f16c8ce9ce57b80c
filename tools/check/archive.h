/* The archive that this program was linked with, and the one that is installed beside it. */
#ifndef ARCHIVE_H
#define ARCHIVE_H

#include "sha256.h"

/* What is found at ../lib/libcetomuhi.a, seen from the program's own file. */
typedef enum beside { SAME, DIFFERS, NOT_THERE, NOT_READ, NOT_COMPARED } beside;

typedef struct archive {
    const char *linked; /* its sum, or "not recorded" */
    beside installed;
    char sum[SHA256_DIGITS + 1]; /* of the installed one, if it was read */
} archive;

archive look_at_archive(void);

/* A sentence on the installed one. */
const char *archive_words(const archive *it);

#endif
