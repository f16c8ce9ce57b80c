/* The record of a run, the protocol. It is written beside its file and takes the file's place when
 * it is whole. */
#ifndef RECORD_H
#define RECORD_H

#include <stdio.h>

#include "archive.h"
#include "check.h"

typedef struct record {
    FILE *out;        /* NULL: no record is wanted */
    char *path;       /* where it goes */
    char *unfinished; /* where it is meanwhile; NULL: it is written in place, to a device */
} record;

/* False, and a line on standard error, if it cannot be made. */
bool begin_record(record *it, const char *path);

/* What stands at its head. `version` is the library's, in words. */
void record_head(record *it, const settings *how, const archive *found, const char *version);

/* Puts it in its place. False, and nothing is left of it, if it could not be written. */
bool end_record(record *it);

#endif
