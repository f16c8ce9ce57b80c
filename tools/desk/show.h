/* What is printed of a session. */
#ifndef SHOW_H
#define SHOW_H

#include "session.h"

/* What stands beside each line and below it. */
typedef struct manner {
    bool explain;
    bool tables;
    bool changes; /* of the tables what has changed alone */
    bool map;
    bool each; /* tables and map after each line; else after the last */
    size_t width;
    size_t map_width;
} manner;

/* Prints a session that was run to its end. */
void show_session(session *of, const manner *how);

#endif
