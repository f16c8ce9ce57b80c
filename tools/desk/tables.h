/* A machine's state and lent memory in tables, or what of them has changed. */
#ifndef TABLES_H
#define TABLES_H

#include "cetomuhi.h"
#include "text.h"

/* The tables of a machine; `was`, if it is not NULL, is the machine before, and what is as it was
 * there is left out. */
typedef struct view {
    const cetomuhi_machine *is;
    const cetomuhi_machine *was;
    size_t width;
} view;

void show_tables(const view *of);

/* The words whose tags a sweep or a collect has cleared, as they were before. */
void show_cleared(const cetomuhi_machine *before, const cetomuhi_machine *after, size_t width);

#endif
