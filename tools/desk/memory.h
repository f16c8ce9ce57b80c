/* Lent memory in rows: runs of cells beside each other that hold the same word. */
#ifndef MEMORY_H
#define MEMORY_H

#include "tables.h"

/* The cells of Mapped frames that are not 0 or are tagged, by their virtual cells; or, where a view
 * has a machine before, every cell that is not as it was there. */
void show_memory(const view *of);

/* Cells that were tagged and are not any more, with the words that they held, under a title. */
void show_cleared_cells(const char **title, const cetomuhi_machine *before,
                        const cetomuhi_machine *after, size_t width);

#endif
