/* What is ended or removed when the program is interrupted. */
#ifndef INTERRUPT_H
#define INTERRUPT_H

#include <sys/types.h>

/* From now on an interrupt kills the child and removes the file that are named below, and then
 * ends the program. A lost reader or a full disk is no signal but an error of the write. */
void heed_signals(void);

/* In a child: signals do what they do by themselves. */
void heed_no_signals(void);

/* 0: none is running. */
void name_child(pid_t child);

/* NULL: none is unfinished. The name stays where it is. */
void name_unfinished(const char *path);

#endif
