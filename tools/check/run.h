/* Work in a process of its own. */
#ifndef RUN_H
#define RUN_H

#include "check.h"

/* Writes a whole result to the descriptor and ends the process. */
typedef void work(const check *which, const settings *how, int descriptor, progress *doing);

/* Does the work; if it ends otherwise or takes too long, the result is a failure that says so. The
 * process is gone when this returns. */
void run_apart(work *what, const check *which, const settings *how, result *came);

#endif
