/* What a session came to, on standard error, and the status that it ends with. */
#ifndef VERDICT_H
#define VERDICT_H

#include "session.h"

enum status {
    STATUS_GOOD = 0,
    STATUS_DIFFERS = 1,
    STATUS_BAD_USE = 2,
    STATUS_OUTPUT_LOST = 3,
    STATUS_ENDED_EARLY = 4,
    STATUS_NOT_BUILT = 5
};

/* Tells of a session that was run to its end: where a command runs on into the next line, the first
 * answer that the file does not expect, where it ended early; at last one sentence. */
int tell_verdict(session *of);

#endif
