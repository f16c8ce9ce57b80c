/* Causes of 15 to 19, refusals of calls on words; each says whether the state shows it. */
#ifndef WORD_CAUSES_H
#define WORD_CAUSES_H

#include "refused.h"

bool untagged(text *to, const refused *it);
bool no_permission(text *to, const refused *it);
bool out_of_bounds(text *to, const refused *it);
bool not_mapped(text *to, const refused *it);
bool mailbox(text *to, const refused *it);

#endif
