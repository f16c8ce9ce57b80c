/* Causes of 20 to 22, refusals by principals and claims; each says whether the state shows it. */
#ifndef CLAIM_CAUSES_H
#define CLAIM_CAUSES_H

#include "refused.h"

bool wrong_principal(text *to, const refused *it);
bool claim_limit(text *to, const refused *it);
bool claimed(text *to, const refused *it);

#endif
