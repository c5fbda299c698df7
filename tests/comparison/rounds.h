/* Rounds of an iterated period, as supply counts them: shared by what asks and what notes. */
#ifndef ROUNDS_H
#define ROUNDS_H

#include "../reference/plan.h"
#include "calls.h"

/* Does a choice, 1 to 4, count one of its doses? */
bool has_dose_of(const struct period *period, uint32_t choice);

/* What any of its rounds needs by a choice: each dose of an iterated period applies on one day of any round. */
uint64_t need_of_round(const struct period *period, uint32_t choice);

/* Events that the last call came to, which was not refused. */
void note_supply(const struct plan *plan, const struct input *in);
void note_dates_of_rounds(const struct plan *plan, const struct input *in);

#endif
