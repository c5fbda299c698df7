/* What the calls are asked: arguments made from a plan, and histories of calls on a register. */
#ifndef ASK_H
#define ASK_H

#include "calls.h"
#include "random.h"

/* The verdict on a plan, and whether it is accepted. */
bool ask_verdict(struct random *r, const uint8_t *plan, size_t length);

/* Every call that takes a plan or its parts. */
void ask_of_plan(struct random *r, const uint8_t *plan, size_t length);
/* Supply and dates of a plan of iterated periods. */
void ask_of_rounds(struct random *r);
/* A history of calls on a register. */
void ask_of_register(struct random *r);
/* Supply of plans with small rounds, all of them; how often it was asked. A difference is told and ends the program. */
uint64_t ask_small_walks(void);

/* What a run has to come to beside the refusals, and how often it did. compare.c has the words. */
enum event {
    SUPPLY_NEEDS_MORE, SUPPLY_STOP_DAY, SUPPLY_LAST_DAY, /* by reason, then by choice */
    SUPPLY_BY_1, SUPPLY_BY_2, SUPPLY_BY_3, SUPPLY_BY_4,
    NOTHING_BY_1, NOTHING_BY_2, NOTHING_BY_3, NOTHING_BY_4,
    CHOICE_0, CHOICE_5, CHOICE_257,
    DATES_RULE_BROKEN, DATES_39_BYTES, DATES_NONE, DATES_END, DATES_APART, DATES_MINIMUM_ALONE, DATES_3_IS_4, DATES_3_IS_NOT_4,
    DATES_4_ALONE, DATES_NEED_ONLY,
    DAY_SHOWN, NO_DAY_SHOWN,
    ROUNDS_OF_1, ROUNDS_OF_2, ROUNDS_OF_7, ROUNDS_OF_28, ROUNDS_OF_620, ROUND_OF_65535, /* from here on by note_rounds.c */
    ROUNDS_OF_HUNDREDS, ROUNDS_OF_THOUSANDS, ROUNDS_TO_2199, PAUSED_TO_2199, ROUNDS_OF_NOTHING, ROUNDS_NOT_OF_CHOICE,
    ANY_DAY_BY_3, ANY_DAY_BY_4,
    START_AHEAD, START_FIRST_DAY, START_LAST_DAY, START_ROUND, START_END_OF_ROUND, START_INSIDE_ROUND,
    PACK_ONE_LESS, PACK_EXACT, PACK_ONE_MORE, PACK_MANY_ONE_LESS, PACK_MANY_EXACT, PACK_MANY_ONE_MORE,
    STOP_WITH_ROUND, STOP_AFTER_ROUND, STOP_SHORT_OF_ROUND, NEXT_WITH_ROUND, NEXT_INSIDE_ROUND,
    OVER_BEGINS_BY_1, OVER_BEGINS_BY_2, OVER_BEGINS_BY_3, OVER_BEGINS_BY_4,
    OVER_ENDS_BY_1, OVER_ENDS_BY_2, OVER_ENDS_BY_3, OVER_ENDS_BY_4,
    PAUSE_ON_LAST_OF_ROUND, PAUSE_ON_FIRST_OF_ROUND, PAUSE_OF_A_DAY, PAUSE_UP_TO_ROUND, PAUSE_OPEN, PAUSE_PAST_STOP,
    PAUSES_TOUCH, PAUSES_OVERLAP, PAUSES_DAY_BETWEEN, PAUSES_ROUND_BETWEEN, PAUSES_SHORT_ROUND_BETWEEN, PAUSES_LONG_ROUND_BETWEEN,
    ROUNDS_TO_END_DATE, ROUNDS_TO_MINIMUM, ROUNDS_TO_MAXIMUM, ROUNDS_TO_DATE_3, ROUNDS_TO_DATE_4,
    EVENTS
};
extern uint64_t events[EVENTS];

/* An input with everything but what it is about; the address and the pattern are any. */
struct input begin_input(struct random *r, enum call call, size_t out_len);

#endif
