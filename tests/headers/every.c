/* Every call and constant of the header, used once, as C and as C++ have to take it. Compiled by tests/headers/run, never run. */
#include "chivetassel.h"
#include "chivetassel.h"

uint32_t numbers[] = {
    CHIVETASSEL_RULE_LENGTH, CHIVETASSEL_RULE_SUMS, CHIVETASSEL_RULE_BLOCKS, CHIVETASSEL_RULE_FIELDS, CHIVETASSEL_RULE_TREATMENT,
    CHIVETASSEL_RULE_ORDER, CHIVETASSEL_RULE_DAY_NUMBERS, CHIVETASSEL_RULE_ANY_DAY, CHIVETASSEL_RULE_TOO_MANY_DOSES,
    CHIVETASSEL_RULE_SAME_TIME, CHIVETASSEL_RULE_OTHER_AMOUNTS, CHIVETASSEL_RULE_TIMED_AND_NOT, CHIVETASSEL_RULE_HIGH_AMOUNT,
    CHIVETASSEL_RULE_TOO_MUCH, CHIVETASSEL_RULE_NO_DOSES, CHIVETASSEL_RULE_SHARED_DAY, CHIVETASSEL_RULE_HOLE,
    CHIVETASSEL_PACK_TOO_LARGE, CHIVETASSEL_BAD_PAUSES, CHIVETASSEL_BAD_START, CHIVETASSEL_BAD_CHOICE, CHIVETASSEL_NOTHING_TO_SUPPLY,
    CHIVETASSEL_SHORT_PART_BUFFER, CHIVETASSEL_SHORT_BUFFER, CHIVETASSEL_NOT_SOUND, CHIVETASSEL_NO_SLOT_FREE, CHIVETASSEL_NOT_NEWER,
    CHIVETASSEL_NOT_HELD, CHIVETASSEL_OTHER_BYTES, CHIVETASSEL_NO_SIGNER, CHIVETASSEL_SIGNED_ALREADY, CHIVETASSEL_TWO_SIGNERS,
    CHIVETASSEL_TOO_FEW_SIGNERS, CHIVETASSEL_SHORT_ROOM, CHIVETASSEL_LAST_DAY, CHIVETASSEL_OPEN,
};

/* The sizes are constants, so that a caller can declare buffers by them. */
uint8_t plan[CHIVETASSEL_PLAN_ROOM], fixed[CHIVETASSEL_PART_ROOM], need[CHIVETASSEL_PART_ROOM];
uint8_t pauses[CHIVETASSEL_PAUSE * CHIVETASSEL_PAUSES_MOST], reg[CHIVETASSEL_SLOT * CHIVETASSEL_SLOTS_MOST];
uint8_t covered[CHIVETASSEL_SUPPLY_OUT], dates[CHIVETASSEL_DATES_OUT], lengths[CHIVETASSEL_SPLIT_OUT], stretch[CHIVETASSEL_SHOW_DAY_OUT];
uint8_t sums[CHIVETASSEL_DAY_SUMS_OUT], length[CHIVETASSEL_RELEASE_OUT], state[CHIVETASSEL_STATE_OUT];

uint32_t every_call(void);

uint32_t every_call(void) {
    uint32_t all = chivetassel_version() ^ CHIVETASSEL_VERSION;
    all |= chivetassel_verdict(plan, CHIVETASSEL_BLOCK);
    all |= chivetassel_supply(plan, sizeof plan, 0, CHIVETASSEL_PACK_MOST, CHIVETASSEL_LOW, pauses, sizeof pauses, covered, sizeof covered);
    all |= chivetassel_dates(plan, sizeof plan, 0, CHIVETASSEL_PACK_MOST, pauses, sizeof pauses, dates, sizeof dates);
    all |= chivetassel_split(plan, sizeof plan, fixed, sizeof fixed, need, sizeof need, lengths, sizeof lengths);
    all |= chivetassel_show_day(fixed, sizeof fixed, need, sizeof need, CHIVETASSEL_NEED_LIST, 0, stretch, sizeof stretch);
    all |= chivetassel_day_sums(plan, sizeof plan, 0, sums, sizeof sums);
    all |= chivetassel_clear(reg, sizeof reg) | chivetassel_submit(reg, sizeof reg, plan, sizeof plan);
    all |= chivetassel_sign(reg, sizeof reg, 1, plan, sizeof plan) | chivetassel_drop(reg, sizeof reg, 1);
    all |= chivetassel_release(reg, sizeof reg, 1, plan, sizeof plan, length, sizeof length);
    all |= chivetassel_state(reg, sizeof reg, 1, state, sizeof state);
    return CHIVETASSEL_IS_DONE(all) ? CHIVETASSEL_NUMBER(all) : CHIVETASSEL_PLACE(all);
}

#if CHIVETASSEL_NUMBER(CHIVETASSEL_DONE) != 0 || CHIVETASSEL_PLACE(CHIVETASSEL_DONE) != 255
#error "done is number 0 at place 255"
#endif
#if CHIVETASSEL_FIXED_LIST != 1 || CHIVETASSEL_NEEDS_MORE != 1 || CHIVETASSEL_STOP_DAY != 2 || CHIVETASSEL_STOP_LAST_DAY != 3
#error "lists and reasons are document 01's"
#endif
#if CHIVETASSEL_LOW != 1 || CHIVETASSEL_UPPER != 2 || CHIVETASSEL_BOTH != 3 || CHIVETASSEL_AS_NEEDED != 4
#error "choices are those of documents 01 and 02"
#endif
