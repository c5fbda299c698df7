/* Chivetassel for C: words for each number, for people to read. Beside chivetassel.h, which has no code; this has, and nobody
   need include it. C99 and C++. */
#ifndef CHIVETASSEL_TEXT_H
#define CHIVETASSEL_TEXT_H

#include "chivetassel.h"

/* What a number of an answer, CHIVETASSEL_NUMBER(answer), says. Never NULL; "no such number" where no call gives it. */
static inline const char *chivetassel_text(uint32_t number) {
    switch (number) {
    case 0: return "nothing is refused";
    case CHIVETASSEL_RULE_LENGTH: return "no plan has this length";
    case CHIVETASSEL_RULE_SUMS: return "the sums of a block are wrong: its bytes were changed or lost";
    case CHIVETASSEL_RULE_BLOCKS: return "a block is missing, too many or not in its place";
    case CHIVETASSEL_RULE_FIELDS: return "a field is out of range";
    case CHIVETASSEL_RULE_TREATMENT: return "a period lies outside of the treatment";
    case CHIVETASSEL_RULE_ORDER: return "a period begins before the period ahead of it";
    case CHIVETASSEL_RULE_DAY_NUMBERS: return "day numbers fall, or pass the interval or the period's length";
    case CHIVETASSEL_RULE_ANY_DAY: return "\"any day\" on a fixed dose, or beside a numbered day";
    case CHIVETASSEL_RULE_TOO_MANY_DOSES: return "more than 99 doses in one day";
    case CHIVETASSEL_RULE_SAME_TIME: return "the same time twice in one day";
    case CHIVETASSEL_RULE_OTHER_AMOUNTS: return "two untimed doses of one day with different amounts";
    case CHIVETASSEL_RULE_TIMED_AND_NOT: return "untimed doses beside morning, noon, evening or night";
    case CHIVETASSEL_RULE_HIGH_AMOUNT: return "an amount \"from .. to\" that does not rise from above 0";
    case CHIVETASSEL_RULE_TOO_MUCH: return "the period's fixed amounts are too large";
    case CHIVETASSEL_RULE_NO_DOSES: return "the plan has no doses";
    case CHIVETASSEL_RULE_SHARED_DAY: return "two periods share a day";
    case CHIVETASSEL_RULE_HOLE: return "a day is in no period, or the fixed or the as-needed list leaves it out";
    case CHIVETASSEL_PACK_TOO_LARGE: return "the pack is too large";
    case CHIVETASSEL_BAD_PAUSES: return "the pauses are no good";
    case CHIVETASSEL_BAD_START: return "the start is no day of the calendar";
    case CHIVETASSEL_BAD_CHOICE: return "there is no such choice";
    case CHIVETASSEL_NOTHING_TO_SUPPLY: return "no dose of the choice on or after the start";
    case CHIVETASSEL_SHORT_PART_BUFFER: return "the room for a part is too short";
    case CHIVETASSEL_SHORT_BUFFER: return "the room for the answer is too short";
    case CHIVETASSEL_NOT_SOUND: return "the register is damaged, or no register";
    case CHIVETASSEL_NO_SLOT_FREE: return "the register is full";
    case CHIVETASSEL_NOT_NEWER: return "this revision or a later one is held already";
    case CHIVETASSEL_NOT_HELD: return "no plan with this number is held";
    case CHIVETASSEL_OTHER_BYTES: return "the plan seen is not the plan held";
    case CHIVETASSEL_NO_SIGNER: return "0 is no signer";
    case CHIVETASSEL_SIGNED_ALREADY: return "this signer has signed already";
    case CHIVETASSEL_TWO_SIGNERS: return "two have signed already";
    case CHIVETASSEL_TOO_FEW_SIGNERS: return "fewer than two have signed";
    case CHIVETASSEL_SHORT_ROOM: return "the room for the plan is too short";
    default: return "no such number";
    }
}

/* What to look at where a call is refused with this number. Never NULL; "" for 0, and where no call gives it. */
static inline const char *chivetassel_look_at(uint32_t number) {
    switch (number) {
    case CHIVETASSEL_RULE_LENGTH: return "whether the whole plan was read: it has 1 to 32 blocks of 512 bytes";
    case CHIVETASSEL_RULE_SUMS: return "where the plan came from; have it sent again";
    case CHIVETASSEL_RULE_BLOCKS: return "the blocks' order and kinds, and the count in the head";
    case CHIVETASSEL_RULE_FIELDS: return "the block's counts, kinds, marks, minutes, amounts and days, and the bytes that have to be 0";
    case CHIVETASSEL_RULE_TREATMENT: return "the period's first and last day, and the treatment's";
    case CHIVETASSEL_RULE_ORDER: return "the period's first day, and the order of the periods";
    case CHIVETASSEL_RULE_DAY_NUMBERS: return "the day numbers of the period's doses as they stand, and its interval";
    case CHIVETASSEL_RULE_ANY_DAY: return "the period's doses with day number 0";
    case CHIVETASSEL_RULE_TOO_MANY_DOSES: return "how many doses of the period have the same day number";
    case CHIVETASSEL_RULE_SAME_TIME: return "the times of each day's doses, fixed and as needed together";
    case CHIVETASSEL_RULE_OTHER_AMOUNTS: return "the amounts of each day's doses without a time";
    case CHIVETASSEL_RULE_TIMED_AND_NOT: return "the times of all the period's doses";
    case CHIVETASSEL_RULE_HIGH_AMOUNT: return "the period's doses \"from .. to\": \"from\" is above 0 and below \"to\"";
    case CHIVETASSEL_RULE_TOO_MUCH: return "the amounts of the period's fixed doses, and their unit";
    case CHIVETASSEL_RULE_NO_DOSES: return "whether a period is missing; only a VKA plan may be without doses";
    case CHIVETASSEL_RULE_SHARED_DAY: return "the days of this period, and of those ahead of it";
    case CHIVETASSEL_RULE_HOLE: return "the days between the periods; an empty period says that nothing is taken";
    case CHIVETASSEL_PACK_TOO_LARGE: return "the pack: at most 10,000,000,000.00";
    case CHIVETASSEL_BAD_PAUSES: return "each pause's first and last day; there are at most 32";
    case CHIVETASSEL_BAD_START: return "the start: 2000-01-01 to 2199-12-31";
    case CHIVETASSEL_BAD_CHOICE: return "the choice: 1 or 2 for fixed doses by low or upper amounts, 3 for all doses, 4 for as-needed ones";
    case CHIVETASSEL_NOTHING_TO_SUPPLY: return "the start, and whether the plan has doses of the choice";
    case CHIVETASSEL_SHORT_PART_BUFFER: return "the calling program: each part needs 32,768 bytes";
    case CHIVETASSEL_SHORT_BUFFER: return "the calling program: the header says how many bytes each call needs";
    case CHIVETASSEL_NOT_SOUND: return "the last copy of the register that was sound; this one is to be kept as it is";
    case CHIVETASSEL_NO_SLOT_FREE: return "which plans may be dropped";
    case CHIVETASSEL_NOT_NEWER: return "the plan's revision, and the one that is held";
    case CHIVETASSEL_NOT_HELD: return "the plan number, and whether the plan was submitted";
    case CHIVETASSEL_OTHER_BYTES: return "the revision that is held, before it is signed";
    case CHIVETASSEL_NO_SIGNER: return "the signer's number";
    case CHIVETASSEL_SIGNED_ALREADY: return "who is to sign: the second signature is another pharmacist's";
    case CHIVETASSEL_TWO_SIGNERS: return "nothing: the plan can be released";
    case CHIVETASSEL_TOO_FEW_SIGNERS: return "who has still to sign this revision";
    case CHIVETASSEL_SHORT_ROOM: return "the calling program: a plan needs 16,384 bytes";
    default: return "";
    }
}

/* Why a supply ends: the fourth number of its `out`. Never NULL; "" for what is no reason. */
static inline const char *chivetassel_reason_text(uint64_t reason) {
    switch (reason) {
    case CHIVETASSEL_NEEDS_MORE: return "the next day needs more than is left";
    case CHIVETASSEL_STOP_DAY: return "the dosage ends";
    case CHIVETASSEL_STOP_LAST_DAY: return "the calendar ends";
    default: return "";
    }
}

#endif
