/* Chivetassel for C: dosage plans judged by the rules of document 01. `bash install PREFIX` proves the library and installs it
   with this header, for x86-64; it needs nothing but the C library. This header is C99 and C++ and has no code:
   chivetassel_text.h has the words for each number.

   Every call takes every input: no length, number or byte need be checked before. Bytes are passed as a pointer and their number;
   with a number of 0 the pointer may be NULL. They need not be aligned. Calls keep no state: they may be made from several
   threads at once, as long as none writes bytes that another uses.

   Buffers must not overlap. One thing is asked of the caller, because no call can see it: what a call writes overlaps nothing
   else that it is given. (What it only reads may overlap.) Otherwise nothing is promised, and no refusal tells: with the plan's
   own buffer as a part, split answers DONE and the doses are gone. Such parameters are declared `restrict`, so that a
   compiler may warn, and each such call says it again.

   A call returns number + 256 * place. The number is 0 where nothing is refused, else that of the first refusal in the
   order set by document 01; the place is the block of the plan that breaks a rule, counted from 0, or 255 where there is
   none. So no answer is 0, and none is false: what means that nothing is refused is CHIVETASSEL_DONE, 65,280, number 0 at
   place 255. Ask CHIVETASSEL_IS_DONE(answer). Compilers that can do so warn where an answer is not looked at.

   A refused call writes nothing, nowhere. All numbers in bytes stand least byte first. */
#ifndef CHIVETASSEL_H
#define CHIVETASSEL_H

#include <stddef.h>
#include <stdint.h>

/* The version of this header: the first number moves where an old caller has to be changed, the second where something is
   new, the third where something is mended or takes less time. chivetassel_version says it of the library that was linked. */
#define CHIVETASSEL_VERSION 10101u /* 10,000 * first + 100 * second + third */
#define CHIVETASSEL_VERSION_TEXT "1.1.1"

/* On what a call writes, and on what it reads beside that: see "Buffers must not overlap". */
#if defined(__GNUC__) || defined(_MSC_VER)
#define CHIVETASSEL_RESTRICT __restrict
#elif !defined(__cplusplus)
#define CHIVETASSEL_RESTRICT restrict
#else
#define CHIVETASSEL_RESTRICT
#endif

/* On what gives an answer. */
#if defined(__GNUC__)
#define CHIVETASSEL_MUST_USE __attribute__((warn_unused_result))
#elif defined(__cplusplus) && __cplusplus >= 201703L
#define CHIVETASSEL_MUST_USE [[nodiscard]]
#else
#define CHIVETASSEL_MUST_USE
#endif

#ifdef __cplusplus
extern "C" {
#endif

#define CHIVETASSEL_DONE 65280u

#define CHIVETASSEL_IS_DONE(answer) ((answer) == CHIVETASSEL_DONE)
#define CHIVETASSEL_NUMBER(answer) ((answer) & 255u)
#define CHIVETASSEL_PLACE(answer) ((answer) >> 8 & 255u)

/* A day is a number: 0 is 2000-01-01, the last is 2199-12-31. The open mark stands for "no end" and for "no day". */
#define CHIVETASSEL_LAST_DAY 73048u
#define CHIVETASSEL_OPEN 4294967295u

/* Sizes in bytes. */
#define CHIVETASSEL_BLOCK 512u          /* a plan is a head and up to 31 further blocks */
#define CHIVETASSEL_PLAN_ROOM 16384u    /* the longest plan, and the least room for release */
#define CHIVETASSEL_PART_ROOM 32768u    /* the least room for each part of split */
#define CHIVETASSEL_PAUSE 8u            /* one pause */
#define CHIVETASSEL_SLOT 16896u         /* one slot of an approval register */

/* The least bytes of `out`, call by call. */
#define CHIVETASSEL_SUPPLY_OUT 32u      /* days covered, last covered day, rest, reason */
#define CHIVETASSEL_DATES_OUT 40u       /* end, minimum, maximum, both kinds together, as needed only */
#define CHIVETASSEL_SPLIT_OUT 16u       /* length of the fixed part, length of the need part */
#define CHIVETASSEL_SHOW_DAY_OUT 16u    /* where in the part the blocks begin, how many bytes they are */
#define CHIVETASSEL_DAY_SUMS_OUT 32u    /* unmarked low, unmarked upper, marked low, marked upper */
#define CHIVETASSEL_RELEASE_OUT 8u      /* length of the plan */
#define CHIVETASSEL_STATE_OUT 16u       /* revision, how many have signed */

/* Limits. */
#define CHIVETASSEL_PAUSES_MOST 32u
#define CHIVETASSEL_PACK_MOST 1000000000000ull
#define CHIVETASSEL_SLOTS_MOST 64u

/* The rules of the verdict. The place is the very block in 2 to 4, the period's first block in 5 to 14, the later period's in
   16, and 255 in 1, 15 and 17. */
#define CHIVETASSEL_RULE_LENGTH 1u          /* the length is 0, no multiple of 512, or above 16,384 */
#define CHIVETASSEL_RULE_SUMS 2u            /* a block's sums are wrong */
#define CHIVETASSEL_RULE_BLOCKS 3u          /* no head, a wrong count, or neither a period nor a rightly placed continuation */
#define CHIVETASSEL_RULE_FIELDS 4u          /* a field out of range, a zero byte that isn't, or a first day after its end */
#define CHIVETASSEL_RULE_TREATMENT 5u       /* a period outside of the treatment, or open where that has an end */
#define CHIVETASSEL_RULE_ORDER 6u           /* a period's first day is before that of the period ahead of it */
#define CHIVETASSEL_RULE_DAY_NUMBERS 7u     /* day numbers fall, or pass the interval or the period's length */
#define CHIVETASSEL_RULE_ANY_DAY 8u         /* day number 0 on an unmarked dose, or beside another day number */
#define CHIVETASSEL_RULE_TOO_MANY_DOSES 9u  /* more than 99 doses with one day number */
#define CHIVETASSEL_RULE_SAME_TIME 10u      /* morning, noon, evening, night or a clock minute twice in one day */
#define CHIVETASSEL_RULE_OTHER_AMOUNTS 11u  /* two untimed doses in one day, need marks alike but amounts not */
#define CHIVETASSEL_RULE_TIMED_AND_NOT 12u  /* a period has untimed doses and morning, noon, evening or night */
#define CHIVETASSEL_RULE_HIGH_AMOUNT 13u    /* high isn't 0 and not high > low > 0 */
#define CHIVETASSEL_RULE_TOO_MUCH 14u       /* unmarked upper amounts of 100,000,000,000 or more for each day of the interval or the period */
#define CHIVETASSEL_RULE_NO_DOSES 15u       /* no period at all, or only empty ones in a plan that isn't VKA */
#define CHIVETASSEL_RULE_SHARED_DAY 16u     /* two periods share a day, unless one is need and the other fixed or empty */
#define CHIVETASSEL_RULE_HOLE 17u           /* a day in no period, or one that the fixed or the need list leaves out */

/* What the other calls refuse beside those. None has a place. */
#define CHIVETASSEL_PACK_TOO_LARGE 20u      /* above CHIVETASSEL_PACK_MOST */
#define CHIVETASSEL_BAD_PAUSES 21u          /* more than 32, one that is no stretch of days, or a length that is no multiple of 8 */
#define CHIVETASSEL_BAD_START 22u           /* above the last day */
#define CHIVETASSEL_BAD_CHOICE 23u          /* not 1 to 4 */
#define CHIVETASSEL_NOTHING_TO_SUPPLY 24u   /* no period has a dose of the choice, or the start lies after the choice's stop day */
#define CHIVETASSEL_SHORT_PART_BUFFER 25u   /* split: one of the two buffers has less than CHIVETASSEL_PART_ROOM bytes */
#define CHIVETASSEL_SHORT_BUFFER 26u        /* `out` is too short; given ahead of all else */

#define CHIVETASSEL_NOT_SOUND 30u           /* the register is not sound; of clear only: it has no slot */
#define CHIVETASSEL_NO_SLOT_FREE 31u        /* the number is not held, and no slot is free */
#define CHIVETASSEL_NOT_NEWER 32u           /* the number is held, and the revision is not greater */
#define CHIVETASSEL_NOT_HELD 33u            /* the number is not held */
#define CHIVETASSEL_OTHER_BYTES 34u         /* the plan is not byte for byte the one that is held */
#define CHIVETASSEL_NO_SIGNER 35u           /* signer 0 */
#define CHIVETASSEL_SIGNED_ALREADY 36u      /* the signer is already the first */
#define CHIVETASSEL_TWO_SIGNERS 37u         /* two signers stand */
#define CHIVETASSEL_TOO_FEW_SIGNERS 38u     /* fewer than two */
#define CHIVETASSEL_SHORT_ROOM 39u          /* release: the room has less than CHIVETASSEL_PLAN_ROOM bytes */

/* The version of the header that the library was built from. Where it is not CHIVETASSEL_VERSION, library and header do not
   belong together: a program asks once, when it starts. */
uint32_t chivetassel_version(void);

/* The verdict on a plan: CHIVETASSEL_DONE exactly where no rule is broken, else the lowest broken rule, 1 to 17, and the
   lowest block that breaks it. */
CHIVETASSEL_MUST_USE
uint32_t chivetassel_verdict(const uint8_t *plan, size_t plan_len);

/* Choices: which doses count, by which amount, and up to which day, the choice's stop day. The upper amount is high, or low
   where high is 0. */
#define CHIVETASSEL_LOW 1u                  /* unmarked doses by low amounts, up to the last day of any fixed or mixed period */
#define CHIVETASSEL_UPPER 2u                /* the same by upper amounts */
#define CHIVETASSEL_BOTH 3u                 /* marked and unmarked ones by upper amounts, up to that of any period with doses */
#define CHIVETASSEL_AS_NEEDED 4u            /* marked ones only by upper amounts, up to that of any need or mixed period */

#define CHIVETASSEL_NEEDS_MORE 1u           /* reasons: the next day needs more than the rest */
#define CHIVETASSEL_STOP_DAY 2u             /* the choice's stop day is reached */
#define CHIVETASSEL_STOP_LAST_DAY 3u        /* the same, and it is the calendar's last day */

/* How far a pack lasts from day `start` on, for the doses of a choice, 1 to 4. Amounts are hundredths of the plan's unit. A
   pause is 8 bytes: its first and its last day, which may be the open mark, 32 bits each; a paused day needs nothing. `out`
   gets four 64-bit numbers: days covered, last covered day (the open mark where there is none), rest, and why it ends (1 the
   next day needs more than the rest, 2 the choice's stop day is reached, 3 the same and it is the calendar's last day). `out`
   must overlap neither `plan` nor `pauses`. */
CHIVETASSEL_MUST_USE
uint32_t chivetassel_supply(const uint8_t *CHIVETASSEL_RESTRICT plan, size_t plan_len, uint32_t start, uint64_t pack,
                            uint32_t choice, const uint8_t *CHIVETASSEL_RESTRICT pauses, size_t pauses_len,
                            uint8_t *CHIVETASSEL_RESTRICT out, size_t out_len);

/* Supply's last covered days by all choices in one call. `out` gets five 64-bit numbers, each a day, or the open mark where the
   date is absent: the end date, the minimum date, the maximum date, the date of both kinds of doses together, and that of the
   as-needed doses only. Where a fixed or mixed period that ends on or after the start has an unmarked dose with a high amount,
   there is a minimum date, by choice 1, and a maximum date, by choice 2, which is never the later one; otherwise there is an
   end date, by choice 1 or 2, which agree then. The last two, by choices 3 and 4, are there only where a need or mixed period
   ends on or after the start. A date without a covered day, or that supply would refuse with CHIVETASSEL_NOTHING_TO_SUPPLY, is
   absent: all five may be, and nothing is refused for it. Refused as supply is for the plan, the pack, the pauses and the
   start. `out` must overlap neither `plan` nor `pauses`. */
CHIVETASSEL_MUST_USE
uint32_t chivetassel_dates(const uint8_t *CHIVETASSEL_RESTRICT plan, size_t plan_len, uint32_t start, uint64_t pack,
                           const uint8_t *CHIVETASSEL_RESTRICT pauses, size_t pauses_len, uint8_t *CHIVETASSEL_RESTRICT out,
                           size_t out_len);

/* Splits a plan into its fixed and its as-needed part. `fixed` and `need` have at least CHIVETASSEL_PART_ROOM bytes each. Each
   part stands at the beginning of its buffer, and `out` gets two 64-bit numbers: the length of the fixed part and that of the
   need part. Bytes behind a part stay as they were. None of the four buffers may overlap another: to split a plan in its own
   buffer loses doses. */
CHIVETASSEL_MUST_USE
uint32_t chivetassel_split(const uint8_t *CHIVETASSEL_RESTRICT plan, size_t plan_len, uint8_t *CHIVETASSEL_RESTRICT fixed,
                           size_t fixed_len, uint8_t *CHIVETASSEL_RESTRICT need, size_t need_len,
                           uint8_t *CHIVETASSEL_RESTRICT out, size_t out_len);

#define CHIVETASSEL_FIXED_LIST 1u
#define CHIVETASSEL_NEED_LIST 2u

/* Where in a part the blocks of its first period lie that has `day`: list 1 asks of the fixed part, 2 of the need part. Both
   are given by their own lengths, as split says them. `out` gets two 64-bit numbers: where the blocks begin in the wanted part,
   and how many bytes they are. Both are 0 for another list number, for a part that breaks one of rules 1 to 4 (its limit
   is CHIVETASSEL_PART_ROOM), and where no period has the day. Refused only with CHIVETASSEL_SHORT_BUFFER. `out` must overlap
   neither part. */
CHIVETASSEL_MUST_USE
uint32_t chivetassel_show_day(const uint8_t *CHIVETASSEL_RESTRICT fixed, size_t fixed_len,
                              const uint8_t *CHIVETASSEL_RESTRICT need, size_t need_len, uint32_t list, uint32_t day,
                              uint8_t *CHIVETASSEL_RESTRICT out, size_t out_len);

/* The four sums of a day's doses, into `out` as four 64-bit numbers: unmarked low, unmarked upper, marked low, marked upper.
   A plan that is not accepted is refused as by the verdict; a day that no period has gets four zeros. `out` must not overlap
   `plan`. */
CHIVETASSEL_MUST_USE
uint32_t chivetassel_day_sums(const uint8_t *CHIVETASSEL_RESTRICT plan, size_t plan_len, uint32_t day,
                              uint8_t *CHIVETASSEL_RESTRICT out, size_t out_len);

/* The approval register is a lent buffer of slots of CHIVETASSEL_SLOT bytes, at most CHIVETASSEL_SLOTS_MOST; bytes behind them
   are neither read nor written. Begin with chivetassel_clear, and change the bytes by these calls alone: then the register is
   always sound, and what is released is byte for byte the latest plan accepted under its number since that was last dropped
   or cleared, signed since by two different signers. */

/* Frees every slot, whatever stood there. Refused only with CHIVETASSEL_NOT_SOUND, where there is no slot. */
CHIVETASSEL_MUST_USE
uint32_t chivetassel_clear(uint8_t *reg, size_t reg_len);

/* Takes an accepted plan in. A number that is held must come with a greater revision: it takes the old plan's place, and the
   signatures are gone. `plan` must not lie in the register. */
CHIVETASSEL_MUST_USE
uint32_t chivetassel_submit(uint8_t *CHIVETASSEL_RESTRICT reg, size_t reg_len, const uint8_t *CHIVETASSEL_RESTRICT plan,
                            size_t plan_len);

/* Signs the plan as seen, which must be byte for byte the one held under its number. `plan` must not lie in the register: those
   bytes are what is held, and not what was seen. */
CHIVETASSEL_MUST_USE
uint32_t chivetassel_sign(uint8_t *CHIVETASSEL_RESTRICT reg, size_t reg_len, uint32_t signer,
                          const uint8_t *CHIVETASSEL_RESTRICT plan, size_t plan_len);

/* Puts the plan with this number, which two have signed, into `room`, at least CHIVETASSEL_PLAN_ROOM bytes, and its length into
   `out` as a 64-bit number. Bytes behind the plan stay as they were, and so does the register. `room`, `out` and the register
   must not overlap: with `out` in the room, the length is written over the plan. */
CHIVETASSEL_MUST_USE
uint32_t chivetassel_release(const uint8_t *CHIVETASSEL_RESTRICT reg, size_t reg_len, uint32_t number,
                             uint8_t *CHIVETASSEL_RESTRICT room, size_t room_len, uint8_t *CHIVETASSEL_RESTRICT out,
                             size_t out_len);

/* Frees the slot of the plan with this number. */
CHIVETASSEL_MUST_USE
uint32_t chivetassel_drop(uint8_t *reg, size_t reg_len, uint32_t number);

/* The revision of the plan with this number and how many have signed it, 0 to 2, into `out` as two 64-bit numbers. `out` must
   not lie in the register. */
CHIVETASSEL_MUST_USE
uint32_t chivetassel_state(const uint8_t *CHIVETASSEL_RESTRICT reg, size_t reg_len, uint32_t number,
                           uint8_t *CHIVETASSEL_RESTRICT out, size_t out_len);

#ifdef __cplusplus
}
#endif

#endif
