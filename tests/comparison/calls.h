/* One call made twice, on the library and on the reference, with all that is lent to it. */
#ifndef CALLS_H
#define CALLS_H

#include <stdbool.h>
#include <stddef.h>
#include <stdint.h>

enum call { VERDICT, SUPPLY, DATES, SPLIT, SHOW_DAY, DAY_SUMS, CLEAR, SUBMIT, SIGN, RELEASE, DROP, STATE, CALLS };

#define SLOT_BYTES 16896u

enum { PLAN_SIZE = 33800, PART_SIZE = 33800, OUT_SIZE = 64, REGISTER_SIZE = 66 * 16896 };

/* What a call is given. Parts are given to show_day; of split's buffers and release's room only the lengths are. */
struct input {
    enum call call;
    const uint8_t *plan, *fixed, *need, *pauses;
    size_t plan_len, fixed_len, need_len, pauses_len, out_len, reg_len;
    uint32_t start, choice, list, day, signer, number;
    uint64_t pack;
    uint32_t shift;  /* how far from an even address the bytes lie */
    uint8_t pattern; /* what stands in lent buffers before the call */
};

/* Makes the call on both sides and compares the answers and every lent byte, those behind and the inputs too. Gives the
   answer. A difference is told and ends the program. */
uint32_t call_both(const struct input *input);

/* What the last call left in the buffers. */
const uint8_t *out_now(void);
const uint8_t *fixed_now(void);
const uint8_t *need_now(void);
const uint8_t *register_now(void);

/* Changes the register on both sides. */
void put_register(size_t at, const uint8_t *bytes, size_t length);

/* For what is told of a difference. */
void name_input(uint64_t seed, uint64_t number);

/* How often each number was answered to each call. */
extern uint64_t answers[CALLS][64];
extern const char *const call_names[CALLS];

#endif
