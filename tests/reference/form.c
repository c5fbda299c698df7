/* Rules 1 to 4: the form of the bytes. */
#include "plan.h"

static const uint64_t MOST_AMOUNT = 9999999999u;

/* 1: length is 0, no multiple of 512, or above 16,384 */
static bool rule_1(size_t length, size_t limit) {
    return length == 0 || length % BLOCK != 0 || length > limit;
}

/* 2: a block's sums are wrong */
static bool rule_2(const uint8_t *bytes, size_t length, uint32_t place) {
    (void)length;
    return !sums_right(bytes + place * BLOCK);
}

/* "It follows a period or continuation block that holds exactly 20." */
static bool rightly_placed(const uint8_t *before) {
    return (before[0] == 2 || before[0] == 3) && before[1] == 20;
}

/* 3: block 0 is no head, its count is wrong, or a later block is neither a period nor a rightly placed continuation */
static bool rule_3(const uint8_t *bytes, size_t length, uint32_t place) {
    const uint8_t *block = bytes + place * BLOCK;
    if (place == 0)
        return block[0] != 1 || block[1] != length / BLOCK - 1;
    return !(block[0] == 2 || (block[0] == 3 && rightly_placed(block - BLOCK)));
}

/* "a day is above 73,048 and not an allowed open mark, or a first day or treatment start lies after its end" */
static bool bad_days(uint32_t first, uint32_t last) {
    return first > LAST_DAY || (last > LAST_DAY && last != OPEN) || first > closed(last);
}

/* "The minute is 0 to 1,439 for kind 5, else 0. Amounts are .. at most 9,999,999,999." */
static bool bad_dose(const uint8_t *record) {
    uint64_t minute = number_at(record + 4, 2);
    return record[2] > 5 || record[3] > 1 || minute > (record[2] == 5 ? 1439u : 0u) || !all_zero(record + 6, 2) ||
           number_at(record + 8, 8) > MOST_AMOUNT || number_at(record + 16, 8) > MOST_AMOUNT;
}

static bool bad_doses(const uint8_t *block) {
    for (uint32_t i = 0; i < block[1]; i++)
        if (bad_dose(block + 24 + 24 * i))
            return true;
    uint32_t behind = 24 + 24u * block[1];
    return !all_zero(block + behind, 504 - behind);
}

static bool bad_head(const uint8_t *block) {
    return bad_days((uint32_t)number_at(block + 4, 4), (uint32_t)number_at(block + 8, 4)) || block[20] > 1 ||
           !all_zero(block + 21, 504 - 21);
}

static bool bad_period(const uint8_t *block) {
    return block[1] > 20 || bad_days((uint32_t)number_at(block + 4, 4), (uint32_t)number_at(block + 8, 4)) ||
           !all_zero(block + 12, 12) || bad_doses(block);
}

static bool bad_continuation(const uint8_t *block) {
    return block[1] < 1 || block[1] > 20 || !all_zero(block + 2, 22) || bad_doses(block);
}

/* 4: a field is out of range, a zero byte isn't zero, a day is above 73,048 and not an allowed open mark, or a first day or
   treatment start lies after its end */
static bool rule_4(const uint8_t *bytes, size_t length, uint32_t place) {
    (void)length;
    const uint8_t *block = bytes + place * BLOCK;
    return block[0] == 1 ? bad_head(block) : block[0] == 2 ? bad_period(block) : bad_continuation(block);
}

typedef bool rule(const uint8_t *bytes, size_t length, uint32_t place);

struct answer judge_form(const uint8_t *bytes, size_t length, size_t limit) {
    static rule *const rules[] = {rule_2, rule_3, rule_4};
    if (rule_1(length, limit))
        return (struct answer){1, 255};
    for (uint32_t i = 0; i < 3; i++)
        for (uint32_t place = 0; place < length / BLOCK; place++)
            if (rules[i](bytes, length, place))
                return (struct answer){2 + i, place};
    return (struct answer){0, 255};
}
