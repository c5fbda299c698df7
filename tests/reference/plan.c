/* Numbers, sums, and reading a plan: document 01, "The block". */
#include "plan.h"

uint64_t number_at(const uint8_t *at, uint32_t bytes) {
    uint64_t number = 0;
    for (uint32_t i = bytes; i > 0; i--)
        number = number * 256 + at[i - 1];
    return number;
}

void put_number(uint8_t *at, uint32_t bytes, uint64_t number) {
    for (uint32_t i = 0; i < bytes; i++) {
        at[i] = (uint8_t)(number % 256);
        number /= 256;
    }
}

bool all_zero(const uint8_t *at, size_t bytes) {
    for (size_t i = 0; i < bytes; i++)
        if (at[i] != 0)
            return false;
    return true;
}

/* "for each word, the first sum grows by the word, then the second by the first, both dropping what passes 32 bits" */
static void sums_of(const uint8_t *block, uint32_t *first, uint32_t *second) {
    *first = *second = 0;
    for (uint32_t word = 0; word < 126; word++) {
        *first += (uint32_t)number_at(block + 4 * word, 4);
        *second += *first;
    }
}

bool sums_right(const uint8_t *block) {
    uint32_t first, second;
    sums_of(block, &first, &second);
    return number_at(block + 504, 4) == first && number_at(block + 508, 4) == second;
}

void seal(uint8_t *block) {
    uint32_t first, second;
    sums_of(block, &first, &second);
    put_number(block + 504, 4, first);
    put_number(block + 508, 4, second);
}

/* "Dose: 0-1 day number (0 = AnyDay); 2 time kind; 3 need mark ..; 4-5 minute; 8-15 low amount; 16-23 high amount" */
static struct dose read_dose(const uint8_t *record) {
    struct dose dose;
    dose.record = record;
    dose.day = (uint32_t)number_at(record, 2);
    dose.kind = record[2];
    dose.mark = record[3];
    dose.minute = (uint32_t)number_at(record + 4, 2);
    dose.low = number_at(record + 8, 8);
    dose.high = number_at(record + 16, 8);
    return dose;
}

/* "Period: .. 2-3 iteration interval ..; 4-7 first day; 8-11 last day or open" */
static void begin_period(struct period *period, const uint8_t *block, uint32_t place, const struct dose *dose) {
    period->block = place;
    period->blocks = 0;
    period->interval = (uint32_t)number_at(block + 2, 2);
    period->first = (uint32_t)number_at(block + 4, 4);
    period->last = (uint32_t)number_at(block + 8, 4);
    period->dose = dose;
    period->doses = 0;
}

void read_plan(struct plan *plan, const uint8_t *bytes, size_t length) {
    plan->start = (uint32_t)number_at(bytes + 4, 4);
    plan->end = (uint32_t)number_at(bytes + 8, 4);
    plan->number = (uint32_t)number_at(bytes + 12, 4);
    plan->revision = (uint32_t)number_at(bytes + 16, 4);
    plan->vka = bytes[20] == 1;
    plan->periods = 0;
    uint32_t doses = 0;
    for (uint32_t place = 1; place < length / BLOCK; place++) {
        const uint8_t *block = bytes + place * BLOCK;
        if (block[0] == 2)
            begin_period(&plan->period[plan->periods++], block, place, plan->dose + doses);
        struct period *period = &plan->period[plan->periods - 1];
        period->blocks++;
        for (uint32_t i = 0; i < block[1]; i++) {
            plan->dose[doses++] = read_dose(block + 24 + 24 * i);
            period->doses++;
        }
    }
}

enum class class_of(const struct period *period) {
    uint32_t marked = 0;
    for (uint32_t i = 0; i < period->doses; i++)
        marked += period->dose[i].mark;
    return period->doses == 0 ? EMPTY : marked == 0 ? FIXED : marked == period->doses ? NEED : MIXED;
}

bool of_fixed(enum class class) {
    return class == FIXED || class == MIXED;
}

bool of_need(enum class class) {
    return class == NEED || class == MIXED;
}

uint32_t closed(uint32_t last) {
    return last == OPEN ? LAST_DAY : last;
}

bool covers(const struct period *period, uint32_t day) {
    return period->first <= day && day <= closed(period->last);
}

/* "The upper amount is high, or low where high is 0." */
uint64_t upper(const struct dose *dose) {
    return dose->high != 0 ? dose->high : dose->low;
}

uint32_t code(struct answer answer) {
    return answer.number + 256 * answer.place;
}

uint32_t refused(uint32_t number) {
    return number + 256 * 255;
}
