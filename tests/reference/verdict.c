/* Rules 5 to 17, and the order of all: "the lowest broken number, then the lowest block that breaks it". */
#include "plan.h"
#include "reference.h"

#include <string.h>

static uint32_t length_of(const struct period *period) {
    return closed(period->last) - period->first + 1;
}

/* 5: a period starts before the treatment or ends after it, or is open where the treatment has an end */
static bool rule_5(const struct plan *plan, uint32_t at) {
    const struct period *period = &plan->period[at];
    return period->first < plan->start || closed(period->last) > closed(plan->end) ||
           (period->last == OPEN && plan->end != OPEN);
}

/* 6: a period's first day is before that of the period ahead of it */
static bool rule_6(const struct plan *plan, uint32_t at) {
    return at > 0 && plan->period[at].first < plan->period[at - 1].first;
}

/* 7: day numbers fall, or one passes the interval, or, not iterated and not open, the period's length */
static bool rule_7(const struct plan *plan, uint32_t at) {
    const struct period *period = &plan->period[at];
    for (uint32_t i = 0; i < period->doses; i++) {
        uint32_t day = period->dose[i].day;
        if (i > 0 && day < period->dose[i - 1].day)
            return true;
        if (period->interval > 0 && day > period->interval)
            return true;
        if (period->interval == 0 && period->last != OPEN && day > length_of(period))
            return true;
    }
    return false;
}

/* 8: day number 0 on an unmarked dose, or beside another day number in the period */
static bool rule_8(const struct plan *plan, uint32_t at) {
    const struct period *period = &plan->period[at];
    bool any_day = false, other = false;
    for (uint32_t i = 0; i < period->doses; i++) {
        if (period->dose[i].day == 0 && period->dose[i].mark == 0)
            return true;
        any_day |= period->dose[i].day == 0;
        other |= period->dose[i].day != 0;
    }
    return any_day && other;
}

/* 9: more than 99 doses with one day number */
static bool rule_9(const struct plan *plan, uint32_t at) {
    const struct period *period = &plan->period[at];
    for (uint32_t i = 0; i < period->doses; i++) {
        uint32_t same = 0;
        for (uint32_t j = 0; j < period->doses; j++)
            same += period->dose[j].day == period->dose[i].day;
        if (same > 99)
            return true;
    }
    return false;
}

typedef bool clash(const struct dose *a, const struct dose *b);

/* Whether two doses with one day number clash. */
static bool in_one_day(const struct period *period, clash *clash) {
    for (uint32_t i = 0; i < period->doses; i++)
        for (uint32_t j = 0; j < i; j++)
            if (period->dose[i].day == period->dose[j].day && clash(&period->dose[i], &period->dose[j]))
                return true;
    return false;
}

static bool same_time(const struct dose *a, const struct dose *b) {
    return a->kind != 0 && a->kind == b->kind && a->minute == b->minute;
}

/* 10: in one day, kind 1, 2, 3 or 4 twice, or one clock minute twice, need marks disregarded */
static bool rule_10(const struct plan *plan, uint32_t at) {
    return in_one_day(&plan->period[at], same_time);
}

static bool other_amounts(const struct dose *a, const struct dose *b) {
    return a->kind == 0 && b->kind == 0 && a->mark == b->mark && (a->low != b->low || a->high != b->high);
}

/* 11: in one day, two kind 0 doses with the same need mark but other amounts */
static bool rule_11(const struct plan *plan, uint32_t at) {
    return in_one_day(&plan->period[at], other_amounts);
}

/* 12: a period has kind 0 and one of kinds 1 to 4 */
static bool rule_12(const struct plan *plan, uint32_t at) {
    const struct period *period = &plan->period[at];
    bool untimed = false, timed = false;
    for (uint32_t i = 0; i < period->doses; i++) {
        uint32_t kind = period->dose[i].kind;
        untimed |= kind == 0;
        timed |= kind >= 1 && kind <= 4;
    }
    return untimed && timed;
}

/* 13: high isn't 0 and not high > low > 0 */
static bool rule_13(const struct plan *plan, uint32_t at) {
    const struct period *period = &plan->period[at];
    for (uint32_t i = 0; i < period->doses; i++) {
        uint64_t low = period->dose[i].low, high = period->dose[i].high;
        if (high != 0 && !(high > low && low > 0))
            return true;
    }
    return false;
}

/* "N is the interval, or the length, or, not iterated and open, the largest day number of its unmarked doses, at least 1" */
static uint64_t days_of_sum(const struct period *period) {
    if (period->interval > 0)
        return period->interval;
    if (period->last != OPEN)
        return length_of(period);
    uint32_t largest = 1;
    for (uint32_t i = 0; i < period->doses; i++)
        if (period->dose[i].mark == 0 && period->dose[i].day > largest)
            largest = period->dose[i].day;
    return largest;
}

/* 14: the sum of the period's unmarked upper amounts is 100,000,000,000 x N or more */
static bool rule_14(const struct plan *plan, uint32_t at) {
    const struct period *period = &plan->period[at];
    uint64_t sum = 0;
    for (uint32_t i = 0; i < period->doses; i++)
        if (period->dose[i].mark == 0)
            sum += upper(&period->dose[i]);
    return sum >= 100000000000u * days_of_sum(period);
}

/* 15: no period at all, or only empty ones in a plan that isn't VKA */
static bool rule_15(const struct plan *plan) {
    for (uint32_t i = 0; i < plan->periods; i++)
        if (plan->vka || class_of(&plan->period[i]) != EMPTY)
            return false;
    return true;
}

static bool share_a_day(const struct period *a, const struct period *b) {
    return a->first <= closed(b->last) && b->first <= closed(a->last);
}

/* "one is need and the other fixed or empty" */
static bool may_share(enum class a, enum class b) {
    return (a == NEED && (b == FIXED || b == EMPTY)) || (b == NEED && (a == FIXED || a == EMPTY));
}

/* 16: two periods share a day, unless one is need and the other fixed or empty; the place is the later period's first block */
static bool rule_16(const struct plan *plan, uint32_t at) {
    const struct period *later = &plan->period[at];
    for (uint32_t i = 0; i < at; i++)
        if (share_a_day(&plan->period[i], later) && !may_share(class_of(&plan->period[i]), class_of(later)))
            return true;
    return false;
}

static bool of_any(enum class class) { (void)class; return true; }
static bool of_fixed_or_empty(enum class class) { return of_fixed(class) || class == EMPTY; }
static bool of_need_or_empty(enum class class) { return of_need(class) || class == EMPTY; }

/* Whether a day between the first and last day of the periods that reach is in no period that fills. */
static bool hole(const struct plan *plan, bool (*reaches)(enum class), bool (*fills)(enum class)) {
    static uint8_t filled[LAST_DAY + 1];
    uint32_t first = OPEN, last = 0;
    for (uint32_t i = 0; i < plan->periods; i++) {
        const struct period *period = &plan->period[i];
        if (reaches(class_of(period))) {
            first = period->first < first ? period->first : first;
            last = closed(period->last) > last ? closed(period->last) : last;
        }
    }
    if (first == OPEN)
        return false;
    memset(filled + first, 0, last - first + 1);
    for (uint32_t i = 0; i < plan->periods; i++) {
        const struct period *period = &plan->period[i];
        if (fills(class_of(period)))
            memset(filled + period->first, 1, length_of(period));
    }
    return memchr(filled + first, 0, last - first + 1) != NULL;
}

/* 17: "A hole is a day in no period between the first and last day of all periods; or in no fixed, mixed or empty period
   between the first and last day of the fixed and mixed ones; or the same for need and mixed." */
static bool rule_17(const struct plan *plan) {
    return hole(plan, of_any, of_any) || hole(plan, of_fixed, of_fixed_or_empty) || hole(plan, of_need, of_need_or_empty);
}

typedef bool rule(const struct plan *plan, uint32_t at);

/* The lowest period that breaks a rule, by its first block; 0 where none does. */
static uint32_t place_of(rule *broken, const struct plan *plan) {
    for (uint32_t at = 0; at < plan->periods; at++)
        if (broken(plan, at))
            return plan->period[at].block;
    return 0;
}

static struct answer judge_periods(const struct plan *plan) {
    static rule *const rules[] = {rule_5, rule_6, rule_7, rule_8, rule_9, rule_10, rule_11, rule_12, rule_13, rule_14};
    for (uint32_t i = 0; i < 10; i++) {
        uint32_t place = place_of(rules[i], plan);
        if (place != 0)
            return (struct answer){5 + i, place};
    }
    if (rule_15(plan))
        return (struct answer){15, 255};
    uint32_t place = place_of(rule_16, plan);
    if (place != 0)
        return (struct answer){16, place};
    return (struct answer){rule_17(plan) ? 17 : 0, 255};
}

struct answer judge(struct plan *plan, const uint8_t *bytes, size_t length) {
    struct answer form = judge_form(bytes, length, PLAN_BYTES);
    if (form.number != 0)
        return form;
    read_plan(plan, bytes, length);
    return judge_periods(plan);
}

uint32_t reference_verdict(const uint8_t *plan, size_t plan_len) {
    static struct plan read;
    return code(judge(&read, plan, plan_len));
}
