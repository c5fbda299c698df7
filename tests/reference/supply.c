/* A day's doses, their four sums, how far a pack lasts by a choice, day by day, and the set of dates. */
#include "plan.h"
#include "reference.h"

/* "the position is ((d - f) mod k) + 1; not iterated, d - f + 1" */
static uint32_t position(const struct period *period, uint32_t day) {
    uint32_t since = day - period->first;
    return (period->interval > 0 ? since % period->interval : since) + 1;
}

/* "Doses with that day number apply; day number 0 counts at position 1." */
static bool applies(const struct dose *dose, uint32_t position) {
    return dose->day == position || (dose->day == 0 && position == 1);
}

void sums_of_day(const struct plan *plan, uint32_t day, uint64_t sums[2][2]) {
    sums[0][0] = sums[0][1] = sums[1][0] = sums[1][1] = 0;
    for (uint32_t i = 0; i < plan->periods; i++) {
        const struct period *period = &plan->period[i];
        if (!covers(period, day))
            continue;
        uint32_t at = position(period, day);
        for (uint32_t j = 0; j < period->doses; j++) {
            const struct dose *dose = &period->dose[j];
            if (applies(dose, at)) {
                sums[dose->mark][0] += dose->low;
                sums[dose->mark][1] += upper(dose);
            }
        }
    }
}

uint32_t reference_day_sums(const uint8_t *plan, size_t plan_len, uint32_t day, uint8_t *out, size_t out_len) {
    static struct plan read;
    if (out_len < 32)
        return refused(26);
    struct answer verdict = judge(&read, plan, plan_len);
    if (verdict.number != 0)
        return code(verdict);
    uint64_t sums[2][2];
    sums_of_day(&read, day, sums);
    for (uint32_t mark = 0; mark < 2; mark++)
        for (uint32_t amount = 0; amount < 2; amount++)
            put_number(out + 16 * mark + 8 * amount, 8, sums[mark][amount]);
    return DONE;
}

/* ---- choices */

/* "A day's need is the sum of its unmarked amounts as chosen"; "Choice 3 counts marked and unmarked doses"; "Choice 4 counts
   marked doses only" */
static bool counts(uint32_t choice, uint32_t mark) {
    switch (choice) {
    case 3: return true;
    case 4: return mark == 1;
    default: return mark == 0; /* 1 and 2 */
    }
}

/* "choice (1 low, 2 upper)"; 3 and 4 "by upper amount". The column of a day's sums. */
static uint32_t amount_of(uint32_t choice) {
    return choice == 1 ? 0 : 1;
}

/* "The stop day is the last day of any fixed or mixed period"; 3 "up to the last day of any period with doses"; 4 "up to the
   last day of a need or mixed period" */
static bool sets_stop_day(uint32_t choice, enum class class) {
    switch (choice) {
    case 3: return class != EMPTY;
    case 4: return of_need(class);
    default: return of_fixed(class); /* 1 and 2 */
    }
}

uint64_t need_of_day(const struct plan *plan, uint32_t day, uint32_t choice) {
    uint64_t sums[2][2], need = 0;
    sums_of_day(plan, day, sums);
    for (uint32_t mark = 0; mark < 2; mark++)
        if (counts(choice, mark))
            need += sums[mark][amount_of(choice)];
    return need;
}

/* Says whether the choice has a stop day. */
static bool stop_day(const struct plan *plan, uint32_t choice, uint32_t *stop) {
    bool any = false;
    *stop = 0;
    for (uint32_t i = 0; i < plan->periods; i++) {
        const struct period *period = &plan->period[i];
        if (!sets_stop_day(choice, class_of(period)))
            continue;
        any = true;
        if (closed(period->last) > *stop)
            *stop = closed(period->last);
    }
    return any;
}

/* ---- supply */

/* A pack that is used from a start on, and the pauses. */
struct pack {
    uint32_t start;
    uint64_t amount;
    const uint8_t *pauses;
    size_t pauses_len;
};

static uint32_t first_of(const uint8_t *pause) { return (uint32_t)number_at(pause, 4); }
static uint32_t last_of(const uint8_t *pause) { return (uint32_t)number_at(pause + 4, 4); }

/* 21: more than 32 pauses, or a pause that ends before it starts or has a day above 73,048 other than an open last; "pauses
   are 8 bytes each .. (another length is 21)" */
static bool bad_pauses(const uint8_t *pauses, size_t length) {
    if (length % 8 != 0 || length / 8 > 32)
        return true;
    for (size_t at = 0; at < length; at += 8) {
        uint32_t first = first_of(pauses + at), last = last_of(pauses + at);
        if (first > LAST_DAY || (last > LAST_DAY && last != OPEN) || last < first)
            return true;
    }
    return false;
}

static bool paused(const uint8_t *pauses, size_t length, uint32_t day) {
    for (size_t at = 0; at < length; at += 8)
        if (first_of(pauses + at) <= day && day <= last_of(pauses + at))
            return true;
    return false;
}

/* "After the verdict, in order: 20 pack above 1,000,000,000,000; 21 ..; 22 start above 73,048". 0 where none is given. */
static uint32_t refusal_of(const struct pack *pack) {
    if (pack->amount > 1000000000000u)
        return 20;
    if (bad_pauses(pack->pauses, pack->pauses_len))
        return 21;
    if (pack->start > LAST_DAY)
        return 22;
    return 0;
}

/* How far it lasts. */
struct supplied {
    uint32_t days, last;
    uint64_t rest;
    uint32_t reason;
};

/* "Covered days run from the start to the greatest day, not past the stop day, whose summed need is at most the pack amount."
   Says whether the choice has a stop day that the start is not after: 24 where not. */
static bool supply(const struct plan *plan, const struct pack *pack, uint32_t choice, struct supplied *supplied) {
    uint32_t stop;
    if (!stop_day(plan, choice, &stop) || pack->start > stop)
        return false;
    uint64_t rest = pack->amount;
    uint32_t day = pack->start;
    while (day <= stop) {
        uint64_t need = paused(pack->pauses, pack->pauses_len, day) ? 0 : need_of_day(plan, day, choice);
        if (need > rest)
            break;
        rest -= need;
        day++;
    }
    supplied->days = day - pack->start;
    supplied->last = supplied->days > 0 ? day - 1 : OPEN;
    supplied->rest = rest;
    supplied->reason = day <= stop ? 1 : stop == LAST_DAY ? 3 : 2;
    return true;
}

uint32_t reference_supply(const uint8_t *plan, size_t plan_len, uint32_t start, uint64_t pack, uint32_t choice,
                          const uint8_t *pauses, size_t pauses_len, uint8_t *out, size_t out_len) {
    static struct plan read;
    struct pack given = {start, pack, pauses, pauses_len};
    struct supplied supplied;
    if (out_len < 32)
        return refused(26);
    struct answer verdict = judge(&read, plan, plan_len);
    if (verdict.number != 0)
        return code(verdict);
    uint32_t number = refusal_of(&given);
    if (number != 0)
        return refused(number);
    if (choice < 1 || choice > 4)
        return refused(23);
    if (!supply(&read, &given, choice, &supplied))
        return refused(24);
    put_number(out, 8, supplied.days);
    put_number(out + 8, 8, supplied.last);
    put_number(out + 16, 8, supplied.rest);
    put_number(out + 24, 8, supplied.reason);
    return DONE;
}

/* ---- the set of dates */

/* "A date with 0 covered days, or whose choice 24 would refuse, is absent." */
static uint32_t date_by(const struct plan *plan, const struct pack *pack, uint32_t choice) {
    struct supplied supplied;
    return supply(plan, pack, choice, &supplied) && supplied.days > 0 ? supplied.last : OPEN;
}

/* An interval dose has two amounts: "High 0 means a single amount". A record of the period is enough, whether or not it still
   applies after the start. */
static bool has_unmarked_interval_dose(const struct period *period) {
    for (uint32_t i = 0; i < period->doses; i++)
        if (period->dose[i].mark == 0 && period->dose[i].high != 0)
            return true;
    return false;
}

/* "fixed or mixed period ending on or after the start has an unmarked interval dose" */
static bool interval_ahead(const struct plan *plan, uint32_t start) {
    for (uint32_t i = 0; i < plan->periods; i++) {
        const struct period *period = &plan->period[i];
        if (of_fixed(class_of(period)) && closed(period->last) >= start && has_unmarked_interval_dose(period))
            return true;
    }
    return false;
}

/* "where a need or mixed period ends on or after the start" */
static bool as_needed_ahead(const struct plan *plan, uint32_t start) {
    for (uint32_t i = 0; i < plan->periods; i++) {
        const struct period *period = &plan->period[i];
        if (of_need(class_of(period)) && closed(period->last) >= start)
            return true;
    }
    return false;
}

/* "A single call gives the set: one end date if no fixed or mixed period ending on or after the start has an unmarked interval
   dose, else a minimum date by low amounts and a maximum date by upper amounts; and dates 3 and 4 where a need or mixed period
   ends on or after the start." "the set is refused by 1 to 17 and 20 to 22 only" */
uint32_t reference_dates(const uint8_t *plan, size_t plan_len, uint32_t start, uint64_t pack, const uint8_t *pauses,
                         size_t pauses_len, uint8_t *out, size_t out_len) {
    static struct plan read;
    struct pack given = {start, pack, pauses, pauses_len};
    uint32_t end = OPEN, minimum = OPEN, maximum = OPEN, date_3 = OPEN, date_4 = OPEN;
    if (out_len < 40)
        return refused(26);
    struct answer verdict = judge(&read, plan, plan_len);
    if (verdict.number != 0)
        return code(verdict);
    uint32_t number = refusal_of(&given);
    if (number != 0)
        return refused(number);
    if (!interval_ahead(&read, start)) {
        end = date_by(&read, &given, 1); /* by low or upper amounts, which are the same */
    } else {
        minimum = date_by(&read, &given, 1);
        maximum = date_by(&read, &given, 2);
    }
    if (as_needed_ahead(&read, start)) {
        date_3 = date_by(&read, &given, 3);
        date_4 = date_by(&read, &given, 4);
    }
    put_number(out, 8, end);
    put_number(out + 8, 8, minimum);
    put_number(out + 16, 8, maximum);
    put_number(out + 24, 8, date_3);
    put_number(out + 32, 8, date_4);
    return DONE;
}
