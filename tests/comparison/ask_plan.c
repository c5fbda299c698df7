/* Supply, dates, split, showing a day and day sums of one plan. */
#include "ask.h"
#include "draft.h"
#include "../reference/plan.h"

#include <string.h>

uint64_t events[EVENTS];

struct input begin_input(struct random *r, enum call call, size_t out_len) {
    struct input in = {.call = call, .shift = below(r, 8), .pattern = (uint8_t)below(r, 256), .out_len = out_len};
    if (once_in(r, 16)) /* longer, too short by one, or nothing */
        in.out_len = once_in(r, 3) ? 0 : once_in(r, 2) ? out_len - 1 : out_len + 8;
    return in;
}

static void give_plan(struct random *r, struct input *in, const uint8_t *plan, size_t length) {
    in->plan = length == 0 && once_in(r, 2) ? NULL : plan;
    in->plan_len = length;
}

/* The block of a period that is any block's. */
static const uint8_t *some_period(struct random *r, const uint8_t *plan, size_t length) {
    uint32_t at = between(r, 1, (uint32_t)(length / 512) - 1);
    while (at > 1 && plan[512 * at] == 3)
        at--;
    return plan + 512 * at;
}

/* A day at, beside or between the ends of one of the plan's periods, or any. */
static uint32_t some_day(struct random *r, const uint8_t *plan, size_t length) {
    if (length < 1024 || once_in(r, 10))
        return once_in(r, 4) ? DAY_LAST - 1 + below(r, 3) : once_in(r, 8) ? DAY_OPEN : below(r, DAY_LAST + 1);
    const uint8_t *block = some_period(r, plan, length);
    uint32_t first = (uint32_t)get_bytes(block + 4, 4), last = (uint32_t)get_bytes(block + 8, 4);
    switch (below(r, 8)) {
    case 0: return first - 1;
    case 1: return last - 1 + below(r, 3);
    case 2: return first;
    default: return first + (last - first < 30 ? below(r, last - first + 1) : below(r, 400));
    }
}

static void ask_day_sums(struct random *r, const uint8_t *plan, size_t length) {
    struct input in = begin_input(r, DAY_SUMS, 32);
    give_plan(r, &in, plan, length);
    in.day = some_day(r, plan, length);
    call_both(&in);
}

/* ---- supply and dates */

static size_t make_pauses(struct random *r, uint8_t *bytes, const uint8_t *plan, size_t length) {
    uint32_t count = once_in(r, 2) ? 0 : once_in(r, 12) ? between(r, 31, 34) : between(r, 1, 4);
    bool wrong = once_in(r, 10);
    for (uint32_t i = 0; i < count; i++) {
        uint32_t first = some_day(r, plan, length), last;
        if (!wrong && first > DAY_LAST)
            first = DAY_LAST;
        last = once_in(r, 16) ? DAY_OPEN : first + below(r, 20);
        if (last > DAY_LAST && last != DAY_OPEN && !wrong)
            last = DAY_LAST;
        if (wrong && once_in(r, 3))
            last = first - 1;
        put_bytes(bytes + 8 * i, 4, first);
        put_bytes(bytes + 8 * i + 4, 4, last);
    }
    return 8 * count + (once_in(r, 30) ? between(r, 1, 7) : 0);
}

/* The sum of some days' need by a choice, or of the next few days that need anything, pauses left out, give or take one: where
   the walk just reaches or just misses a day. */
static uint64_t near_a_sum(struct random *r, const uint8_t *bytes, size_t length, uint32_t start, uint32_t choice) {
    static struct plan plan;
    uint64_t sum = 0;
    if (judge(&plan, bytes, length).number != 0 || start > DAY_LAST)
        return 0;
    uint32_t days = 40, needing = between(r, 1, 5);
    if (once_in(r, 2))
        days = needing = once_in(r, 3) ? below(r, 400) : below(r, 20);
    for (uint32_t day = start; day < start + days && day <= DAY_LAST && needing > 0; day++) {
        uint64_t need = need_of_day(&plan, day, choice);
        sum += need;
        needing -= need > 0;
    }
    uint32_t off = below(r, 3);
    return sum == 0 && off == 0 ? 0 : sum - 1 + off;
}

static uint64_t choose_pack(struct random *r, const uint8_t *plan, size_t length, uint32_t start, uint32_t choice) {
    switch (below(r, 32)) {
    case 0: return 0;
    case 1: return 1000000000000u - 1 + below(r, 3);
    case 2: return once_in(r, 3) ? random_64(r) : random_64(r) % 1000000000000u;
    case 3: return below(r, 100000);
    default: return near_a_sum(r, plan, length, start, choice);
    }
}

/* What supply and dates are given alike. The pack is chosen by one of the choices. */
static struct input begin_pack(struct random *r, enum call call, size_t out_len, const uint8_t *plan, size_t length, uint32_t choice) {
    static uint8_t pauses[400];
    struct input in = begin_input(r, call, out_len);
    give_plan(r, &in, plan, length);
    memset(pauses, 0, sizeof pauses);
    in.pauses_len = make_pauses(r, pauses, plan, length);
    in.pauses = in.pauses_len == 0 && once_in(r, 2) ? NULL : pauses;
    in.start = length >= 1024 && once_in(r, 3) ? (uint32_t)get_bytes(plan + 516, 4) - below(r, 20) : some_day(r, plan, length);
    in.pack = choose_pack(r, plan, length, in.start, choice);
    return in;
}

/* Says whether there was something to supply. */
static bool ask_supply(struct random *r, const uint8_t *plan, size_t length) {
    uint32_t choice = between(r, 1, 4);
    struct input in = begin_pack(r, SUPPLY, 32, plan, length, choice);
    in.choice = once_in(r, 16) ? (once_in(r, 2) ? 257 : 5 * below(r, 2)) : choice;
    uint32_t answer = call_both(&in);
    if (answer == 65280) {
        events[SUPPLY_NEEDS_MORE + out_now()[24] - 1]++;
        events[SUPPLY_BY_1 + choice - 1]++;
    } else if ((answer & 255) == 24) {
        events[NOTHING_BY_1 + choice - 1]++;
    } else if ((answer & 255) == 23) {
        events[in.choice == 0 ? CHOICE_0 : in.choice == 5 ? CHOICE_5 : CHOICE_257]++;
    }
    return answer == 65280;
}

/* An accepted plan. */
static bool need_only(const uint8_t *bytes, size_t length) {
    static struct plan plan;
    bool any = false;
    read_plan(&plan, bytes, length);
    for (uint32_t i = 0; i < plan.periods; i++) {
        if (of_fixed(class_of(&plan.period[i])))
            return false;
        any |= of_need(class_of(&plan.period[i]));
    }
    return any;
}

/* What came up in the set that was written. */
static void note_dates(bool only_need) {
    uint64_t date[5];
    bool any = false;
    for (uint32_t i = 0; i < 5; i++) {
        date[i] = get_bytes(out_now() + 8 * i, 8);
        any |= date[i] != DAY_OPEN;
    }
    uint64_t end = date[0], minimum = date[1], maximum = date[2], date_3 = date[3], date_4 = date[4];
    events[DATES_NONE] += !any;
    events[DATES_END] += end != DAY_OPEN;
    events[DATES_APART] += maximum != DAY_OPEN && minimum != maximum;
    events[DATES_MINIMUM_ALONE] += minimum != DAY_OPEN && maximum == DAY_OPEN;
    events[DATES_3_IS_4] += date_3 != DAY_OPEN && date_3 == date_4;
    events[DATES_3_IS_NOT_4] += date_3 != DAY_OPEN && date_3 != date_4;
    events[DATES_4_ALONE] += date_4 != DAY_OPEN && date_3 == DAY_OPEN;
    events[DATES_NEED_ONLY] += date_3 != DAY_OPEN && only_need;
}

/* Says whether nothing was refused. */
static bool ask_dates(struct random *r, const uint8_t *plan, size_t length) {
    uint32_t choice = once_in(r, 2) ? 1 : between(r, 2, 4); /* a sum of low amounts is where minimum and maximum part */
    struct input in = begin_pack(r, DATES, 40, plan, length, choice);
    uint32_t answer = call_both(&in);
    events[DATES_RULE_BROKEN] += (answer & 255) >= 1 && (answer & 255) <= 17;
    events[DATES_39_BYTES] += in.out_len == 39;
    if (answer == 65280)
        note_dates(need_only(plan, length));
    return answer == 65280;
}

/* Is it open, or nearly? Walks to the calendar's last day take long, and dates makes up to four. */
static bool reaches_last_day(const uint8_t *plan, size_t length) {
    for (size_t at = 512; at + 512 <= length; at += 512)
        if (plan[at] == 2 && get_bytes(plan + at + 8, 4) >= DAY_LAST)
            return true;
    return false;
}

/* ---- split and showing a day */

static void ask_show(struct random *r, uint8_t *fixed, size_t fixed_len, uint8_t *need, size_t need_len) {
    struct input in = begin_input(r, SHOW_DAY, 16);
    in.list = once_in(r, 16) ? (once_in(r, 2) ? 257 : 3 * below(r, 2)) : between(r, 1, 2);
    if ((in.list == 1 && fixed_len == 512) || (in.list == 2 && need_len == 512))
        in.list ^= once_in(r, 4) ? 0 : 3; /* rather the part with periods */
    in.fixed = fixed, in.fixed_len = fixed_len, in.need = need, in.need_len = need_len;
    in.day = in.list == 2 ? some_day(r, need, need_len) : some_day(r, fixed, fixed_len);
    if (call_both(&in) == 65280)
        events[get_bytes(out_now() + 8, 8) != 0 ? DAY_SHOWN : NO_DAY_SHOWN]++;
}

/* The parts as split gave them, then one of them damaged or of another length. */
static void ask_shows(struct random *r, uint8_t *fixed, size_t fixed_len, uint8_t *need, size_t need_len) {
    for (uint32_t i = 0; i < 4; i++)
        ask_show(r, fixed, fixed_len, need, need_len);
    uint8_t *part = once_in(r, 2) ? fixed : need;
    size_t *length = part == fixed ? &fixed_len : &need_len;
    if (once_in(r, 2)) {
        if (*length < PLAN_SIZE / 2)
            bend_form(r, part, length, between(r, 1, 4));
    } else {
        damage(r, part, *length);
    }
    for (uint32_t i = 0; i < 2; i++)
        ask_show(r, fixed, fixed_len, need, need_len);
}

static size_t choose_room(struct random *r) {
    return once_in(r, 40) ? 32767 : once_in(r, 40) ? below(r, 33500) : once_in(r, 2) ? 32768 : 33500;
}

static void ask_split(struct random *r, const uint8_t *plan, size_t length) {
    static uint8_t fixed[DRAFT_BYTES + 1024], need[DRAFT_BYTES + 1024];
    struct input in = begin_input(r, SPLIT, 16);
    give_plan(r, &in, plan, length);
    in.fixed_len = choose_room(r);
    in.need_len = choose_room(r);
    if (call_both(&in) != 65280)
        return;
    size_t fixed_len = get_bytes(out_now(), 8), need_len = get_bytes(out_now() + 8, 8);
    memcpy(fixed, fixed_now(), fixed_len);
    memcpy(need, need_now(), need_len);
    ask_shows(r, fixed, fixed_len, need, need_len);
}

/* Parts of 32, 64 and 65 blocks that no split has written: the limit of showing is not that of a plan. */
static void ask_long_parts(struct random *r, const uint8_t *plan, size_t length) {
    static uint8_t fixed[DRAFT_BYTES + 1024], need[DRAFT_BYTES + 1024];
    if (length < 1024 || length % 512 != 0)
        return;
    size_t blocks = once_in(r, 3) ? 65 : once_in(r, 2) ? 64 : between(r, 33, 63);
    memcpy(fixed, plan, length);
    for (size_t at = length; at < 512 * blocks; at += 512)
        memcpy(fixed + at, fixed + 512, 512);
    fixed[1] = (uint8_t)(blocks - 1);
    put_sums(fixed);
    memcpy(need, fixed, 512 * blocks);
    ask_show(r, fixed, 512 * blocks, need, 512 * blocks);
}

bool ask_verdict(struct random *r, const uint8_t *plan, size_t length) {
    struct input in = begin_input(r, VERDICT, 8);
    give_plan(r, &in, plan, length);
    return call_both(&in) == 65280;
}

void ask_of_plan(struct random *r, const uint8_t *plan, size_t length) {
    if (!ask_verdict(r, plan, length) && !once_in(r, 8)) /* the other calls refuse as the verdict does */
        return;
    ask_day_sums(r, plan, length);
    ask_day_sums(r, plan, length);
    for (uint32_t i = 0; i < 4 && (ask_supply(r, plan, length) || once_in(r, 3)); i++)
        ;
    uint32_t times = reaches_last_day(plan, length) ? once_in(r, 3) : 2;
    for (uint32_t i = 0; i < times && (ask_dates(r, plan, length) || once_in(r, 3)); i++)
        ;
    ask_split(r, plan, length);
    if (once_in(r, 4))
        ask_long_parts(r, plan, length);
}
