/* Plans that break no rule.

   A line of segments, one behind the other without a gap, is the ground: fixed, mixed, empty or need. On a fixed or empty
   segment as-needed periods may lie. Of the two lists, each must be without a hole between its own ends, so need segments
   inside the fixed list get an empty ground, and fixed ones inside the need list get as-needed periods. */
#include "draft.h"

enum ground { FIXED, MIXED, EMPTY, NEED, FIXED_AND_NEED, EMPTY_AND_NEED };

struct segment {
    enum ground ground;
    uint32_t first, last;
};

static bool in_fixed_list(enum ground g) { return g == FIXED || g == MIXED || g == FIXED_AND_NEED; }
static bool in_need_list(enum ground g) { return g == NEED || g == MIXED || g == FIXED_AND_NEED || g == EMPTY_AND_NEED; }

/* ---- doses */

static uint64_t some_amount(struct random *r) {
    switch (below(r, 12)) {
    case 0: return 0;
    case 1: return AMOUNT_MOST - below(r, 3);
    case 2: return random_64(r) % (AMOUNT_MOST + 1);
    case 3: return 1;
    default: return 25 * (uint64_t)between(r, 1, 40);
    }
}

static void choose_amounts(struct random *r, struct draft_dose *dose) {
    dose->low = some_amount(r);
    dose->high = 0;
    if (dose->low > 0 && dose->low < AMOUNT_MOST && once_in(r, 3)) {
        uint64_t more = once_in(r, 3) ? 1 : once_in(r, 2) ? between(r, 1, 1000) : between(r, 1, 3) * dose->low;
        dose->high = dose->low + more > AMOUNT_MOST ? AMOUNT_MOST : dose->low + more;
    }
}

static uint32_t choose_interval(struct random *r) {
    static const uint32_t usual[] = {1, 1, 1, 2, 3, 7, 7, 14, 28};
    switch (below(r, 10)) {
    case 0: case 1: case 2: case 3: return 0;
    case 4: return between(r, 1, 400);
    case 5: return once_in(r, 2) ? 65535 : between(r, 1, 65535);
    default: return usual[below(r, 9)];
    }
}

static uint32_t length_of(const struct draft_period *period) {
    return (period->last == DAY_OPEN ? DAY_LAST : period->last) - period->first + 1;
}

/* The greatest day number that rule 7 allows. */
static uint32_t greatest_day(const struct draft_period *period) {
    uint32_t most = period->interval > 0 ? period->interval : period->last == DAY_OPEN ? 65535 : length_of(period);
    return most > 65535 ? 65535 : most;
}

static uint32_t choose_count(struct random *r, uint32_t most) {
    static const uint32_t edges[] = {19, 20, 21, 39, 40, 41, 60, 98, 99};
    uint32_t count = once_in(r, 5) ? edges[below(r, 9)] : once_in(r, 6) ? between(r, 1, most) : between(r, 1, 5);
    if (once_in(r, 12))
        count = most;
    return count > most ? most : count;
}

/* The doses of one day: untimed ones alike for each need mark, or each at its own time. */
static void fill_day(struct random *r, struct draft_dose *dose, uint32_t count, uint32_t day, bool timed, uint32_t marks) {
    static const uint32_t steps[] = {1, 7, 1439, 11, 1433};
    struct draft_dose alike[2] = {{0}};
    uint32_t minute = below(r, 1440), step = steps[below(r, 5)], kind = timed ? below(r, 5) : 5;
    if (once_in(r, 8))
        minute = once_in(r, 2) ? 0 : 1439;
    choose_amounts(r, &alike[0]);
    choose_amounts(r, &alike[1]);
    for (uint32_t i = 0; i < count; i++) {
        dose[i].day = day;
        dose[i].mark = marks == 2 ? below(r, 2) : marks;
        dose[i].minute = 0;
        if (!timed && !once_in(r, 12)) {
            dose[i].kind = 0;
            dose[i].low = alike[dose[i].mark].low;
            dose[i].high = alike[dose[i].mark].high;
            continue;
        }
        choose_amounts(r, &dose[i]);
        if (timed && kind < 4) {
            dose[i].kind = ++kind;
        } else {
            dose[i].kind = 5;
            dose[i].minute = minute;
            minute = (minute + step) % 1440;
        }
    }
    if (timed && count > 1 && once_in(r, 3)) { /* the order of a day's doses is free */
        uint32_t a = below(r, count), b = below(r, count);
        struct draft_dose swapped = dose[a];
        dose[a] = dose[b];
        dose[b] = swapped;
    }
}

static void small_amounts(struct draft_period *period) {
    for (uint32_t i = 0; i < period->doses; i++) {
        period->dose[i].low = 100;
        period->dose[i].high = 0;
    }
}

/* Rule 14's sum stays far below its limit: bend() goes to the edge. */
static void keep_sum_low(struct draft_period *period) {
    uint64_t sum = 0;
    for (uint32_t i = 0; i < period->doses; i++)
        if (period->dose[i].mark == 0)
            sum += period->dose[i].high ? period->dose[i].high : period->dose[i].low;
    if (sum >= 100000000000u)
        small_amounts(period);
}

/* marks: 0 none, 1 all, 2 both */
static void fill_period(struct random *r, struct draft_period *period, uint32_t marks, uint32_t most) {
    period->interval = choose_interval(r);
    period->doses = 0;
    uint32_t count = choose_count(r, most);
    if (marks == 2 && count < 2)
        count = 2;
    bool timed = once_in(r, 2), any_day = marks == 1 && once_in(r, 6);
    uint32_t greatest = greatest_day(period);
    uint32_t days = any_day || once_in(r, 3) ? 1 : once_in(r, 4) ? greatest : between(r, 1, 7);
    if (days > greatest)
        days = greatest;
    if (days > count)
        days = count;
    if (count > 99 * days)
        count = 99 * days;
    uint32_t day = any_day ? 0 : greatest > days && once_in(r, 4) ? between(r, 1, greatest - days + 1) : 1;
    if (!any_day && greatest > days && once_in(r, 8))
        day = greatest - days + 1;
    for (uint32_t left = days; left > 0; left--) {
        uint32_t here = (count - period->doses) / left;
        fill_day(r, period->dose + period->doses, here, day, timed, marks);
        period->doses += here;
        day += any_day ? 0 : 1;
        if (!any_day && left > 1 && greatest >= day + left && once_in(r, 3))
            day++;
    }
    if (marks == 2) { /* both marks must stand */
        period->dose[0].mark = below(r, 2);
        period->dose[period->doses - 1].mark = 1 - period->dose[0].mark;
        if (!timed)
            small_amounts(period);
    }
    keep_sum_low(period);
}

/* ---- periods */

/* A period whose class is kept in `doses` until fill_all: 0 empty, 1 fixed, 2 need, 3 mixed. */
static void add_period(struct draft *draft, uint32_t class, uint32_t first, uint32_t last) {
    if (draft->periods == DRAFT_PERIODS)
        return;
    struct draft_period *period = &draft->period[draft->periods++];
    period->interval = 0;
    period->first = first;
    period->last = last;
    period->doses = class;
}

static uint32_t closed_day(uint32_t last) {
    return last == DAY_OPEN ? DAY_LAST : last;
}

/* As-needed periods on a segment: over all of it on fixed ground, with gaps if wanted on empty ground. */
static void lay_need(struct random *r, struct draft *draft, const struct segment *s, bool gaps) {
    uint32_t first = s->first, last = closed_day(s->last), pieces = once_in(r, 3) ? between(r, 2, gaps ? 12 : 4) : 1;
    if (gaps && once_in(r, 2) && first < last)
        first++;
    for (; pieces > 0 && first <= last; pieces--) {
        uint32_t room = last - first;
        uint32_t to = pieces == 1 && !gaps ? last : first + (room == 0 ? 0 : below(r, (room < 9 ? room : 9) + 1));
        if (pieces == 1 && gaps && once_in(r, 2))
            to = last;
        add_period(draft, 2, first, to == last && s->last == DAY_OPEN ? DAY_OPEN : to);
        first = to + 1 + (gaps && once_in(r, 2) ? between(r, 1, 3) : 0);
    }
}

static void lay_segment(struct random *r, struct draft *draft, const struct segment *s) {
    switch (s->ground) {
    case FIXED: add_period(draft, 1, s->first, s->last); break;
    case MIXED: add_period(draft, 3, s->first, s->last); break;
    case EMPTY: add_period(draft, 0, s->first, s->last); break;
    case NEED: add_period(draft, 2, s->first, s->last); break;
    case FIXED_AND_NEED:
        add_period(draft, 1, s->first, s->last);
        lay_need(r, draft, s, false);
        break;
    case EMPTY_AND_NEED:
        add_period(draft, 0, s->first, s->last);
        lay_need(r, draft, s, true);
        break;
    }
}

/* Makes both lists free of holes. */
static void mend_lists(struct segment *s, uint32_t count) {
    uint32_t fixed_from = count, fixed_to = 0, need_from = count, need_to = 0;
    for (uint32_t i = 0; i < count; i++) {
        if (in_fixed_list(s[i].ground)) {
            fixed_from = fixed_from < i ? fixed_from : i;
            fixed_to = i;
        }
        if (in_need_list(s[i].ground)) {
            need_from = need_from < i ? need_from : i;
            need_to = i;
        }
    }
    for (uint32_t i = 0; i < count; i++) {
        if (s[i].ground == NEED && fixed_from < i && i < fixed_to)
            s[i].ground = EMPTY_AND_NEED;
        if (s[i].ground == FIXED && need_from < i && i < need_to)
            s[i].ground = FIXED_AND_NEED;
    }
}

static enum ground choose_ground(struct random *r, uint32_t style) {
    static const enum ground some[][6] = {
        {FIXED, FIXED, FIXED, FIXED, FIXED, FIXED},
        {NEED, NEED, NEED, NEED, NEED, EMPTY},
        {FIXED, EMPTY, FIXED, EMPTY, FIXED, FIXED},
        {EMPTY_AND_NEED, EMPTY, NEED, EMPTY_AND_NEED, EMPTY, NEED},
        {MIXED, EMPTY, MIXED, EMPTY, MIXED, MIXED},
        {FIXED, MIXED, EMPTY, NEED, FIXED_AND_NEED, EMPTY_AND_NEED},
        {FIXED, MIXED, EMPTY, NEED, FIXED_AND_NEED, EMPTY_AND_NEED},
        {FIXED, EMPTY, FIXED_AND_NEED, FIXED_AND_NEED, EMPTY_AND_NEED, EMPTY},
        {EMPTY, EMPTY, EMPTY, EMPTY, EMPTY, EMPTY},
    };
    return some[style][below(r, 6)];
}

static uint32_t choose_first_day(struct random *r) {
    switch (below(r, 8)) {
    case 0: return 0;
    case 1: return DAY_LAST - below(r, 40);
    case 2: return below(r, DAY_LAST + 1);
    default: return between(r, 6000, 9000);
    }
}

static uint32_t choose_length(struct random *r) {
    return once_in(r, 3) ? 1 : once_in(r, 12) ? between(r, 60, 3000) : between(r, 2, 14);
}

static uint32_t choose_segments(struct random *r, uint32_t size) {
    if (size == 0)
        return between(r, 1, 2);
    return size == 1 ? between(r, 1, 5) : once_in(r, 3) ? 31 : between(r, 4, 20);
}

static void lay_line(struct random *r, struct draft *draft, uint32_t size) {
    struct segment s[31];
    uint32_t count = choose_segments(r, size), style = below(r, 9), made = 0, day = choose_first_day(r);
    for (; made < count && day <= DAY_LAST; made++) {
        uint32_t length = choose_length(r);
        s[made].ground = choose_ground(r, style);
        s[made].first = day;
        s[made].last = length > DAY_LAST - day ? DAY_LAST : day + length - 1;
        day = s[made].last + 1;
    }
    if (once_in(r, 4))
        s[made - 1].last = once_in(r, 4) ? DAY_LAST : DAY_OPEN;
    mend_lists(s, made);
    draft->periods = 0;
    for (uint32_t i = 0; i < made; i++)
        lay_segment(r, draft, &s[i]);
    draft->vka = once_in(r, 10);
}

/* Puts the days and class of one period, which has no doses yet, in another's place. */
static void move_frame(struct draft_period *to, const struct draft_period *from) {
    to->interval = from->interval;
    to->first = from->first;
    to->last = from->last;
    to->doses = from->doses;
}

/* Neighbouring as-needed periods made one, so that they lie across other periods' ends. */
static void join_need(struct random *r, struct draft *draft) {
    for (uint32_t i = 0; i < draft->periods; i++)
        for (uint32_t j = 0; j < draft->periods; j++) {
            struct draft_period *a = &draft->period[i], *b = &draft->period[j];
            if (a->doses == 2 && b->doses == 2 && a->last + 1 == b->first && a->last != DAY_OPEN && once_in(r, 3)) {
                a->last = b->last;
                move_frame(b, &draft->period[--draft->periods]);
                i = j = 0;
            }
        }
}

/* By first day; where two are equal, either may be ahead. */
static void sort_periods(struct random *r, struct draft *draft) {
    static struct draft_period held;
    for (uint32_t i = 1; i < draft->periods; i++)
        for (uint32_t j = i; j > 0; j--) {
            struct draft_period *a = &draft->period[j - 1], *b = &draft->period[j];
            if (a->first < b->first || (a->first == b->first && once_in(r, 2)))
                break;
            move_frame(&held, a);
            move_frame(a, b);
            move_frame(b, &held);
        }
}

static void fill_all(struct random *r, struct draft *draft, uint32_t size) {
    uint32_t spare = 31 - draft->periods;
    if (size == 0 && spare > 3)
        spare = 3;
    for (uint32_t i = 0; i < draft->periods; i++) {
        struct draft_period *period = &draft->period[i];
        uint32_t class = period->doses;
        if (class == 0) {
            period->interval = once_in(r, 8) ? choose_interval(r) : 0;
            continue;
        }
        uint32_t more = once_in(r, 2) ? spare : spare / 4;
        fill_period(r, period, class - 1, 20 * (1 + more));
        spare -= blocks_of(period) - 1;
    }
}

static void choose_treatment(struct random *r, struct draft *draft) {
    uint32_t first = DAY_LAST, last = 0;
    bool open = false;
    for (uint32_t i = 0; i < draft->periods; i++) {
        const struct draft_period *period = &draft->period[i];
        first = period->first < first ? period->first : first;
        last = closed_day(period->last) > last ? closed_day(period->last) : last;
        open |= period->last == DAY_OPEN;
    }
    draft->start = once_in(r, 2) ? first : below(r, first + 1);
    draft->end = open || once_in(r, 2) ? DAY_OPEN : once_in(r, 2) ? last : between(r, last, DAY_LAST);
}

static bool all_empty(const struct draft *draft) {
    for (uint32_t i = 0; i < draft->periods; i++)
        if (draft->period[i].doses > 0)
            return false;
    return true;
}

void make_valid(struct random *r, struct draft *draft, uint32_t size) {
    do {
        lay_line(r, draft, size);
        join_need(r, draft);
    } while (draft->periods > 31);
    sort_periods(r, draft);
    fill_all(r, draft, size);
    draft->vka |= all_empty(draft);
    choose_treatment(r, draft);
    draft->unit = below(r, 65536);
    draft->number = once_in(r, 8) ? (uint32_t)random_64(r) : below(r, 6);
    draft->revision = once_in(r, 8) ? (uint32_t)random_64(r) : below(r, 10);
}
