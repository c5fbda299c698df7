/* What an input has come to of the things that a walk by whole rounds could get wrong. It goes by the input and the answer, not
   by how the input was made. Rounds are counted from the day on which the walk comes to a period, at whatever position. */
#include "rounds.h"

#include "ask.h"
#include "draft.h"

bool has_dose_of(const struct period *period, uint32_t choice) {
    enum class class = class_of(period);
    return choice == 4 ? of_need(class) : choice == 3 ? class != EMPTY : of_fixed(class);
}

uint64_t need_of_round(const struct period *period, uint32_t choice) {
    uint64_t sum = 0;
    for (uint32_t i = 0; i < period->doses; i++)
        if (choice == 3 || period->dose[i].mark == (choice == 4))
            sum += choice == 1 ? period->dose[i].low : upper(&period->dose[i]);
    return sum;
}

/* A walk through one period: its days there, and the day behind the last one covered anywhere. */
struct walk {
    const struct plan *plan;
    const struct input *in;
    const struct period *period;
    uint32_t round, from, days, past;
    uint64_t reason;
    bool alone, plain; /* without another period of the choice; and without pauses */
};

static bool other_of_choice(const struct walk *w) {
    for (uint32_t i = 0; i < w->plan->periods; i++) {
        const struct period *other = &w->plan->period[i];
        bool shared = other->first <= closed(w->period->last) && w->period->first <= closed(other->last);
        if (other != w->period && shared && has_dose_of(other, w->in->choice))
            return true;
    }
    return false;
}

/* ---- sizes, starts, packs, ends */

static void note_size(const struct walk *w) {
    static const uint32_t sizes[] = {1, 2, 7, 28, 620, 65535};
    uint32_t round = w->round;
    for (uint32_t i = 0; i < 6; i++)
        events[ROUNDS_OF_1 + i] += round == sizes[i] && w->days / round >= (round == 65535 ? 1 : 2);
    events[ROUNDS_OF_HUNDREDS] += round >= 100 && round < 1000 && w->days >= 2 * round;
    events[ROUNDS_OF_THOUSANDS] += round >= 1000 && round < 65535 && w->days >= 2 * round;
}

static void note_start(const struct walk *w) {
    uint32_t start = w->in->start, first = w->period->first, since = start - first;
    events[START_LAST_DAY] += start == closed(w->period->last);
    if (w->days < w->round || w->round < 3)
        return;
    if (start < first)
        events[START_AHEAD]++;
    else if (start == first)
        events[START_FIRST_DAY]++;
    else
        events[since % w->round == 0 ? START_ROUND : (since + 1) % w->round == 0 ? START_END_OF_ROUND : START_INSIDE_ROUND]++;
}

/* Where one period by itself was walked, and the pack is what ended it. */
static void note_pack(const struct walk *w) {
    uint64_t need = need_of_round(w->period, w->in->choice), above = w->in->pack + 1;
    if (w->reason != 1 || w->in->start != w->from || w->past != w->from + w->days || need < 3 || above < need || above % need > 2)
        return;
    if (above / need == 1)
        events[PACK_ONE_LESS + above % need]++;
    if (above / need >= 10)
        events[PACK_MANY_ONE_LESS + above % need]++;
}

static void note_stop(const struct walk *w) {
    if (w->reason == 1 || w->round < 3 || w->days < w->round || w->past != closed(w->period->last) + 1)
        return;
    events[STOP_WITH_ROUND] += w->days % w->round == 0;
    events[STOP_AFTER_ROUND] += w->days % w->round == 1;
    events[STOP_SHORT_OF_ROUND] += w->days % w->round == w->round - 1;
}

/* ---- other periods */

static bool may_lie_over(enum class a, enum class b) {
    return (a == FIXED && b == NEED) || (a == NEED && b == FIXED);
}

static void note_other(const struct walk *w, const struct period *other) {
    uint32_t behind = closed(other->last) + 1, choice = w->in->choice, round = w->round, from = w->from;
    bool next = other->first == closed(w->period->last) + 1 && other->interval > 0 && other->interval != round;
    if (next && has_dose_of(other, choice))
        events[w->days % round == 0 ? NEXT_WITH_ROUND : NEXT_INSIDE_ROUND] += w->days >= round && w->past > other->first;
    if (!may_lie_over(class_of(w->period), class_of(other)) || round < 3)
        return;
    if (other->first > from && (other->first - from) % round != 0)
        events[OVER_BEGINS_BY_1 + choice - 1] += w->days >= other->first - from + round;
    if (behind > from && (behind - from) % round != 0)
        events[OVER_ENDS_BY_1 + choice - 1] += w->days >= behind - from + round;
}

/* ---- pauses */

static uint32_t pauses_of(const struct walk *w) { return (uint32_t)(w->in->pauses_len / 8); }
static uint32_t first_of(const struct walk *w, uint32_t i) { return (uint32_t)get_bytes(w->in->pauses + 8 * i, 4); }
static uint32_t last_of(const struct walk *w, uint32_t i) { return closed((uint32_t)get_bytes(w->in->pauses + 8 * i + 4, 4)); }

/* Does a pause have a day from `first` to `last`? */
static bool paused_between(const struct walk *w, uint32_t first, uint32_t last) {
    for (uint32_t i = 0; i < pauses_of(w); i++)
        if (first_of(w, i) <= last && first <= last_of(w, i))
            return true;
    return false;
}

/* The day on which the walk has left the pauses ahead of a day, or comes to the period. */
static uint32_t free_from(const struct walk *w, uint32_t day) {
    uint32_t from = w->from;
    for (uint32_t i = 0; i < pauses_of(w); i++)
        if (last_of(w, i) < day && last_of(w, i) >= from)
            from = last_of(w, i) + 1;
    return from;
}

/* Two pauses, one behind the other with no third between them, or one over the other. */
static void note_two(const struct walk *w, uint32_t ahead, uint32_t behind) {
    uint32_t from = last_of(w, ahead) + 1, to = first_of(w, behind), round = w->round;
    events[PAUSES_OVERLAP] += first_of(w, ahead) <= to && to < from;
    if (to < from || (to > from && paused_between(w, from, to - 1)))
        return;
    events[PAUSES_TOUCH] += to == from;
    events[PAUSES_DAY_BETWEEN] += to == from + 1;
    events[PAUSES_ROUND_BETWEEN] += round > 2 && to == from + round;
    events[PAUSES_SHORT_ROUND_BETWEEN] += round > 2 && to + 1 == from + round;
    events[PAUSES_LONG_ROUND_BETWEEN] += round > 2 && to == from + round + 1;
}

static void note_pause(const struct walk *w, uint32_t i) {
    uint32_t first = first_of(w, i), last = last_of(w, i), round = w->round;
    events[PAUSE_PAST_STOP] += w->reason == 2 && first >= w->past;
    if (first < w->from || first >= w->from + w->days)
        return;
    events[PAUSE_OPEN] += get_bytes(w->in->pauses + 8 * i + 4, 4) == DAY_OPEN;
    for (uint32_t other = 0; other < pauses_of(w); other++)
        if (other != i && first_of(w, other) >= w->from && first_of(w, other) < w->from + w->days)
            note_two(w, i, other);
    if (round < 3 || (first > w->from && paused_between(w, first - 1, first - 1)))
        return;
    uint32_t since = (first - free_from(w, first)) % round;
    events[PAUSE_ON_LAST_OF_ROUND] += since == round - 1;
    events[PAUSE_ON_FIRST_OF_ROUND] += since == 0 && first >= w->from + round;
    events[PAUSE_OF_A_DAY] += since > 0 && since < round - 1 && first == last && w->past > last + round;
    events[PAUSE_UP_TO_ROUND] += (last + 1 - w->period->first) % round == 0 && w->past > last + round;
}

/* ---- supply and dates */

static void note_walk(const struct walk *w) {
    uint32_t choice = w->in->choice;
    if (!has_dose_of(w->period, choice)) {
        events[ROUNDS_NOT_OF_CHOICE] += w->period->doses > 0 && w->days >= 2 * w->round;
        return;
    }
    for (uint32_t i = 0; i < w->plan->periods; i++)
        if (&w->plan->period[i] != w->period)
            note_other(w, &w->plan->period[i]);
    if (!w->alone)
        return;
    for (uint32_t i = 0; i < pauses_of(w); i++)
        note_pause(w, i);
    events[ROUNDS_OF_NOTHING] += need_of_round(w->period, choice) == 0 && w->days >= 2 * w->round;
    events[ANY_DAY_BY_3] += choice == 3 && w->period->dose[0].day == 0 && w->round > 1 && w->days >= 2 * w->round;
    events[ANY_DAY_BY_4] += choice == 4 && w->period->dose[0].day == 0 && w->round > 1 && w->days >= 2 * w->round;
    uint32_t end = w->from + w->days - 1; /* which an open pause would have */
    events[w->plain ? ROUNDS_TO_2199 : PAUSED_TO_2199] += w->days > 65535 && !paused_between(w, end, end);
    note_start(w);
    note_stop(w);
    if (w->plain) {
        note_size(w);
        note_pack(w);
    }
}

/* The walk from the input's start to the day ahead of `past`, in each iterated period that it comes to. */
static void note_all(const struct plan *plan, const struct input *in, uint32_t past, uint64_t reason) {
    for (uint32_t i = 0; i < plan->periods; i++) {
        const struct period *period = &plan->period[i];
        uint32_t to = closed(period->last) < past ? closed(period->last) + 1 : past;
        struct walk w = {.plan = plan, .in = in, .period = period, .round = period->interval, .past = past, .reason = reason};
        w.from = in->start > period->first ? in->start : period->first;
        if (period->interval == 0 || to <= w.from)
            continue;
        w.days = to - w.from;
        w.alone = !other_of_choice(&w);
        w.plain = w.alone && in->pauses_len == 0;
        note_walk(&w);
    }
}

void note_supply(const struct plan *plan, const struct input *in) {
    note_all(plan, in, in->start + (uint32_t)get_bytes(out_now(), 8), get_bytes(out_now() + 24, 8));
}

/* Two rounds or more up to a date, with nothing else ahead of it? */
static bool behind_rounds(const struct plan *plan, uint32_t start, uint32_t choice, uint64_t date) {
    for (uint32_t i = 0; i < plan->periods; i++) {
        const struct period *period = &plan->period[i];
        uint32_t from = start > period->first ? start : period->first;
        if (has_dose_of(period, choice) && closed(period->last) >= start)
            return period->interval > 0 && date != DAY_OPEN && date >= from + 2 * period->interval;
    }
    return false;
}

void note_dates_of_rounds(const struct plan *plan, const struct input *in) {
    static const uint32_t choices[] = {1, 1, 2, 3, 4};
    for (uint32_t i = 0; i < 5; i++)
        events[ROUNDS_TO_END_DATE + i] += behind_rounds(plan, in->start, choices[i], get_bytes(out_now() + 8 * i, 8));
}
