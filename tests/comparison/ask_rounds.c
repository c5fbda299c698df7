/* Supply and dates around the edges of rounds: starts, packs and pauses for a plan of iterated periods. */
#include "ask.h"
#include "draft.h"
#include "rounds.h"

#include <stdio.h>
#include <stdlib.h>

/* The period that is asked around; one that is not iterated counts as a round by itself. */
struct around {
    const struct plan *plan;
    const struct period *period;
    uint32_t round, last; /* no longer than the period */
};

/* Mostly one with the longer rounds. */
static struct around choose_around(struct random *r, const struct plan *plan) {
    struct around a = {.plan = plan};
    do {
        const struct period *one = &plan->period[below(r, plan->periods)], *other = &plan->period[below(r, plan->periods)];
        a.period = one->interval > other->interval ? one : other;
    } while (a.period->doses == 0);
    a.last = closed(a.period->last);
    uint32_t length = a.last - a.period->first + 1;
    a.round = a.period->interval > 0 && a.period->interval < length ? a.period->interval : length;
    return a;
}

static uint32_t choose_choice(struct random *r, const struct period *period) {
    uint32_t choice = between(r, 1, 4);
    while (!has_dose_of(period, choice) && !once_in(r, 4))
        choice = between(r, 1, 4);
    return choice;
}

/* The first or last day of the period or of a round, days ahead of it, or any position, mostly with a round ahead of it. */
static uint32_t choose_start(struct random *r, const struct around *a) {
    uint32_t first = a->period->first, length = a->last - first + 1;
    uint32_t edge = first + between(r, 1, once_in(r, 3) ? 50 : 3) * a->round;
    switch (below(r, 12)) {
    case 0: return first > 20 ? first - between(r, 1, 20) : first;
    case 1: return first;
    case 2: return a->last;
    case 3: return first + below(r, length);
    case 4: case 5: return edge <= a->last ? edge : first;
    case 6: case 7: return edge <= a->last ? edge - 1 : first;
    default: return first + below(r, length < 3 * a->round ? length - a->round + 1 : 2 * a->round);
    }
}

/* ---- pauses */

/* How many days lie ahead of a pause: none, one, some, or whole rounds, a day less or a day more. */
static uint32_t choose_gap(struct random *r, uint32_t round) {
    switch (below(r, 8)) {
    case 0: return 0;
    case 1: return 1;
    case 2: return below(r, 2 * round + 2);
    default: return between(r, 1, once_in(r, 4) ? 20 : 2) * round - 1 + below(r, 3);
    }
}

static uint32_t choose_pause_length(struct random *r, uint32_t round) {
    switch (below(r, 4)) {
    case 0: return round - below(r, round > 1 ? 2 : 1);
    case 1: return between(r, 1, 2 * round + 1);
    default: return between(r, 1, 3);
    }
}

/* Each is placed behind the one ahead of it, over it now and then, or behind the period; the first one behind the start, or behind
   the next round. In either order. */
static size_t make_pauses_of_rounds(struct random *r, uint8_t *bytes, const struct around *a, uint32_t start) {
    uint32_t pause[32][2], count = 0, most = once_in(r, 2) ? 0 : once_in(r, 16) ? 32 : between(r, 1, 4);
    uint32_t from = start > a->period->first ? start : a->period->first;
    if (once_in(r, 3))
        from += (a->round - (from - a->period->first) % a->round) % a->round;
    for (; count < most && from <= DAY_LAST; count++) {
        uint32_t first = once_in(r, 10) ? a->last + between(r, 1, 3) : from + choose_gap(r, a->round);
        if (count > 0 && once_in(r, 6))
            first = from - 1;
        uint32_t last = first + choose_pause_length(r, a->round) - 1;
        pause[count][0] = first < DAY_LAST ? first : DAY_LAST;
        pause[count][1] = once_in(r, 40) ? DAY_OPEN : last < DAY_LAST ? last : DAY_LAST;
        from = last + 1;
    }
    bool back = once_in(r, 2);
    for (uint32_t i = 0; i < 2 * count; i++)
        put_bytes(bytes + 4 * i, 4, pause[back ? count - 1 - i / 2 : i / 2][i % 2]);
    return 8 * count;
}

/* ---- packs */

/* The reference looks at every dose on every day. */
static uint32_t doses_in(const struct plan *plan) {
    uint32_t doses = 0;
    for (uint32_t i = 0; i < plan->periods; i++)
        doses += plan->period[i].doses;
    return doses;
}

/* Whole rounds, one or many, one hundredth less or more, with some further days now and then; or enough for all days. */
static uint64_t choose_pack_of_rounds(struct random *r, const struct around *a, uint32_t start, uint32_t choice) {
    uint32_t doses = doses_in(a->plan), most = 500000 / (doses + 10) / a->round, rounds = once_in(r, 4) ? 1 : between(r, 2, 6);
    if (once_in(r, 20) && doses < 20)
        return 1000000000000u - below(r, 2);
    if (once_in(r, 3) && most > 10)
        rounds = between(r, 10, most < 500 ? most : 500);
    uint64_t pack = rounds * need_of_round(a->period, choice);
    for (uint32_t i = once_in(r, 4) ? between(r, 1, 10) : 0; i > 0; i--)
        pack += need_of_day(a->plan, start + i - 1, choice);
    pack = pack > 1000000000000u ? 1000000000000u - below(r, 2) : pack + below(r, 3);
    return pack > 0 ? pack - 1 : 0;
}

/* ---- asking */

static struct input begin_rounds(struct random *r, enum call call, const uint8_t *bytes, size_t length, const struct around *a) {
    static uint8_t pauses[256];
    struct input in = begin_input(r, call, call == SUPPLY ? 32 : 40);
    in.plan = bytes;
    in.plan_len = length;
    in.start = choose_start(r, a);
    in.choice = choose_choice(r, a->period);
    in.pack = choose_pack_of_rounds(r, a, in.start, in.choice);
    in.pauses = pauses;
    in.pauses_len = make_pauses_of_rounds(r, pauses, a, in.start);
    return in;
}

void ask_of_rounds(struct random *r) {
    static struct draft draft;
    static struct plan plan;
    static uint8_t bytes[DRAFT_BYTES];
    make_rounds(r, &draft);
    size_t length = write_draft(&draft, bytes);
    if (!ask_verdict(r, bytes, length)) {
        printf("a plan of rounds is refused\n");
        exit(2);
    }
    judge(&plan, bytes, length);
    for (uint32_t i = 0; i < 10; i++) {
        struct around a = choose_around(r, &plan);
        enum call call = i < 9 ? SUPPLY : DATES;
        struct input in = begin_rounds(r, call, bytes, length, &a);
        if (call_both(&in) != 65280)
            continue;
        if (call == SUPPLY)
            note_supply(&plan, &in);
        else
            note_dates_of_rounds(&plan, &in);
    }
}
