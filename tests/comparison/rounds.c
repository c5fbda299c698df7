/* Plans of iterated periods that break no rule: rounds of every size, one period by itself, two in a row, and periods of one list
   that lie over the other's rounds. */
#include "draft.h"

/* A period before it has doses. marks: 0 none, 1 all, 2 both, 3 empty. */
struct frame {
    uint32_t round, first, last, marks;
};

static uint32_t closed_day(uint32_t last) {
    return last == DAY_OPEN ? DAY_LAST : last;
}

static uint32_t choose_round(struct random *r) {
    static const uint32_t usual[] = {1, 2, 3, 4, 5, 7, 7, 28, 28, 620};
    switch (below(r, 8)) {
    case 0: return between(r, 100, 999);
    case 1: return once_in(r, 3) ? 65535 : between(r, 1000, once_in(r, 4) ? 65534 : 9999);
    default: return usual[below(r, 10)];
    }
}

/* With room for a round or more; now and then for a few up to the calendar's end, or a day less or more. */
static uint32_t choose_first(struct random *r, uint32_t round) {
    uint32_t few = between(r, 1, 4) * round;
    if (once_in(r, 4) && few > 1 && few < DAY_LAST)
        return DAY_LAST - few + below(r, 3);
    return once_in(r, 4) ? 0 : round > 60000 ? below(r, DAY_LAST + 2 - round) : between(r, 2000, 7000);
}

/* After whole rounds, or a day sooner or later. */
static uint32_t choose_last(struct random *r, uint32_t first, uint32_t round) {
    uint32_t behind = first + (once_in(r, 3) ? between(r, 10, 300) : between(r, 1, 5)) * round + (once_in(r, 2) ? 1 : below(r, 3));
    return behind < first + 2 ? first : behind - 2 > DAY_LAST ? DAY_LAST : behind - 2;
}

static struct frame choose_frame(struct random *r, uint32_t marks, bool may_be_open) {
    struct frame frame = {.round = choose_round(r), .marks = marks};
    frame.first = choose_first(r, frame.round);
    frame.last = may_be_open && once_in(r, 2) ? DAY_OPEN : choose_last(r, frame.first, frame.round);
    return frame;
}

static uint32_t choose_marks(struct random *r) {
    return once_in(r, 2) ? 0 : between(r, 1, 2);
}

/* Two in a row, with an empty one between them now and then. */
static uint32_t lay_row(struct random *r, struct frame *frame) {
    uint32_t count = 0;
    frame[count++] = choose_frame(r, choose_marks(r), false);
    if (once_in(r, 4) && frame[0].last < DAY_LAST) {
        frame[count] = (struct frame){.first = frame[0].last + 1, .marks = 3};
        frame[count].last = choose_last(r, frame[count].first, 3);
        count++;
    }
    if (frame[count - 1].last < DAY_LAST) {
        struct frame next = {.round = choose_round(r), .first = frame[count - 1].last + 1, .marks = choose_marks(r)};
        next.last = once_in(r, 2) ? DAY_OPEN : choose_last(r, next.first, next.round);
        frame[count++] = next;
    }
    return count;
}

/* A fixed one, and one or two as-needed ones that begin and end anywhere in its rounds; or the other way. */
static uint32_t lay_over(struct random *r, struct frame *frame) {
    uint32_t marks = once_in(r, 3), count = 1;
    frame[0] = choose_frame(r, marks, true);
    uint32_t round = frame[0].round, last = closed_day(frame[0].last);
    uint32_t from = frame[0].first + below(r, (round < 9000 ? 4 : 1) * round + 1);
    if (once_in(r, 6) && frame[0].first > 20)
        from = frame[0].first - between(r, 1, 20);
    for (uint32_t left = between(r, 1, 2); left > 0 && from <= last; left--) {
        struct frame over = {.round = once_in(r, 2) ? 0 : between(r, 1, 9), .first = from, .marks = 1 - marks};
        over.last = once_in(r, 6) ? DAY_OPEN : from + below(r, round < 7 ? 20 : 3 * round);
        if (over.last < frame[0].first) /* no hole ahead of the other */
            over.last = frame[0].first;
        if (over.last > DAY_LAST)
            over.last = DAY_OPEN;
        from = closed_day(over.last) + 1;
        frame[count++] = over;
    }
    return count;
}

/* Up to a few doses on days of the round, or one on each; `most` is what the blocks have room for. */
static void fill_round(struct random *r, struct draft_period *period, uint32_t marks, uint32_t most) {
    uint32_t length = closed_day(period->last) - period->first + 1;
    uint32_t days = period->interval > 0 ? period->interval : length < 65535 ? length : 65535;
    uint32_t count = marks == 2 ? between(r, 2, 5) : between(r, 1, 5);
    if (once_in(r, days < 8 ? 2 : 16)) /* one on each day of the round */
        count = days < 2 ? 2 : days < most ? days : most;
    bool any_day = marks == 1 && count < 100 && once_in(r, 2), large = count <= 5 && once_in(r, 10);
    bool nothing[2] = {count <= 5 && once_in(r, 16), count <= 5 && once_in(r, 16)};
    for (uint32_t i = 0; i < count; i++) { /* each in its own stretch of the round, often at an end of it */
        uint32_t from = 1 + i * days / count, to = (i + 1) * days / count;
        struct draft_dose dose = {.kind = 5, .minute = i, .mark = marks == 2 ? below(r, 2) : marks};
        dose.day = any_day ? 0 : to < from || once_in(r, 3) ? from : once_in(r, 3) ? to : between(r, from, to);
        dose.low = nothing[dose.mark] ? 0 : large ? AMOUNT_MOST - between(r, 10, 20) : between(r, 1, 9) * (once_in(r, 2) ? 1 : 100);
        dose.high = dose.low > 0 && once_in(r, 4) ? dose.low + between(r, 1, 9) : 0;
        period->dose[i] = dose;
    }
    if (marks == 2) /* both have to stand */
        period->dose[count - 1].mark = 1 - period->dose[0].mark;
    period->doses = count;
}

void make_rounds(struct random *r, struct draft *draft) {
    struct frame frame[3];
    uint32_t count = 1, layout = below(r, 8);
    if (layout < 2)
        frame[0] = choose_frame(r, choose_marks(r), true);
    else
        count = layout < 4 ? lay_row(r, frame) : lay_over(r, frame);
    for (uint32_t i = 1; i < count; i++) /* by first day */
        for (uint32_t j = i; j > 0 && frame[j].first < frame[j - 1].first; j--) {
            struct frame held = frame[j];
            frame[j] = frame[j - 1];
            frame[j - 1] = held;
        }
    for (uint32_t i = 0; i < count; i++) {
        struct draft_period *period = &draft->period[i];
        period->interval = frame[i].round;
        period->first = frame[i].first;
        period->last = frame[i].last;
        period->doses = 0;
        if (frame[i].marks < 3)
            fill_round(r, period, frame[i].marks, count == 1 ? 620 : 200);
    }
    draft->periods = count;
    draft->unit = draft->vka = 0;
    draft->start = below(r, frame[0].first + 1);
    draft->end = DAY_OPEN;
    draft->number = draft->revision = 1;
}
