/* Every small walk, with no chance in it: an iterated period of up to three rounds of 1 to 5 days, ending on any day; a start at
   every position, and on the day ahead; every pack up to what all days need, and two more; no pause, and one of 1 to 3 days that
   begins within a day of a round's edge. Once with doses on the days of the round, and once with day number 0. Then without
   pauses, and another period behind it, at once or after an empty day, or an as-needed one over each day or two of it. */
#include "ask.h"
#include "draft.h"

#include "../reference/plan.h"
#include "../reference/reference.h"
#include "chivetassel.h"

#include <stdio.h>
#include <stdlib.h>
#include <string.h>

enum { FIRST = 100, LONGEST = 5 };

/* What each day of a round needs: begun on another day, no round is like it. */
static const uint64_t needs[LONGEST] = {1, 2, 0, 3, 1};

static struct draft draft;
static struct plan judged;
static uint8_t bytes[DRAFT_BYTES];
static size_t length;
static uint64_t walks;

/* ---- plans */

static struct draft_period *add(uint32_t round, uint32_t first, uint32_t last) {
    struct draft_period *period = &draft.period[draft.periods++];
    period->interval = round;
    period->first = first;
    period->last = last;
    period->doses = 0;
    return period;
}

static void add_dose(struct draft_period *period, uint32_t day, uint32_t mark, uint64_t low) {
    period->dose[period->doses] = (struct draft_dose){.day = day, .kind = 5, .mark = mark, .minute = period->doses, .low = low};
    period->doses++;
}

static struct draft_period *begin(uint32_t round, uint32_t last) {
    draft.periods = 0;
    draft.end = DAY_OPEN;
    return add(round, FIRST, last);
}

static void begin_rounds(uint32_t round, uint32_t last) {
    struct draft_period *period = begin(round, last);
    for (uint32_t i = 0; i < round; i++)
        add_dose(period, i + 1, 0, needs[i]);
}

static void begin_any_day(uint32_t round, uint32_t last) {
    struct draft_period *period = begin(round, last);
    add_dose(period, 0, 1, 1);
    add_dose(period, 0, 1, 2);
}

static void finish(void) {
    length = write_draft(&draft, bytes);
    judge(&judged, bytes, length);
}

/* ---- walks */

static void walk(uint32_t start, uint64_t pack, uint32_t choice, uint32_t pause, uint32_t days) {
    uint8_t pauses[8], ours[40], theirs[40];
    put_bytes(pauses, 4, pause);
    put_bytes(pauses + 4, 4, pause + days - 1);
    memset(ours, 165, sizeof ours);
    memset(theirs, 165, sizeof theirs);
    uint32_t a = chivetassel_supply(bytes, length, start, pack, choice, pauses, days > 0 ? 8 : 0, ours, 32);
    uint32_t b = reference_supply(bytes, length, start, pack, choice, pauses, days > 0 ? 8 : 0, theirs, 32);
    walks++;
    if (a == b && memcmp(ours, theirs, sizeof ours) == 0)
        return;
    printf("DIFFERENCE in supply, start %u pack %u choice %u, ", start, (unsigned)pack, choice);
    printf("%u days paused from %u on\n", days, pause);
    for (uint32_t i = 0; i < draft.periods; i++)
        printf("rounds of %u days from %u to %u\n", draft.period[i].interval, draft.period[i].first, draft.period[i].last);
    printf("library:   number %u, %u days\n", a & 255, (unsigned)get_bytes(ours, 4));
    printf("reference: number %u, %u days\n", b & 255, (unsigned)get_bytes(theirs, 4));
    exit(1);
}

static void walk_with_pauses(uint32_t start, uint64_t pack, uint32_t choice) {
    uint32_t from = start > FIRST ? start : FIRST, round = draft.period[0].interval;
    for (uint32_t first = from - 1; first <= draft.period[0].last + 1; first++)
        for (uint32_t days = 1; days <= 3 && (first + 1 - from) % round <= 2; days++)
            walk(start, pack, choice, first, days);
}

static void walk_all(uint32_t choice, bool pauses) {
    finish();
    for (uint32_t start = FIRST - 1; start < FIRST + draft.period[0].interval && start <= draft.period[0].last; start++) {
        uint64_t all = 2;
        for (uint32_t day = start; day <= draft.period[0].last + 3; day++)
            all += need_of_day(&judged, day, choice);
        for (uint64_t pack = 0; pack <= all; pack++) {
            walk(start, pack, choice, 0, 0);
            if (pauses)
                walk_with_pauses(start, pack, choice);
        }
    }
}

/* An as-needed period over one day or two of three rounds, which choice 3 counts and choice 1 does not. */
static void walk_over(uint32_t round) {
    uint32_t last = FIRST + 3 * round - 1;
    for (uint32_t first = FIRST; first <= last; first++)
        for (uint32_t days = 1; days <= 2; days++) {
            begin_rounds(round, last);
            add_dose(add(1, first, first + days - 1), 1, 1, 1);
            walk_all(3, false);
            walk_all(1, false);
        }
}

uint64_t ask_small_walks(void) {
    for (uint32_t round = 1; round <= LONGEST; round++) {
        for (uint32_t last = FIRST; last < FIRST + 3 * round; last++) {
            begin_rounds(round, last);
            walk_all(1, true);
            add_dose(add(1, last + 1, last + 2), 1, 0, 2);
            walk_all(1, false);
            begin_rounds(round, last);
            add(0, last + 1, last + 1);
            add_dose(add(1, last + 2, last + 3), 1, 0, 2);
            walk_all(1, false);
            begin_any_day(round, last);
            walk_all(4, true);
        }
        walk_over(round);
    }
    return walks;
}
