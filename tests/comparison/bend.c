/* Plans changed around one rule, often to just this side or just the other of its edge. What a change really breaks is for
   the two judges to say; the comparison only counts that every rule comes up. */
#include "draft.h"

#include <string.h>

static uint32_t closed_day(uint32_t last) {
    return last == DAY_OPEN ? DAY_LAST : last;
}

static uint32_t length_of(const struct draft_period *period) {
    return closed_day(period->last) - period->first + 1;
}

static struct draft_period *any_period(struct random *r, struct draft *draft) {
    return &draft->period[below(r, draft->periods)];
}

/* A period with doses; the draft gets one where it has none. */
static struct draft_period *dosed_period(struct random *r, struct draft *draft) {
    for (uint32_t i = 0; i < 20; i++) {
        struct draft_period *period = any_period(r, draft);
        if (period->doses > 0)
            return period;
    }
    struct draft_period *period = any_period(r, draft);
    period->interval = 1;
    period->doses = 1;
    period->dose[0] = (struct draft_dose){.day = 1, .low = 100};
    return period;
}

/* Puts a dose into a period behind the doses of its day. */
static void add_dose(struct draft_period *period, struct draft_dose dose) {
    if (period->doses == DRAFT_DOSES)
        return;
    uint32_t at = period->doses++;
    for (; at > 0 && period->dose[at - 1].day > dose.day; at--)
        period->dose[at] = period->dose[at - 1];
    period->dose[at] = dose;
}

/* Leaves room for a period of many blocks: the others keep one block each. */
static void make_room(struct draft *draft, const struct draft_period *big) {
    for (uint32_t i = 0; i < draft->periods; i++)
        if (&draft->period[i] != big && draft->period[i].doses > 20)
            draft->period[i].doses = 20;
}

static void bend_5(struct random *r, struct draft *draft) {
    uint32_t first = DAY_LAST, last = 0, off = below(r, 3) != 0;
    for (uint32_t i = 0; i < draft->periods; i++) {
        first = draft->period[i].first < first ? draft->period[i].first : first;
        last = closed_day(draft->period[i].last) > last ? closed_day(draft->period[i].last) : last;
    }
    if (once_in(r, 2)) {
        draft->start = first + off <= closed_day(draft->end) ? first + off : first;
    } else {
        draft->end = last - (last > draft->start ? off : 0);
        if (once_in(r, 4))
            draft->end = DAY_LAST; /* an end, and an open period does not keep to it */
    }
}

static void bend_6(struct random *r, struct draft *draft) {
    if (draft->periods < 2)
        return;
    uint32_t i = below(r, draft->periods - 1);
    struct draft_period *a = &draft->period[i], *b = &draft->period[i + 1];
    if (once_in(r, 2)) {
        uint32_t first = a->first, last = a->last;
        a->first = b->first, a->last = b->last;
        b->first = first, b->last = last;
    } else {
        a->first = b->first + below(r, 2);
        if (a->first > closed_day(a->last))
            a->last = a->first;
    }
}

static void bend_7(struct random *r, struct draft *draft) {
    struct draft_period *period = dosed_period(r, draft);
    uint32_t limit = period->interval > 0 ? period->interval : length_of(period);
    struct draft_dose *last = &period->dose[period->doses - 1];
    switch (below(r, 4)) {
    case 0: { /* a day number falls */
        uint32_t i = below(r, period->doses), day = period->dose[i].day;
        if (period->doses == 1)
            add_dose(period, *last);
        i = i < period->doses - 1 ? i : period->doses - 2;
        period->dose[i].day = day + 1;
        period->dose[i + 1].day = day;
        break;
    }
    case 1: /* at the interval or the length, or one behind it */
        if (limit < 65535)
            last->day = limit + below(r, 2);
        break;
    case 2: /* an interval at the greatest day number, or one below */
        if (last->day > 1)
            period->interval = last->day - below(r, 2);
        break;
    default: /* not iterated, and as long as the greatest day number, or a day less */
        period->interval = 0;
        if (last->day > 1 && period->first + last->day - 1 <= DAY_LAST)
            period->last = period->first + last->day - 1 - below(r, 2);
    }
}

static void bend_8(struct random *r, struct draft *draft) {
    struct draft_period *period = dosed_period(r, draft);
    if (once_in(r, 2)) {
        period->dose[0].day = 0;
        return;
    }
    for (uint32_t i = 0; i < period->doses; i++)
        period->dose[i].day = 0;
    if (once_in(r, 2))
        period->dose[below(r, period->doses)].mark ^= 1;
}

/* 98 to 101 doses in one day, alike or each at its own minute, and sometimes some on another day. */
static void bend_9(struct random *r, struct draft *draft) {
    struct draft_period *period = dosed_period(r, draft);
    uint32_t count = between(r, 98, 101), mark = period->dose[0].mark, minute = below(r, 1440);
    bool untimed = once_in(r, 2), both = once_in(r, 4);
    period->doses = 0;
    for (uint32_t i = 0; i < count; i++)
        period->dose[period->doses++] = (struct draft_dose){.day = 1, .kind = untimed ? 0 : 5, .mark = both ? i & 1 : mark,
            .minute = untimed ? 0 : (minute + 7 * i) % 1440, .low = 100};
    if (period->interval > 1 && once_in(r, 2))
        for (uint32_t i = 0; i < 20; i++)
            period->dose[period->doses++] = (struct draft_dose){.day = 2, .kind = 5, .mark = mark, .minute = i, .low = 100};
    make_room(draft, period);
}

static void bend_10(struct random *r, struct draft *draft) {
    struct draft_period *period = dosed_period(r, draft);
    struct draft_dose *dose = &period->dose[below(r, period->doses)];
    if (dose->kind == 0) {
        dose->kind = 5;
        dose->minute = below(r, 1440);
    }
    struct draft_dose twin = *dose;
    if (once_in(r, 3))
        twin.mark ^= 1;
    if (twin.kind == 5 && once_in(r, 3))
        twin.minute = (twin.minute + 1) % 1440;
    if (once_in(r, 6) && (period->interval == 0 || twin.day < period->interval))
        twin.day++;
    add_dose(period, twin);
}

static void bend_11(struct random *r, struct draft *draft) {
    struct draft_period *period = dosed_period(r, draft);
    bool had_untimed = false;
    for (uint32_t i = 0; i < period->doses; i++)
        had_untimed |= period->dose[i].kind == 0;
    if (!had_untimed) /* rule 12 would come up as well, but behind 11 */
        add_dose(period, (struct draft_dose){.day = period->dose[0].day, .mark = period->dose[0].mark, .low = 5});
    uint32_t at = below(r, period->doses);
    while (period->dose[at].kind != 0)
        at = (at + 1) % period->doses;
    struct draft_dose twin = period->dose[at];
    switch (below(r, 5)) {
    case 0: twin.low = twin.low > 0 ? twin.low - 1 : 1; break;
    case 1: twin.high = twin.high == 0 && twin.low < AMOUNT_MOST ? twin.low + 1 : 0; break;
    case 2: twin.high = twin.low; break;
    case 3: twin.mark ^= 1; twin.low += twin.low < AMOUNT_MOST; break;
    default: break; /* alike: allowed */
    }
    add_dose(period, twin);
}

static void bend_12(struct random *r, struct draft *draft) {
    struct draft_period *period = dosed_period(r, draft);
    struct draft_dose other = period->dose[below(r, period->doses)];
    bool timed = false;
    for (uint32_t i = 0; i < period->doses; i++)
        timed |= period->dose[i].kind >= 1 && period->dose[i].kind <= 4;
    other.kind = timed ? 0 : between(r, 1, 4);
    other.minute = 0;
    if (once_in(r, 4))
        other.mark ^= 1;
    if (other.day > 0 && once_in(r, 3) && (period->interval == 0 || other.day < period->interval))
        other.day++;
    add_dose(period, other);
}

static void bend_13(struct random *r, struct draft *draft) {
    struct draft_period *period = dosed_period(r, draft);
    struct draft_dose *dose = &period->dose[below(r, period->doses)];
    uint32_t day = dose->day, kind = dose->kind, mark = dose->mark;
    uint64_t low = once_in(r, 4) ? 0 : between(r, 2, 500);
    uint64_t high = low == 0 ? between(r, 0, 2) : low - 1 + below(r, 3);
    for (uint32_t i = 0; i < period->doses; i++) /* untimed doses of a day stay alike */
        if (&period->dose[i] == dose || (kind == 0 && period->dose[i].kind == 0 && period->dose[i].day == day && period->dose[i].mark == mark)) {
            period->dose[i].low = low;
            period->dose[i].high = high;
        }
}

/* Unmarked upper amounts of 100,000,000,000 x N, one below or one above, at clock times. */
static void bend_14(struct random *r, struct draft *draft) {
    struct draft_period *period = dosed_period(r, draft);
    uint32_t n = between(r, 1, 4);
    if (once_in(r, 2)) {
        period->interval = n;
    } else {
        period->interval = 0;
        if (period->last == DAY_OPEN || period->first + n - 1 > DAY_LAST || once_in(r, 3))
            period->last = draft->end = DAY_OPEN;
        else
            period->last = period->first + n - 1;
    }
    uint64_t left = 100000000000u * n - 1 + below(r, 3);
    period->doses = 0;
    for (uint32_t i = 0; left > 0; i++) {
        uint64_t amount = left < AMOUNT_MOST ? left : AMOUNT_MOST;
        struct draft_dose dose = {.day = n, .kind = 5, .minute = i, .low = amount};
        if (amount > 1 && once_in(r, 2)) {
            dose.low = amount - 1;
            dose.high = amount;
        }
        left -= amount;
        period->dose[period->doses++] = dose;
    }
    if (once_in(r, 2)) /* a marked dose does not count, and its day number makes no N */
        period->dose[period->doses++] = (struct draft_dose){.day = n + below(r, 2), .kind = 5, .mark = 1, .minute = 1000, .low = AMOUNT_MOST};
    make_room(draft, period);
}

static void bend_15(struct random *r, struct draft *draft) {
    if (once_in(r, 3))
        draft->periods = 0;
    for (uint32_t i = 0; i < draft->periods; i++)
        draft->period[i].doses = 0;
    draft->vka = once_in(r, 3);
}

static void bend_16(struct random *r, struct draft *draft) {
    if (draft->periods < 2) {
        draft->period[draft->periods++] = draft->period[0];
        return;
    }
    uint32_t i = below(r, draft->periods - 1), j = i + 1 + (once_in(r, 2) ? 0 : below(r, draft->periods - i - 1));
    struct draft_period *a = &draft->period[i], *b = &draft->period[j];
    switch (below(r, 4)) {
    case 0: /* the earlier one ends on the later one's first day, or just before */
        if (b->first > a->first)
            a->last = b->first - below(r, 2);
        break;
    case 1: /* the later one begins earlier */
        b->first = closed_day(a->last) >= a->first ? closed_day(a->last) : a->first;
        if (b->first > closed_day(b->last))
            b->last = b->first;
        break;
    case 2: /* another class: one dose more with the other mark */
        a = dosed_period(r, draft);
        add_dose(a, (struct draft_dose){.day = a->dose[a->doses - 1].day, .kind = 5, .mark = a->dose[0].mark ^ 1, .minute = 1, .low = 100});
        break;
    default: /* a dosed one becomes empty, or the other way */
        a->doses = a->doses > 0 ? 0 : 1;
        a->dose[0] = (struct draft_dose){.day = 1, .mark = below(r, 2), .low = 100};
    }
}

static void remove_period(struct draft *draft, uint32_t at) {
    draft->periods--;
    for (uint32_t i = at; i < draft->periods; i++)
        draft->period[i] = draft->period[i + 1];
}

static void bend_17(struct random *r, struct draft *draft) {
    uint32_t at = below(r, draft->periods);
    struct draft_period *period = &draft->period[at];
    switch (below(r, 4)) {
    case 0: /* a day less at the end */
        if (period->last != DAY_OPEN && period->last > period->first)
            period->last--;
        break;
    case 1: /* a day less at the beginning */
        if (period->first < closed_day(period->last) && (at + 1 == draft->periods || period->first < period[1].first))
            period->first++;
        break;
    case 2:
        if (draft->periods > 1)
            remove_period(draft, at);
        break;
    default: /* fixed to need or the other way, as in P8 */
        for (uint32_t i = 0; i < period->doses; i++)
            period->dose[i].mark ^= 1;
    }
}

void bend(struct random *r, struct draft *draft, uint32_t rule) {
    static void (*const all[])(struct random *, struct draft *) = {bend_5, bend_6, bend_7, bend_8, bend_9, bend_10, bend_11,
        bend_12, bend_13, bend_14, bend_15, bend_16, bend_17};
    if (draft->periods > 0)
        all[rule - 5](r, draft);
}

/* ---- bytes */

static void bend_length(struct random *r, uint8_t *bytes, size_t *length) {
    switch (below(r, 5)) {
    case 0: *length = 0; break;
    case 1: *length -= between(r, 1, 511); break;
    case 2: *length += between(r, 1, 511); break;
    case 3: *length = below(r, 512); break;
    default: /* 32 or 33 blocks, the further ones right in themselves */
        for (size_t to = between(r, 31, 33) * 512; *length < to; *length += 512)
            memcpy(bytes + *length, bytes + *length - 512, 512);
        bytes[1] = (uint8_t)(*length / 512 - 1);
        put_sums(bytes);
    }
    if (*length > DRAFT_BYTES)
        *length = DRAFT_BYTES;
}

static void bend_sums(struct random *r, uint8_t *bytes, size_t length) {
    uint8_t *block = bytes + 512 * below(r, (uint32_t)(length / 512));
    switch (below(r, 4)) {
    case 0: block[504 + below(r, 8)] ^= (uint8_t)(1 << below(r, 8)); break;
    case 1: memcpy(block, block + 504, 4); memset(block + 504, 0, 8); break;
    case 2: { /* both sums, swapped */
        uint64_t first = get_bytes(block + 504, 4), second = get_bytes(block + 508, 4);
        put_bytes(block + 504, 4, second);
        put_bytes(block + 508, 4, first);
        break;
    }
    default: block[below(r, 504)] ^= (uint8_t)(1 << below(r, 8));
    }
}

static void bend_kinds(struct random *r, uint8_t *bytes, size_t *length) {
    uint32_t blocks = (uint32_t)(*length / 512);
    uint8_t *block = bytes + 512 * below(r, blocks);
    switch (below(r, 6)) {
    case 0: block[0] = (uint8_t)below(r, 5); break;
    case 1: bytes[1] = (uint8_t)(bytes[1] + (once_in(r, 2) ? 1 : -1)); block = bytes; break;
    case 2: memset(block, 0, 512); break;
    case 3: /* a block less, or the same one twice */
        if (once_in(r, 2) && blocks > 1) {
            *length -= 512;
        } else if (blocks < 32) {
            memcpy(bytes + *length, bytes + *length - 512, 512);
            *length += 512;
        }
        if (once_in(r, 2))
            bytes[1] = (uint8_t)(*length / 512 - 1);
        block = bytes;
        break;
    case 4: /* a continuation behind another number of doses */
        block[0] = 3;
        memset(block + 2, 0, 22);
        if (once_in(r, 2) && block > bytes + 512)
            block[-511] = (uint8_t)between(r, 19, 21), put_sums(block - 512);
        break;
    default: block[0] = once_in(r, 2) ? 2 : 3;
    }
    put_sums(block);
}

/* Writes one of the values at and around the edges of a field. */
static void bend_dose(struct random *r, uint8_t *record) {
    static const uint64_t amounts[] = {AMOUNT_MOST, AMOUNT_MOST + 1, 1ull << 63, 0xffffffffffffffffu, 1ull << 40};
    switch (below(r, 8)) {
    case 0: record[2] = (uint8_t)(once_in(r, 2) ? between(r, 5, 7) : 255); break;
    case 1: record[3] = (uint8_t)(once_in(r, 2) ? 2 : 255); break;
    case 2: case 7: record[2] = 5; put_bytes(record + 4, 2, between(r, 1438, 1441)); break;
    case 3: record[2] = (uint8_t)below(r, 5); put_bytes(record + 4, 2, once_in(r, 2) ? 1 : 256); break;
    case 4: record[6 + below(r, 2)] = (uint8_t)between(r, 1, 255); break;
    case 5: put_bytes(record + 8, 8, amounts[below(r, 5)]); break;
    default: put_bytes(record + 16, 8, amounts[below(r, 5)]);
    }
}

static void bend_days(struct random *r, uint8_t *block) {
    static const uint64_t days[] = {DAY_LAST, DAY_LAST + 1, DAY_OPEN, DAY_OPEN - 1, 0x80000000u, 0};
    uint64_t first = get_bytes(block + 4, 4);
    switch (below(r, 3)) {
    case 0: put_bytes(block + 4, 4, days[below(r, 6)]); break;
    case 1: put_bytes(block + 8, 4, days[below(r, 6)]); break;
    default: put_bytes(block + 8, 4, first - below(r, 2));
    }
}

static void bend_fields(struct random *r, uint8_t *bytes, size_t length) {
    uint32_t blocks = (uint32_t)(length / 512), at = below(r, blocks);
    for (uint32_t i = 0; i < blocks && bytes[512 * at] != 3 && (i > 0 || once_in(r, 3)); i++)
        at = (at + 1) % blocks; /* rather a continuation, now and then */
    uint8_t *block = bytes + 512 * at;
    uint32_t used = block[0] == 1 ? 21 : 24 + 24u * (block[1] < 20 ? block[1] : 20);
    switch (below(r, 6)) {
    case 0: /* a byte that has to be zero */
        if (used < 504)
            block[once_in(r, 3) ? used : once_in(r, 3) ? 503 : between(r, used, 503)] = (uint8_t)between(r, 1, 255);
        break;
    case 1:
        if (block[0] == 1)
            block[20] = (uint8_t)(once_in(r, 2) ? 2 : 255);
        else
            block[block[0] == 2 ? between(r, 12, 23) : between(r, 2, 23)] = (uint8_t)between(r, 1, 255);
        break;
    case 2:
        if (block[0] != 3)
            bend_days(r, block);
        else
            block[1] = 0;
        break;
    case 3:
        if (block[0] != 1)
            block[1] = (uint8_t)(once_in(r, 2) ? between(r, 20, 22) : below(r, 256));
        else
            bend_days(r, block);
        break;
    default:
        if (block[0] != 1 && block[1] > 0)
            bend_dose(r, block + 24 + 24 * below(r, block[1] < 20 ? block[1] : 20));
    }
    put_sums(block);
}

void bend_form(struct random *r, uint8_t *bytes, size_t *length, uint32_t rule) {
    if (*length < 512 || *length % 512 != 0)
        return;
    switch (rule) {
    case 1: bend_length(r, bytes, length); break;
    case 2: bend_sums(r, bytes, *length); break;
    case 3: bend_kinds(r, bytes, length); break;
    default: bend_fields(r, bytes, *length);
    }
}

void damage(struct random *r, uint8_t *bytes, size_t length) {
    for (uint32_t n = between(r, 1, 3); n > 0 && length > 0; n--) {
        size_t at = below(r, (uint32_t)length), block = at / 512 * 512;
        if (once_in(r, 2) && block + 48 <= length)
            at = block + below(r, 48);
        bytes[at] = (uint8_t)(once_in(r, 2) ? below(r, 256) : bytes[at] ^ 1u << below(r, 8));
        if (!once_in(r, 5) && block + 512 <= length)
            put_sums(bytes + block);
    }
}

/* ---- plans of any kind */

size_t make_accepted(struct random *r, uint8_t *bytes, uint32_t size) {
    static struct draft draft;
    make_valid(r, &draft, size);
    return write_draft(&draft, bytes);
}

/* Small periods of any class thrown on a few days: mostly rules 16 and 17. */
static void make_crowd(struct random *r, struct draft *draft) {
    uint32_t from = once_in(r, 4) ? DAY_LAST - 10 : 8000, day = from;
    make_valid(r, draft, 0);
    draft->start = 0;
    draft->end = DAY_OPEN;
    draft->periods = between(r, 2, 6);
    for (uint32_t i = 0; i < draft->periods; i++) {
        struct draft_period *period = &draft->period[i];
        day += i > 0 ? below(r, 3) : 0;
        period->first = day > DAY_LAST ? DAY_LAST : day;
        period->last = period->first + below(r, 4);
        if (period->last > DAY_LAST)
            period->last = once_in(r, 2) ? DAY_OPEN : DAY_LAST;
        period->interval = 1;
        period->doses = below(r, 4);
        if (period->doses == 3)
            period->doses = 1;
        uint32_t mark = below(r, 2);
        for (uint32_t j = 0; j < period->doses; j++)
            period->dose[j] = (struct draft_dose){.day = 1, .kind = 5, .mark = mark ^ j, .minute = j, .low = 100};
    }
}

static uint32_t choose_size(struct random *r, uint32_t rule) {
    if (once_in(r, 10))
        return 2;
    return rule != 6 && rule < 16 && once_in(r, 3) ? 0 : 1;
}

size_t make_plan(struct random *r, uint8_t *bytes) {
    static struct draft draft;
    uint32_t rules[2] = {between(r, 1, 18), once_in(r, 6) ? between(r, 1, 17) : 0};
    if (once_in(r, 4))
        rules[0] = rules[1] = 0;
    if (rules[0] == 18)
        make_crowd(r, &draft);
    else
        make_valid(r, &draft, choose_size(r, rules[0]));
    for (uint32_t i = 0; i < 2; i++)
        if (rules[i] >= 5 && rules[i] <= 17)
            bend(r, &draft, rules[i]);
    size_t length = write_draft(&draft, bytes);
    for (uint32_t i = 0; i < 2; i++)
        if (rules[i] >= 1 && rules[i] <= 4)
            bend_form(r, bytes, &length, rules[i]);
    if (once_in(r, 30))
        damage(r, bytes, length);
    return length;
}
