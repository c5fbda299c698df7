/* A plan into its fixed and its as-needed part, and the blocks of a part that has a day. */
#include "plan.h"
#include "reference.h"

#include <string.h>

/* A period of a part: where it comes from, or NULL for a share of an empty period. */
struct piece {
    const struct period *from;
    uint32_t first, last;
};

struct part {
    uint32_t mark; /* 0: the fixed part, 1: the need part */
    uint32_t pieces;
    struct piece piece[MOST_PERIODS];
};

/* "fixed part, the fixed and mixed periods ..; need part, the need and mixed periods" */
static bool dosed_in(const struct part *part, const struct period *period) {
    enum class class = class_of(period);
    return class == MIXED || class == (part->mark == 0 ? FIXED : NEED);
}

/* "its periods by first day" */
static void add(struct part *part, struct piece piece) {
    uint32_t at = part->pieces++;
    for (; at > 0 && part->piece[at - 1].first > piece.first; at--)
        part->piece[at] = part->piece[at - 1];
    part->piece[at] = piece;
}

/* "For each empty period and each run that share days, one empty period (interval 0) with the shared days" */
static void add_shares(struct part *part, const struct plan *plan, uint32_t first, uint32_t last) {
    for (uint32_t i = 0; i < plan->periods; i++) {
        const struct period *empty = &plan->period[i];
        if (class_of(empty) != EMPTY)
            continue;
        uint32_t from = empty->first > first ? empty->first : first;
        uint32_t to = closed(empty->last) < last ? closed(empty->last) : last;
        if (from <= to)
            add(part, (struct piece){NULL, from, to});
    }
}

/* "A run is a longest stretch of days, between the first and last day of a part's dosed periods, that none of those covers." */
static void add_runs(struct part *part, const struct plan *plan) {
    static uint8_t covered[LAST_DAY + 2];
    uint32_t first = OPEN, last = 0;
    memset(covered, 0, sizeof covered);
    for (uint32_t i = 0; i < plan->periods; i++) {
        const struct period *period = &plan->period[i];
        if (!dosed_in(part, period))
            continue;
        first = period->first < first ? period->first : first;
        last = closed(period->last) > last ? closed(period->last) : last;
        memset(covered + period->first, 1, closed(period->last) - period->first + 1);
    }
    for (uint32_t day = first; first != OPEN && day <= last; day++) {
        uint32_t run = day;
        while (day <= last && !covered[day])
            day++;
        if (day > run)
            add_shares(part, plan, run, day - 1);
    }
}

static void collect(struct part *part, const struct plan *plan, uint32_t mark) {
    part->mark = mark;
    part->pieces = 0;
    for (uint32_t i = 0; i < plan->periods; i++)
        if (dosed_in(part, &plan->period[i]))
            add(part, (struct piece){&plan->period[i], plan->period[i].first, plan->period[i].last});
    add_runs(part, plan);
}

/* "Dates, interval and dose order are kept; blocks are filled to 20." Gives the number of blocks. */
static uint32_t write_piece(const struct part *part, const struct piece *piece, uint8_t *at) {
    uint32_t blocks = 1;
    memset(at, 0, BLOCK);
    at[0] = 2;
    put_number(at + 2, 2, piece->from ? piece->from->interval : 0);
    put_number(at + 4, 4, piece->first);
    put_number(at + 8, 4, piece->last);
    for (uint32_t i = 0; piece->from && i < piece->from->doses; i++) {
        const struct dose *dose = &piece->from->dose[i];
        if (dose->mark != part->mark)
            continue;
        if (at[1] == 20) {
            seal(at);
            at += BLOCK;
            blocks++;
            memset(at, 0, BLOCK);
            at[0] = 3;
        }
        memcpy(at + 24 + 24 * at[1], dose->record, 24);
        at[1]++;
    }
    seal(at);
    return blocks;
}

/* "Each part is a head (count and sums new) and its periods by first day". Gives its length in bytes. */
static size_t write_part(const struct part *part, const uint8_t *head, uint8_t *at) {
    uint32_t blocks = 1;
    memcpy(at, head, BLOCK);
    for (uint32_t i = 0; i < part->pieces; i++)
        blocks += write_piece(part, &part->piece[i], at + blocks * BLOCK);
    at[1] = (uint8_t)(blocks - 1);
    seal(at);
    return blocks * BLOCK;
}

uint32_t reference_split(const uint8_t *plan, size_t plan_len, uint8_t *fixed, size_t fixed_len, uint8_t *need,
                         size_t need_len, uint8_t *out, size_t out_len) {
    static struct plan read;
    static struct part part;
    if (out_len < 16)
        return refused(26);
    struct answer verdict = judge(&read, plan, plan_len);
    if (verdict.number != 0)
        return code(verdict);
    if (fixed_len < PART_BYTES || need_len < PART_BYTES)
        return refused(25);
    collect(&part, &read, 0);
    put_number(out, 8, write_part(&part, plan, fixed));
    collect(&part, &read, 1);
    put_number(out + 8, 8, write_part(&part, plan, need));
    return DONE;
}

/* "An empty stretch comes .. if the wanted part breaks rules 1 to 4 (limit 32,768), or if no period covers the day." */
static void show(const uint8_t *part, size_t length, uint32_t day, size_t *from, size_t *bytes) {
    static struct plan read;
    if (judge_form(part, length, PART_BYTES).number != 0)
        return;
    read_plan(&read, part, length);
    for (uint32_t i = 0; i < read.periods; i++)
        if (covers(&read.period[i], day)) {
            *from = read.period[i].block * BLOCK;
            *bytes = read.period[i].blocks * BLOCK;
            return;
        }
}

uint32_t reference_show_day(const uint8_t *fixed, size_t fixed_len, const uint8_t *need, size_t need_len, uint32_t list,
                            uint32_t day, uint8_t *out, size_t out_len) {
    size_t from = 0, bytes = 0;
    if (out_len < 16)
        return refused(26);
    if (list == 1)
        show(fixed, fixed_len, day, &from, &bytes);
    if (list == 2)
        show(need, need_len, day, &from, &bytes);
    put_number(out, 8, from);
    put_number(out + 8, 8, bytes);
    return DONE;
}
