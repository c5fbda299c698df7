/* How long each call takes, beside the plain reference in the same process, on the same inputs. */
#define _POSIX_C_SOURCE 200809L
#include "../tests/comparison/draft.h"
#include "../tests/reference/reference.h"
#include "chivetassel.h"

#include <stdio.h>
#include <stdlib.h>
#include <string.h>
#include <time.h>

static struct calls {
    uint32_t (*verdict)(const uint8_t *, size_t);
    uint32_t (*supply)(const uint8_t *, size_t, uint32_t, uint64_t, uint32_t, const uint8_t *, size_t, uint8_t *, size_t);
    uint32_t (*dates)(const uint8_t *, size_t, uint32_t, uint64_t, const uint8_t *, size_t, uint8_t *, size_t);
    uint32_t (*split)(const uint8_t *, size_t, uint8_t *, size_t, uint8_t *, size_t, uint8_t *, size_t);
    uint32_t (*show_day)(const uint8_t *, size_t, const uint8_t *, size_t, uint32_t, uint32_t, uint8_t *, size_t);
    uint32_t (*day_sums)(const uint8_t *, size_t, uint32_t, uint8_t *, size_t);
    uint32_t (*clear)(uint8_t *, size_t);
    uint32_t (*submit)(uint8_t *, size_t, const uint8_t *, size_t);
    uint32_t (*sign)(uint8_t *, size_t, uint32_t, const uint8_t *, size_t);
    uint32_t (*release)(const uint8_t *, size_t, uint32_t, uint8_t *, size_t, uint8_t *, size_t);
    uint32_t (*drop)(uint8_t *, size_t, uint32_t);
    uint32_t (*state)(const uint8_t *, size_t, uint32_t, uint8_t *, size_t);
} library = {chivetassel_verdict, chivetassel_supply, chivetassel_dates, chivetassel_split, chivetassel_show_day, chivetassel_day_sums,
             chivetassel_clear, chivetassel_submit, chivetassel_sign, chivetassel_release, chivetassel_drop, chivetassel_state},
  reference = {reference_verdict, reference_supply, reference_dates, reference_split, reference_show_day, reference_day_sums,
               reference_clear, reference_submit, reference_sign, reference_release, reference_drop, reference_state};

static uint8_t plan[DRAFT_BYTES], fixed[DRAFT_BYTES], need[DRAFT_BYTES], room[DRAFT_BYTES], out[40], reg[64 * 16896], pauses[32 * 8];
static size_t plan_len, fixed_len, need_len, reg_len;
static uint32_t revision, start, most_days;

/* ---- plans */

static struct draft draft;

static struct draft_period *add(uint32_t first, uint32_t last, uint32_t interval) {
    struct draft_period *period = &draft.period[draft.periods++];
    period->first = first, period->last = last, period->interval = interval, period->doses = 0;
    return period;
}

/* Doses over the days 1 to `days`, each at its own minute of its day. */
static void fill(struct draft_period *period, uint32_t doses, uint32_t days, uint32_t mark) {
    for (uint32_t i = 0; i < doses; i++) {
        uint32_t day = 1 + i * days / doses;
        period->dose[i] = (struct draft_dose){.day = day, .kind = 5, .mark = mark, .minute = 400 + i % 99, .low = 100, .high = i % 3 ? 0 : 150};
    }
    period->doses = doses;
}

static void begin_plan(uint32_t number) {
    draft.periods = 0;
    draft.unit = 7, draft.start = 0, draft.end = DAY_OPEN, draft.number = number, draft.revision = 1, draft.vka = 0;
    start = 8000, most_days = 10;
}

/* Three weeks of four doses a day, an empty week, an as-needed dose over it all, then open. */
static void usual_plan(uint32_t number) {
    begin_plan(number);
    fill(add(8000, 8020, 1), 4, 1, 0);
    fill(add(8000, 8027, 1), 1, 1, 1);
    add(8021, 8027, 0);
    fill(add(8028, DAY_OPEN, 7), 14, 7, 0);
    plan_len = write_draft(&draft, plan);
}

static void periods_of_20(uint32_t number, uint32_t periods) {
    begin_plan(number);
    for (uint32_t i = 0; i < periods; i++)
        fill(add(8000 + 7 * i, 8006 + 7 * i, 7), 20, 7, 0);
    plan_len = write_draft(&draft, plan);
}

/* One open period of up to 31 blocks, in rounds of some days. */
static void one_period(uint32_t number, uint32_t doses, uint32_t days) {
    begin_plan(number);
    fill(add(8000, DAY_OPEN, days), doses, days, 0);
    plan_len = write_draft(&draft, plan);
}

static void short_plan(uint32_t number) {
    begin_plan(number);
    fill(add(8000, DAY_OPEN, 1), 3, 1, 0);
    plan_len = write_draft(&draft, plan);
}

/* 30 as-needed days, every other day, in one empty period: the longest need part. */
static void thirty_days(uint32_t number) {
    begin_plan(number);
    add(8000, 8058, 0);
    for (uint32_t i = 0; i < 30; i++)
        fill(add(8000 + 2 * i, 8000 + 2 * i, 1), 1, 1, 1);
    plan_len = write_draft(&draft, plan);
}

/* ---- what is measured */

static void must_be_done(uint32_t answer, const char *what) {
    if (answer != CHIVETASSEL_DONE) {
        printf("%s was refused with %u\n", what, answer & 255);
        exit(1);
    }
}

static void verdict(const struct calls *c) { must_be_done(c->verdict(plan, plan_len), "verdict"); }
static void split(const struct calls *c) { must_be_done(c->split(plan, plan_len, fixed, sizeof fixed, need, sizeof need, out, 16), "split"); }
static void show_day(const struct calls *c) { must_be_done(c->show_day(fixed, fixed_len, need, need_len, 1, start + most_days, out, 16), "show_day"); }
static void show_need(const struct calls *c) { must_be_done(c->show_day(fixed, fixed_len, need, need_len, 2, 8058, out, 16), "show_day"); }
static void day_sums(const struct calls *c) { must_be_done(c->day_sums(plan, plan_len, start + most_days, out, 32), "day_sums"); }
static void supply_month(const struct calls *c) { must_be_done(c->supply(plan, plan_len, start, 40 * 400, 1, NULL, 0, out, 32), "supply"); }
static void supply_all(const struct calls *c) { must_be_done(c->supply(plan, plan_len, 0, 1000000000000u, 2, NULL, 0, out, 32), "supply"); }
static void supply_paused(const struct calls *c) { must_be_done(c->supply(plan, plan_len, 0, 1000000000000u, 2, pauses, sizeof pauses, out, 32), "supply"); }
static void supply_rounds(const struct calls *c) { must_be_done(c->supply(plan, plan_len, start, 1000000000000u, 2, NULL, 0, out, 32), "supply"); }
static void supply_rounds_paused(const struct calls *c) { must_be_done(c->supply(plan, plan_len, start, 1000000000000u, 2, pauses, sizeof pauses, out, 32), "supply"); }
static void dates_month(const struct calls *c) { must_be_done(c->dates(plan, plan_len, start, 40 * 400, NULL, 0, out, 40), "dates"); }
static void dates_all(const struct calls *c) { must_be_done(c->dates(plan, plan_len, 0, 1000000000000u, NULL, 0, out, 40), "dates"); }

static void clear(const struct calls *c) { must_be_done(c->clear(reg, reg_len), "clear"); }
static void state(const struct calls *c) { must_be_done(c->state(reg, reg_len, 0, out, 16), "state"); }
static void release(const struct calls *c) { must_be_done(c->release(reg, reg_len, 0, room, sizeof room, out, 8), "release"); }

static void submit_newer(const struct calls *c) {
    put_bytes(plan + 16, 4, ++revision);
    put_sums(plan);
    must_be_done(c->submit(reg, reg_len, plan, plan_len), "submit");
}

/* A third signature: refused, after all that a signature asks. */
static void sign_third(const struct calls *c) {
    if (CHIVETASSEL_NUMBER(c->sign(reg, reg_len, 3, plan, plan_len)) != CHIVETASSEL_TWO_SIGNERS)
        must_be_done(0, "sign");
}

static void drop_and_submit(const struct calls *c) {
    must_be_done(c->drop(reg, reg_len, 0), "drop");
    must_be_done(c->submit(reg, reg_len, plan, plan_len), "submit");
}

/* ---- measuring */

static double now(void) {
    struct timespec t;
    clock_gettime(CLOCK_MONOTONIC, &t);
    return 1e9 * (double)t.tv_sec + (double)t.tv_nsec;
}

/* Nanoseconds a call: the best of three turns of at least 20 ms. */
static double measure(void (*task)(const struct calls *), const struct calls *calls) {
    double best = 0;
    for (int turn = 0; turn < 3; turn++) {
        double from = now(), took = 0;
        unsigned times = 0;
        while (took < 2e7) {
            task(calls);
            times++;
            took = now() - from;
        }
        if (turn == 0 || took / times < best)
            best = took / times;
    }
    return best;
}

static void bench(const char *name, void (*task)(const struct calls *)) {
    double a = measure(task, &library), b = measure(task, &reference);
    printf("%-44s %12.0f %12.0f %8.2f\n", name, a, b, b / a);
    fflush(stdout);
}

static void split_now(void) {
    split(&library);
    fixed_len = (size_t)get_bytes(out, 8);
    need_len = (size_t)get_bytes(out + 8, 8);
}

static void bench_plan(const char *name) {
    char line[96];
    static const struct { const char *name; void (*task)(const struct calls *); } tasks[] = {
        {"verdict", verdict}, {"split", split}, {"show_day", show_day}, {"day_sums", day_sums},
        {"supply, some days", supply_month}, {"supply, all days", supply_all}, {"supply, 32 pauses", supply_paused},
        {"dates, some days", dates_month}, {"dates, all days", dates_all}};
    split_now();
    for (unsigned i = 0; i < 9; i++) {
        snprintf(line, sizeof line, "%s: %s", tasks[i].name, name);
        bench(line, tasks[i].task);
    }
}

/* A pack for all days from an open period's first to 2199. */
static void bench_rounds(const char *name, uint32_t doses, uint32_t days) {
    char line[96];
    one_period(1, doses, days);
    snprintf(line, sizeof line, "supply to 2199: %s", name);
    bench(line, supply_rounds);
    snprintf(line, sizeof line, "the same with 32 pauses: %s", name);
    bench(line, supply_rounds_paused);
}

/* A register with every slot taken; number 0 is signed by two, and its bytes are in `plan`. */
static void fill_register(uint32_t slots, void (*make)(uint32_t number)) {
    reg_len = slots * (size_t)CHIVETASSEL_SLOT;
    must_be_done(chivetassel_clear(reg, reg_len), "clear");
    for (uint32_t i = slots; i > 0; i--) {
        make(i - 1);
        must_be_done(chivetassel_submit(reg, reg_len, plan, plan_len), "submit");
    }
    must_be_done(chivetassel_sign(reg, reg_len, 1, plan, plan_len), "sign");
    must_be_done(chivetassel_sign(reg, reg_len, 2, plan, plan_len), "sign");
    revision = 1;
}

static void full_plan(uint32_t number) { periods_of_20(number, 31); }

static void bench_register(const char *name, void (*make)(uint32_t number)) {
    char line[96];
    static const struct { const char *name; void (*task)(const struct calls *); } tasks[] = {
        {"state", state}, {"release", release}, {"sign, refused with 37", sign_third}, {"submit, a newer revision", submit_newer},
        {"drop, then submit", drop_and_submit}, {"clear", clear}};
    fill_register(64, make);
    for (unsigned i = 0; i < 6; i++) {
        snprintf(line, sizeof line, "%s: %s", tasks[i].name, name);
        bench(line, tasks[i].task);
    }
}

/* 32 pauses of four days, 100 days apart. */
static void make_pauses(void) {
    for (unsigned i = 0; i < 32; i++) {
        put_bytes(pauses + 8 * i, 4, 9000 + 100 * i);
        put_bytes(pauses + 8 * i + 4, 4, 9003 + 100 * i);
    }
}

int main(void) {
    printf("%-44s %12s %12s %8s\n", "ns each", "library", "reference", "ratio");
    make_pauses();
    usual_plan(1);
    bench_plan("a usual plan");
    periods_of_20(1, 31);
    bench_plan("31 periods of 20 doses");
    one_period(1, 620, 7);
    bench_plan("one period of 620 doses");
    bench_rounds("1 dose daily", 1, 1);
    bench_rounds("28 in 7 days", 28, 7);
    bench_rounds("620 in 620 days", 620, 620);
    thirty_days(1);
    split_now();
    bench("split: the longest need part", split);
    bench("show_day: the longest need part", show_need);

    for (uint32_t blocks = 2; blocks <= 32; blocks *= 2) {
        char line[96];
        periods_of_20(1, blocks - 1);
        snprintf(line, sizeof line, "growth: verdict on %u blocks", blocks);
        bench(line, verdict);
    }
    for (uint32_t slots = 1; slots <= 64; slots *= 4) {
        char line[96];
        fill_register(slots, full_plan);
        snprintf(line, sizeof line, "growth: state of %u full slots", slots);
        bench(line, state);
    }
    bench_register("64 short plans", short_plan);
    bench_register("64 full plans", full_plan);
    return 0;
}
