#include "commands.h"

#include "chivetassel_text.h"
#include "register.h"
#include "words.h"

#include <stdio.h>

uint8_t plan[CHIVETASSEL_PLAN_ROOM + 1], room[CHIVETASSEL_PLAN_ROOM];
size_t plan_len, room_len;
uint64_t typed[WORDS_MOST];

static uint8_t supplied[CHIVETASSEL_SUPPLY_OUT], dated[CHIVETASSEL_DATES_OUT], held[CHIVETASSEL_STATE_OUT];

uint64_t a_plan(const char *name) {
    (void)name;
    return 0;
}

uint64_t an_out(const char *name) {
    (void)name;
    return 0;
}

static uint32_t ask_verdict(void) {
    return chivetassel_verdict(plan, plan_len);
}

static void tell_verdict(void) {
    printf("accepted: plan %u, revision %u; no rule is broken\n", word_at(plan, 12), word_at(plan, 16));
}

static uint32_t ask_supply(void) {
    return chivetassel_supply(plan, plan_len, (uint32_t)typed[1], typed[2], (uint32_t)typed[3], NULL, 0, supplied, sizeof supplied);
}

static void tell_supply(void) {
    char first[WORD_ROOM], last[WORD_ROOM], rest[WORD_ROOM];
    unsigned days = (unsigned)long_at(supplied, 0);
    day_in(first, typed[1]);
    day_in(last, long_at(supplied, 1));
    amount_in(rest, long_at(supplied, 2));
    if (days == 0)
        printf("lasts for no day from %s on", first);
    else
        printf("lasts %u day%s, from %s to %s", days, days == 1 ? "" : "s", first, last);
    printf("; %s is left; %s\n", rest, chivetassel_reason_text(long_at(supplied, 3)));
}

static uint32_t ask_dates(void) {
    return chivetassel_dates(plan, plan_len, (uint32_t)typed[1], typed[2], NULL, 0, dated, sizeof dated);
}

/* A date of the set, with the doses that it is of; one that is absent is not passed over, and has words of its own. */
static void tell_date(const char *doses, uint64_t date, const char *absent) {
    char last[WORD_ROOM];
    if (date == CHIVETASSEL_OPEN)
        printf("%s: %s\n", doses, absent);
    else
        printf("%s: to %s\n", doses, day_in(last, date));
}

/* Where there is a minimum date and no maximum, or a date of the as-needed doses and none of both kinds, it is the pack that is
   too small. Where neither is there, the set does not say why; supply would, by its refusal. */
static void tell_dates(void) {
    static const char no_date[] = "no date (no such dose from then on, or the first day needs more)", no_day[] = "not for one day";
    uint64_t end = long_at(dated, 0), minimum = long_at(dated, 1), maximum = long_at(dated, 2);
    uint64_t both = long_at(dated, 3), as_needed = long_at(dated, 4);
    char first[WORD_ROOM], amount[WORD_ROOM];
    printf("%s from %s on lasts:\n", amount_in(amount, typed[2]), day_in(first, typed[1]));
    if (minimum == CHIVETASSEL_OPEN) {
        tell_date("fixed doses", end, no_date);
    } else {
        tell_date("fixed doses, if the least is taken", minimum, no_date);
        tell_date("fixed doses, if the most is taken", maximum, no_day);
    }
    if (as_needed == CHIVETASSEL_OPEN) {
        tell_date("as-needed doses", as_needed, no_date);
    } else {
        tell_date("fixed and as-needed doses, if the most is taken", both, no_day);
        tell_date("as-needed doses alone, if the most is taken", as_needed, no_date);
    }
}

static uint32_t ask_new(void) {
    reg_len = (size_t)typed[0] * CHIVETASSEL_SLOT;
    return chivetassel_clear(reg, reg_len);
}

static uint32_t ask_clear(void) {
    return chivetassel_clear(reg, reg_len);
}

static void tell_clear(void) {
    unsigned slots = (unsigned)(reg_len / CHIVETASSEL_SLOT);
    printf("the register is empty, with room for %u plan%s\n", slots, slots == 1 ? "" : "s");
}

static uint32_t ask_submit(void) {
    return chivetassel_submit(reg, reg_len, plan, plan_len);
}

static uint32_t ask_sign(void) {
    return chivetassel_sign(reg, reg_len, (uint32_t)typed[0], plan, plan_len);
}

static uint32_t ask_state(void) {
    return chivetassel_state(reg, reg_len, (uint32_t)typed[0], held, sizeof held);
}

static void tell_held(const char *what, uint32_t number) {
    printf("%splan %u, revision %u, signed by %u of 2\n", what, number, (unsigned)long_at(held, 0), (unsigned)long_at(held, 1));
}

static void tell_state(void) {
    tell_held("", (uint32_t)typed[0]);
}

/* What was taken in or signed, as the register has it now. */
static void tell_plan(const char *what) {
    uint32_t number = word_at(plan, 12);
    if (CHIVETASSEL_IS_DONE(chivetassel_state(reg, reg_len, number, held, sizeof held)))
        tell_held(what, number);
}

static void tell_submit(void) {
    tell_plan("taken in: ");
}

static void tell_sign(void) {
    tell_plan("signed: ");
}

static uint32_t ask_release(void) {
    uint8_t length[CHIVETASSEL_RELEASE_OUT];
    uint32_t answer = chivetassel_release(reg, reg_len, (uint32_t)typed[0], room, sizeof room, length, sizeof length);
    if (CHIVETASSEL_IS_DONE(answer))
        room_len = (size_t)long_at(length, 0);
    return answer;
}

static void tell_release(void) {
    printf("released: plan %u, revision %u, %u bytes\n", word_at(room, 12), word_at(room, 16), (unsigned)room_len);
}

static uint32_t ask_drop(void) {
    return chivetassel_drop(reg, reg_len, (uint32_t)typed[0]);
}

static void tell_drop(void) {
    printf("dropped: plan %u\n", (unsigned)typed[0]);
}

const struct command commands[] = {
    {"new", "SLOTS: begins a register with room for so many plans", BEGINS, {slots_of}, ask_new, tell_clear},
    {"verdict", "PLAN: judges a plan", NOTHING, {a_plan}, ask_verdict, tell_verdict},
    {"supply", "PLAN START PACK CHOICE: how far a pack lasts, as 2017-12-04 500.00 low (or upper, both, needed)", NOTHING,
     {a_plan, day_of, amount_of, choice_of}, ask_supply, tell_supply},
    {"dates", "PLAN START PACK: up to which days a pack lasts, for fixed and for as-needed doses, as 2017-12-04 500.00", NOTHING,
     {a_plan, day_of, amount_of}, ask_dates, tell_dates},
    {"submit", "PLAN: takes a plan in", CHANGES, {a_plan}, ask_submit, tell_submit},
    {"sign", "SIGNER PLAN: signs the plan as seen, with a pharmacist's number", CHANGES, {signer_of, a_plan}, ask_sign, tell_sign},
    {"state", "NUMBER: which revision of a plan is held, and how many have signed it", READS, {number_of}, ask_state, tell_state},
    {"release", "NUMBER OUT: writes the plan that two have signed into a file", READS, {number_of, an_out}, ask_release, tell_release},
    {"drop", "NUMBER: takes a plan out", CHANGES, {number_of}, ask_drop, tell_drop},
    {"clear", ": takes all plans out", CHANGES, {NULL}, ask_clear, tell_clear},
    {NULL, NULL, NOTHING, {NULL}, NULL, NULL},
};
