/* Histories of calls on a register: submissions, revisions, signatures, releases, drops; among them calls that are refused,
   registers damaged and repaired, and buffers that are too short. */
#include "ask.h"
#include "draft.h"

#include <string.h>

enum { NUMBERS = 70 };

/* The latest plan offered under each number. */
static struct {
    uint8_t bytes[DRAFT_BYTES];
    size_t length;
    uint32_t revision;
} offered[NUMBERS];

static uint32_t numbers;    /* plan numbers in use, 0 to numbers - 1 */
static uint32_t plan_sizes; /* how large the plans of this history are */
static size_t register_length;

static struct input begin_call(struct random *r, enum call call, size_t out_len) {
    struct input in = begin_input(r, call, out_len);
    in.reg_len = register_length;
    return in;
}

static void set_head(uint8_t *plan, uint32_t number, uint32_t revision) {
    put_bytes(plan + 12, 4, number);
    put_bytes(plan + 16, 4, revision);
    put_sums(plan);
}

static void ask_clear(struct random *r) {
    struct input in = begin_call(r, CLEAR, 8);
    call_both(&in);
}

static void ask_submit(struct random *r, uint32_t number, bool newer) {
    static uint8_t plan[DRAFT_BYTES];
    size_t length = once_in(r, 12) ? make_plan(r, plan) : make_accepted(r, plan, once_in(r, 10) ? 2 : plan_sizes);
    uint32_t revision = offered[number].revision + (newer ? between(r, 1, 2) : below(r, 2));
    if (once_in(r, 50))
        revision = once_in(r, 2) ? 0 : 4294967295u;
    if (length >= 512 && plan[0] == 1 && !once_in(r, 20))
        set_head(plan, number, revision);
    struct input in = begin_call(r, SUBMIT, 8);
    in.plan = plan;
    in.plan_len = length;
    if (call_both(&in) == 65280 && get_bytes(plan + 12, 4) == number) {
        memcpy(offered[number].bytes, plan, length);
        offered[number].length = length;
        offered[number].revision = (uint32_t)get_bytes(plan + 16, 4);
    }
}

/* The plan as offered, or nearly: another unit, an older revision, a block less or more. */
static void ask_sign(struct random *r, uint32_t number) {
    static uint8_t plan[DRAFT_BYTES];
    size_t length = offered[number].length;
    memcpy(plan, offered[number].bytes, length);
    if (length > 0 && once_in(r, 6))
        switch (below(r, 4)) {
        case 0: plan[2 + below(r, 2)] ^= (uint8_t)(1 << below(r, 8)); put_sums(plan); break;
        case 1: set_head(plan, number, offered[number].revision - 1); break;
        case 2: damage(r, plan, length); break;
        default: bend_form(r, plan, &length, between(r, 1, 4));
        }
    struct input in = begin_call(r, SIGN, 8);
    in.plan = plan;
    in.plan_len = length;
    in.signer = once_in(r, 20) ? 0 : once_in(r, 20) ? (uint32_t)random_64(r) : between(r, 1, 3);
    call_both(&in);
}

static void ask_release(struct random *r, uint32_t number) {
    struct input in = begin_call(r, RELEASE, 8);
    in.number = number;
    in.fixed_len = once_in(r, 12) ? (once_in(r, 2) ? 16383 : 0) : once_in(r, 2) ? 16384 : 20000;
    call_both(&in);
}

static void ask_of_number(struct random *r, enum call call, uint32_t number) {
    struct input in = begin_call(r, call, 16);
    in.number = once_in(r, 30) ? (uint32_t)random_64(r) : number;
    call_both(&in);
}

static void ask_any(struct random *r) {
    uint32_t number = below(r, numbers);
    switch (below(r, 40)) {
    case 0: ask_clear(r); break;
    case 1: case 2: ask_of_number(r, DROP, number); break;
    case 3: case 4: case 5: case 6: ask_of_number(r, STATE, number); break;
    case 7: case 8: case 9: case 10: case 11: case 12: case 13: ask_release(r, number); break;
    case 14: case 15: case 16: case 17: case 18: case 19: case 20: case 21: case 22: case 23: case 24:
        ask_submit(r, number, !once_in(r, 3));
        break;
    default:
        if (offered[number].length > 0 || once_in(r, 8))
            ask_sign(r, number);
        else
            ask_submit(r, number, true);
    }
}

/* Two signatures of one plan and its release, with a revision or a drop in between now and then. */
static void ask_round(struct random *r) {
    uint32_t number = below(r, numbers);
    ask_submit(r, number, true);
    ask_sign(r, number);
    if (once_in(r, 4))
        ask_submit(r, number, true);
    if (once_in(r, 10))
        ask_of_number(r, DROP, number);
    ask_sign(r, number);
    ask_sign(r, number);
    ask_release(r, number);
    ask_of_number(r, STATE, number);
}

/* Changes a slot in a way that soundness has to see, or just may not mind. */
static void damage_slot(struct random *r, uint8_t *slot, const uint8_t *other) {
    static const uint8_t kinds[] = {0, 1, 2, 3, 5, 255};
    switch (below(r, 11)) {
    case 0: slot[0] = kinds[below(r, 6)]; break;
    case 1: slot[1] = (uint8_t)(once_in(r, 2) ? 33 : below(r, 34)); break;
    case 2: slot[2 + below(r, 2)] = 1; break;
    case 3: put_bytes(slot + 8, 4, get_bytes(slot + 4, 4)); break;   /* second equal to first */
    case 4: put_bytes(slot + 4, 4, 0); put_bytes(slot + 8, 4, 9); break; /* second alone */
    case 5: put_bytes(slot + 4, 4, 8); put_bytes(slot + 8, 4, below(r, 2) * 9); break; /* right, where a plan is held */
    case 6: slot[once_in(r, 2) ? 12 : 503] = 1; break;
    case 7: slot[SLOT_BYTES - 1 - (once_in(r, 2) ? 0 : below(r, 16384))] ^= 1; break; /* the room */
    case 8: memcpy(slot, other, SLOT_BYTES); break; /* two of one number */
    case 9: damage(r, slot + 512, 16384); break;
    default: slot[504 + below(r, 8)] ^= 1; return; /* sums of the control block */
    }
    put_sums(slot);
}

static void ask_damaged(struct random *r, uint32_t slots) {
    static uint8_t before[SLOT_BYTES], after[SLOT_BYTES];
    size_t at = below(r, slots) * (size_t)SLOT_BYTES;
    memcpy(before, register_now() + at, SLOT_BYTES);
    memcpy(after, before, SLOT_BYTES);
    damage_slot(r, after, register_now() + below(r, slots) * (size_t)SLOT_BYTES);
    put_register(at, after, SLOT_BYTES);
    ask_any(r);
    if (memcmp(register_now() + at, after, SLOT_BYTES) == 0)
        put_register(at, before, SLOT_BYTES);
    else if (once_in(r, 2))
        ask_clear(r);
}

static void begin_register(struct random *r, uint32_t slots) {
    static uint8_t noise[REGISTER_SIZE];
    memset(noise, (int)below(r, 256), sizeof noise);
    put_register(0, noise, (slots + 2) * (size_t)SLOT_BYTES < REGISTER_SIZE ? (slots + 2) * (size_t)SLOT_BYTES : REGISTER_SIZE);
    register_length = slots * (size_t)SLOT_BYTES + (once_in(r, 2) ? 0 : once_in(r, 2) ? SLOT_BYTES - 1 : below(r, SLOT_BYTES));
    memset(offered, 0, sizeof offered[0] * NUMBERS);
}

/* Too short for a slot: nothing but 30, also of clear. */
static void ask_no_slot(struct random *r) {
    begin_register(r, 0);
    numbers = 2;
    ask_clear(r);
    ask_any(r);
}

/* What lies behind slot 64 is no slot, even where it looks like a free one, or like one that holds a plan. */
static void look_like_a_slot(struct random *r) {
    static uint8_t slot[SLOT_BYTES];
    memcpy(slot, register_now(), SLOT_BYTES);
    if (slot[1] > 0)
        set_head(slot + 512, once_in(r, 2) ? 1 : 65, 1);
    put_register(64 * (size_t)SLOT_BYTES, slot, SLOT_BYTES);
}

/* As long as a register can be, and longer, but hardly used. */
static void ask_long(struct random *r) {
    uint32_t slots = between(r, 64, 65);
    begin_register(r, slots);
    numbers = 2;
    plan_sizes = 0;
    ask_clear(r);
    ask_submit(r, 0, true);
    if (slots == 65)
        look_like_a_slot(r);
    ask_of_number(r, STATE, 1);
    ask_damaged(r, 64);
}

/* All 64 slots taken, then some calls; with a buffer longer than 64 slots now and then. */
static void ask_full(struct random *r) {
    uint32_t slots = between(r, 64, 65);
    begin_register(r, slots);
    numbers = 66;
    plan_sizes = 0;
    ask_clear(r);
    if (slots == 65 && once_in(r, 2)) /* free */
        look_like_a_slot(r);
    for (uint32_t i = 0; i < 66; i++)
        ask_submit(r, i, true);
    if (slots == 65 && once_in(r, 2)) /* held */
        look_like_a_slot(r);
    ask_of_number(r, STATE, 65);
    ask_submit(r, 65, true);
    for (uint32_t i = 0; i < 3; i++)
        ask_round(r);
    ask_damaged(r, 64);
}

void ask_of_register(struct random *r) {
    if (once_in(r, 40)) {
        ask_no_slot(r);
        return;
    }
    if (once_in(r, 10)) {
        ask_long(r);
        return;
    }
    if (once_in(r, 100)) {
        ask_full(r);
        return;
    }
    uint32_t slots = between(r, 1, 4);
    begin_register(r, slots);
    numbers = slots + below(r, 3);
    plan_sizes = once_in(r, 4) ? 1 : 0;
    if (!once_in(r, 20))
        ask_clear(r);
    for (uint32_t steps = between(r, 4, 16); steps > 0; steps--)
        if (once_in(r, 4))
            ask_damaged(r, slots);
        else if (once_in(r, 3))
            ask_round(r);
        else
            ask_any(r);
}
