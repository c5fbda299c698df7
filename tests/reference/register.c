/* The approval register. */
#include "plan.h"
#include "reference.h"

#include <string.h>

#define SLOT 16896u

enum { MOST_SLOTS = 64 };

/* "Slots = length div 16,896, at most 64; bytes behind are never touched." */
static uint32_t slots_of(size_t length) {
    return length / SLOT > MOST_SLOTS ? MOST_SLOTS : (uint32_t)(length / SLOT);
}

/* "Control: byte 0 = 4; byte 1 = the plan's blocks, 0 = free; 4-7 first signer, 8-11 second, 0 = none." */
static size_t bytes_held(const uint8_t *slot) { return slot[1] * BLOCK; }
static uint32_t first_signer(const uint8_t *slot) { return (uint32_t)number_at(slot + 4, 4); }
static uint32_t second_signer(const uint8_t *slot) { return (uint32_t)number_at(slot + 8, 4); }
static const uint8_t *plan_of(const uint8_t *slot) { return slot + BLOCK; }
static uint32_t number_of(const uint8_t *plan) { return (uint32_t)number_at(plan + 12, 4); }
static uint32_t revision_of(const uint8_t *plan) { return (uint32_t)number_at(plan + 16, 4); }

/* "every control block is right in form and sums" */
static bool control_right(const uint8_t *slot) {
    return slot[0] == 4 && slot[1] <= 32 && all_zero(slot + 2, 2) && all_zero(slot + 12, 504 - 12) && sums_right(slot);
}

/* "second signer stands only beside a different first" */
static bool signers_right(const uint8_t *slot) {
    return second_signer(slot) == 0 || (first_signer(slot) != 0 && first_signer(slot) != second_signer(slot));
}

/* "a free slot has no signers and zero room, each held plan is accepted with zero room behind it" */
static bool room_right(const uint8_t *slot) {
    if (!all_zero(plan_of(slot) + bytes_held(slot), PLAN_BYTES - bytes_held(slot)))
        return false;
    if (slot[1] == 0)
        return first_signer(slot) == 0 && second_signer(slot) == 0;
    return reference_verdict(plan_of(slot), bytes_held(slot)) == DONE;
}

static bool sound(const uint8_t *reg, size_t length) {
    uint32_t slots = slots_of(length);
    for (uint32_t i = 0; i < slots; i++) {
        const uint8_t *slot = reg + i * SLOT;
        if (!control_right(slot) || !signers_right(slot) || !room_right(slot))
            return false;
    }
    /* "no two share a number" */
    for (uint32_t i = 0; i < slots; i++)
        for (uint32_t j = 0; j < i; j++) {
            const uint8_t *a = reg + i * SLOT, *b = reg + j * SLOT;
            if (a[1] != 0 && b[1] != 0 && number_of(plan_of(a)) == number_of(plan_of(b)))
                return false;
        }
    return slots > 0;
}

/* The slot that holds a number, or -1. */
static int held_at(const uint8_t *reg, size_t length, uint32_t number) {
    for (uint32_t i = 0; i < slots_of(length); i++) {
        const uint8_t *slot = reg + i * SLOT;
        if (slot[1] != 0 && number_of(plan_of(slot)) == number)
            return (int)i;
    }
    return -1;
}

static int lowest_free(const uint8_t *reg, size_t length) {
    for (uint32_t i = 0; i < slots_of(length); i++)
        if (reg[i * SLOT + 1] == 0)
            return (int)i;
    return -1;
}

static void write_control(uint8_t *slot, uint32_t blocks, uint32_t first, uint32_t second) {
    memset(slot, 0, BLOCK);
    slot[0] = 4;
    slot[1] = (uint8_t)blocks;
    put_number(slot + 4, 4, first);
    put_number(slot + 8, 4, second);
    seal(slot);
}

static void free_slot(uint8_t *slot) {
    memset(slot, 0, SLOT);
    write_control(slot, 0, 0, 0);
}

/* "Clear: frees every slot; only 30 if shorter than one slot." */
uint32_t reference_clear(uint8_t *reg, size_t reg_len) {
    if (slots_of(reg_len) == 0)
        return refused(30);
    for (uint32_t i = 0; i < slots_of(reg_len); i++)
        free_slot(reg + i * SLOT);
    return DONE;
}

/* "Submit: new number, lowest free slot, no signers; held number, same slot, replaced and signers wiped." 30, 1-17, 32, 31 */
uint32_t reference_submit(uint8_t *reg, size_t reg_len, const uint8_t *plan, size_t plan_len) {
    if (!sound(reg, reg_len))
        return refused(30);
    uint32_t verdict = reference_verdict(plan, plan_len);
    if (verdict != DONE)
        return verdict;
    int at = held_at(reg, reg_len, number_of(plan));
    if (at >= 0 && revision_of(plan) <= revision_of(plan_of(reg + (size_t)at * SLOT)))
        return refused(32);
    if (at < 0)
        at = lowest_free(reg, reg_len);
    if (at < 0)
        return refused(31);
    uint8_t *slot = reg + (size_t)at * SLOT;
    memset(slot + BLOCK, 0, PLAN_BYTES);
    memcpy(slot + BLOCK, plan, plan_len);
    write_control(slot, (uint32_t)(plan_len / BLOCK), 0, 0);
    return DONE;
}

/* "Sign: signer and the whole plan as seen." 30, 35, 1-17, 33, 34, 37, 36 */
uint32_t reference_sign(uint8_t *reg, size_t reg_len, uint32_t signer, const uint8_t *plan, size_t plan_len) {
    if (!sound(reg, reg_len))
        return refused(30);
    if (signer == 0)
        return refused(35);
    uint32_t verdict = reference_verdict(plan, plan_len);
    if (verdict != DONE)
        return verdict;
    int at = held_at(reg, reg_len, number_of(plan));
    if (at < 0)
        return refused(33);
    uint8_t *slot = reg + (size_t)at * SLOT;
    if (bytes_held(slot) != plan_len || memcmp(plan_of(slot), plan, plan_len) != 0)
        return refused(34);
    if (second_signer(slot) != 0)
        return refused(37);
    if (first_signer(slot) == signer)
        return refused(36);
    if (first_signer(slot) == 0)
        write_control(slot, slot[1], signer, 0);
    else
        write_control(slot, slot[1], first_signer(slot), signer);
    return DONE;
}

/* "Release: the plan into an output buffer and its length; bytes behind untouched; the slot stays." 30, 39, 33, 38 */
uint32_t reference_release(const uint8_t *reg, size_t reg_len, uint32_t number, uint8_t *room, size_t room_len,
                           uint8_t *out, size_t out_len) {
    if (out_len < 8)
        return refused(26);
    if (!sound(reg, reg_len))
        return refused(30);
    if (room_len < PLAN_BYTES)
        return refused(39);
    int at = held_at(reg, reg_len, number);
    if (at < 0)
        return refused(33);
    const uint8_t *slot = reg + (size_t)at * SLOT;
    if (second_signer(slot) == 0)
        return refused(38);
    memcpy(room, plan_of(slot), bytes_held(slot));
    put_number(out, 8, bytes_held(slot));
    return DONE;
}

/* "Drop: frees the slot." 30, 33 */
uint32_t reference_drop(uint8_t *reg, size_t reg_len, uint32_t number) {
    if (!sound(reg, reg_len))
        return refused(30);
    int at = held_at(reg, reg_len, number);
    if (at < 0)
        return refused(33);
    free_slot(reg + (size_t)at * SLOT);
    return DONE;
}

/* "State: revision and count of signers." 30, 33 */
uint32_t reference_state(const uint8_t *reg, size_t reg_len, uint32_t number, uint8_t *out, size_t out_len) {
    if (out_len < 16)
        return refused(26);
    if (!sound(reg, reg_len))
        return refused(30);
    int at = held_at(reg, reg_len, number);
    if (at < 0)
        return refused(33);
    const uint8_t *slot = reg + (size_t)at * SLOT;
    put_number(out, 8, revision_of(plan_of(slot)));
    put_number(out + 8, 8, (first_signer(slot) != 0) + (second_signer(slot) != 0));
    return DONE;
}
