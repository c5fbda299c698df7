#include "calls.h"

#include "../reference/reference.h"
#include "chivetassel.h"

#include <stdio.h>
#include <stdlib.h>
#include <string.h>

const char *const call_names[CALLS] = {"verdict", "supply", "dates", "split", "show_day", "day_sums", "clear", "submit", "sign", "release", "drop", "state"};
uint64_t answers[CALLS][64];

/* All that is lent on one side, with bytes behind each buffer that nobody may touch. */
struct side {
    uint8_t plan[PLAN_SIZE + 16], fixed[PART_SIZE + 16], need[PART_SIZE + 16], pauses[512], out[OUT_SIZE];
    uint8_t reg[REGISTER_SIZE];
};

static struct side library, reference;
static uint8_t register_before[REGISTER_SIZE];
static uint64_t seed_now, input_now;
static uint32_t shift_now;

#define ASK(prefix)                                                                                                            \
    static uint32_t ask_##prefix(struct side *s, const struct input *in) {                                                     \
        uint8_t *plan = in->plan ? s->plan + in->shift : NULL, *pauses = in->pauses ? s->pauses + in->shift : NULL;            \
        uint8_t *fixed = s->fixed + in->shift, *need = s->need + in->shift, *out = s->out + in->shift, *reg = s->reg;          \
        switch (in->call) {                                                                                                    \
        case VERDICT: return prefix##_verdict(plan, in->plan_len);                                                             \
        case SUPPLY:                                                                                                           \
            return prefix##_supply(plan, in->plan_len, in->start, in->pack, in->choice, pauses, in->pauses_len, out,           \
                                   in->out_len);                                                                               \
        case DATES:                                                                                                            \
            return prefix##_dates(plan, in->plan_len, in->start, in->pack, pauses, in->pauses_len, out, in->out_len);          \
        case SPLIT: return prefix##_split(plan, in->plan_len, fixed, in->fixed_len, need, in->need_len, out, in->out_len);     \
        case SHOW_DAY:                                                                                                         \
            return prefix##_show_day(fixed, in->fixed_len, need, in->need_len, in->list, in->day, out, in->out_len);           \
        case DAY_SUMS: return prefix##_day_sums(plan, in->plan_len, in->day, out, in->out_len);                                \
        case CLEAR: return prefix##_clear(reg, in->reg_len);                                                                   \
        case SUBMIT: return prefix##_submit(reg, in->reg_len, plan, in->plan_len);                                             \
        case SIGN: return prefix##_sign(reg, in->reg_len, in->signer, plan, in->plan_len);                                     \
        case RELEASE: return prefix##_release(reg, in->reg_len, in->number, fixed, in->fixed_len, out, in->out_len);           \
        case DROP: return prefix##_drop(reg, in->reg_len, in->number);                                                         \
        case STATE: return prefix##_state(reg, in->reg_len, in->number, out, in->out_len);                                     \
        default: exit(2);                                                                                                      \
        }                                                                                                                      \
    }
ASK(chivetassel)
ASK(reference)

static void lend(struct side *s, const struct input *in) {
    memset(s->out, in->pattern, OUT_SIZE);
    if (in->plan_len > 0)
        memcpy(s->plan + in->shift, in->plan, in->plan_len);
    if (in->pauses_len > 0)
        memcpy(s->pauses + in->shift, in->pauses, in->pauses_len);
    if (in->call == SPLIT || in->call == RELEASE || in->call == SHOW_DAY) {
        memset(s->fixed, in->pattern, sizeof s->fixed);
        memset(s->need, in->pattern, sizeof s->need);
    }
    if (in->call == SHOW_DAY) {
        memcpy(s->fixed + in->shift, in->fixed, in->fixed_len);
        memcpy(s->need + in->shift, in->need, in->need_len);
    }
}

static void keep(const char *ending, const uint8_t *bytes, size_t length) {
    char name[96];
    snprintf(name, sizeof name, "difference-%llu-%llu.%s", (unsigned long long)seed_now, (unsigned long long)input_now, ending);
    FILE *f = fopen(name, "wb");
    if (f == NULL || fwrite(bytes, 1, length, f) != length || fclose(f) != 0)
        printf("%s could not be written\n", name);
    else
        printf("%s: %llu bytes\n", name, (unsigned long long)length);
}

static void tell(const struct input *in, uint32_t a, uint32_t b) {
    printf("DIFFERENCE in %s, seed %llu, input %llu\n", call_names[in->call], (unsigned long long)seed_now, (unsigned long long)input_now);
    printf("library:   number %u, place %u\nreference: number %u, place %u\n", a & 255, a >> 8, b & 255, b >> 8);
    printf("plan_len %zu fixed_len %zu need_len %zu pauses_len %zu out_len %zu reg_len %zu\n", in->plan_len, in->fixed_len, in->need_len,
           in->pauses_len, in->out_len, in->reg_len);
    printf("start %u pack %llu choice %u list %u day %u signer %u number %u shift %u pattern %u\n", in->start, (unsigned long long)in->pack,
           in->choice, in->list, in->day, in->signer, in->number, in->shift, in->pattern);
    if (in->plan_len > 0)
        keep("plan", in->plan, in->plan_len);
    if (in->pauses_len > 0)
        keep("pauses", in->pauses, in->pauses_len);
    if (in->call == SHOW_DAY)
        keep("fixed", in->fixed, in->fixed_len), keep("need", in->need, in->need_len);
    if (in->call >= CLEAR)
        keep("register", register_before, in->reg_len);
}

static bool same(const char *name, const uint8_t *a, const uint8_t *b, size_t length) {
    if (memcmp(a, b, length) == 0)
        return true;
    size_t at = 0;
    while (a[at] == b[at])
        at++;
    printf("%s differs from byte %zu on: library %u, reference %u\n", name, at, a[at], b[at]);
    return false;
}

uint32_t call_both(const struct input *in) {
    bool parts = in->call == SPLIT || in->call == RELEASE || in->call == SHOW_DAY, of_register = in->call >= CLEAR;
    lend(&library, in);
    lend(&reference, in);
    if (of_register)
        memcpy(register_before, library.reg, in->reg_len);
    uint32_t a = ask_chivetassel(&library, in), b = ask_reference(&reference, in);
    bool alike = a == b && same("plan", library.plan, reference.plan, sizeof library.plan) &&
                 same("pauses", library.pauses, reference.pauses, sizeof library.pauses) &&
                 same("out", library.out, reference.out, OUT_SIZE);
    if (parts)
        alike = alike && same("fixed or room", library.fixed, reference.fixed, sizeof library.fixed) &&
                same("need", library.need, reference.need, sizeof library.need);
    if (of_register) /* and a slot's length behind it */
        alike = alike && same("register", library.reg, reference.reg, in->reg_len + SLOT_BYTES < REGISTER_SIZE ? in->reg_len + SLOT_BYTES : REGISTER_SIZE);
    if (!alike) {
        tell(in, a, b);
        exit(1);
    }
    answers[in->call][a & 63]++;
    shift_now = in->shift;
    return a;
}

const uint8_t *out_now(void) { return reference.out + shift_now; }
const uint8_t *fixed_now(void) { return reference.fixed + shift_now; }
const uint8_t *need_now(void) { return reference.need + shift_now; }
const uint8_t *register_now(void) { return reference.reg; }

void put_register(size_t at, const uint8_t *bytes, size_t length) {
    memcpy(library.reg + at, bytes, length);
    memcpy(reference.reg + at, bytes, length);
}

void name_input(uint64_t seed, uint64_t number) {
    seed_now = seed;
    input_now = number;
}
