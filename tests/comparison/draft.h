/* Plans before they are bytes: what the generator works on. */
#ifndef DRAFT_H
#define DRAFT_H

#include "random.h"

#include <stddef.h>
#include <stdint.h>

#define DAY_LAST 73048u
#define DAY_OPEN 4294967295u
#define AMOUNT_MOST 9999999999u

enum { DRAFT_PERIODS = 40, DRAFT_DOSES = 640, DRAFT_BLOCKS = 64, DRAFT_BYTES = DRAFT_BLOCKS * 512 };

struct draft_dose {
    uint32_t day, kind, mark, minute;
    uint64_t low, high;
};

struct draft_period {
    uint32_t interval, first, last;
    uint32_t doses;
    struct draft_dose dose[DRAFT_DOSES];
};

struct draft {
    uint32_t unit, start, end, number, revision, vka;
    uint32_t periods;
    struct draft_period period[DRAFT_PERIODS];
};

/* A plan that breaks no rule, of any kind; `size` 0 is small, 2 up to 32 blocks. */
void make_valid(struct random *r, struct draft *draft, uint32_t size);

/* One that breaks no rule and has iterated periods. */
void make_rounds(struct random *r, struct draft *draft);

/* Changes a draft around one of the rules 5 to 17, often to just this side or just the other of its edge. */
void bend(struct random *r, struct draft *draft, uint32_t rule);

/* Changes bytes around rules 1 to 4. */
void bend_form(struct random *r, uint8_t *bytes, size_t *length, uint32_t rule);

/* A few bytes changed anywhere, with sums made right again or not. */
void damage(struct random *r, uint8_t *bytes, size_t length);

size_t write_draft(const struct draft *draft, uint8_t *bytes);
uint32_t blocks_of(const struct draft_period *period);
uint32_t blocks_in(const struct draft *draft);
void put_bytes(uint8_t *at, uint32_t bytes, uint64_t number);
uint64_t get_bytes(const uint8_t *at, uint32_t bytes);
void put_sums(uint8_t *block);

/* A plan of any kind, broken or not: the bytes go to `bytes`, DRAFT_BYTES of them at most. */
size_t make_plan(struct random *r, uint8_t *bytes);

/* A plan that breaks no rule. */
size_t make_accepted(struct random *r, uint8_t *bytes, uint32_t size);

#endif
