/* A plan, read from its bytes: what the files of the reference share. */
#ifndef PLAN_H
#define PLAN_H

#include <stdbool.h>
#include <stddef.h>
#include <stdint.h>

#define BLOCK 512u
#define LAST_DAY 73048u
#define OPEN 4294967295u
#define PLAN_BYTES 16384u /* a head and up to 31 further blocks */
#define PART_BYTES 32768u

enum { MOST_PERIODS = 63, MOST_DOSES = 63 * 20 };

struct dose {
    const uint8_t *record; /* its 24 bytes */
    uint32_t day, kind, mark, minute;
    uint64_t low, high;
};

struct period {
    uint32_t block, blocks; /* its first block and how many it has */
    uint32_t interval, first, last;
    const struct dose *dose;
    uint32_t doses;
};

struct plan {
    uint32_t start, end, number, revision;
    bool vka;
    uint32_t periods;
    struct period period[MOST_PERIODS];
    struct dose dose[MOST_DOSES];
};

/* "fixed (none marked), need (all marked) or mixed (both); one without is empty" */
enum class { EMPTY, FIXED, NEED, MIXED };

struct answer {
    uint32_t number, place;
};

uint64_t number_at(const uint8_t *at, uint32_t bytes);
void put_number(uint8_t *at, uint32_t bytes, uint64_t number);
bool all_zero(const uint8_t *at, size_t bytes);
bool sums_right(const uint8_t *block);
void seal(uint8_t *block);

/* Reads bytes that break none of rules 1 to 4. */
void read_plan(struct plan *plan, const uint8_t *bytes, size_t length);

enum class class_of(const struct period *period);
bool of_fixed(enum class class); /* "fixed and mixed" */
bool of_need(enum class class);  /* "need and mixed" */
uint32_t closed(uint32_t last); /* "An open last day counts as 73,048." */
bool covers(const struct period *period, uint32_t day);
uint64_t upper(const struct dose *dose);

/* Rules 1 to 4 with a limit on the length; number 0 where none is broken. */
struct answer judge_form(const uint8_t *bytes, size_t length, size_t limit);

/* The verdict, and the plan where it is accepted. */
struct answer judge(struct plan *plan, const uint8_t *bytes, size_t length);

/* "The office keeps a day's four sums, marked and unmarked by low and upper, as two rows of two." */
void sums_of_day(const struct plan *plan, uint32_t day, uint64_t sums[2][2]);

/* What a day needs by a choice, 1 to 4, pauses left out. */
uint64_t need_of_day(const struct plan *plan, uint32_t day, uint32_t choice);

/* "Both return the number plus 256 times the place"; "the rest carry 255". */
uint32_t code(struct answer answer);
uint32_t refused(uint32_t number);
#define DONE refused(0)

#endif
