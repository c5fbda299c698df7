/* What the screen can be asked. */
#ifndef COMMANDS_H
#define COMMANDS_H

#include "chivetassel.h"

enum { WORDS_MOST = 4 };

/* What the commands work on: the plan that was read, the plan that is released, and the numbers that were typed, each at the
   place of its word. */
extern uint8_t plan[CHIVETASSEL_PLAN_ROOM + 1], room[CHIVETASSEL_PLAN_ROOM];
extern size_t plan_len, room_len;
extern uint64_t typed[WORDS_MOST];

/* The two words that name files and are no numbers. */
uint64_t a_plan(const char *name);
uint64_t an_out(const char *name);

enum use { NOTHING, READS, CHANGES, BEGINS }; /* what a command does with the register */

struct command {
    const char *name, *usage;
    enum use use;
    uint64_t (*word[WORDS_MOST + 1])(const char *); /* what each word is; then NULL */
    uint32_t (*ask)(void);                          /* gives the library's answer */
    void (*tell)(void);                             /* says what was done, where nothing was refused */
};

/* Up to one without a name. */
extern const struct command commands[];

#endif
