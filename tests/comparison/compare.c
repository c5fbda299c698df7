/* Compares the library with the reference on inputs made from a seed.

       compare COUNT SEED      inputs 0 to COUNT - 1 of this seed
       compare =INPUT SEED     that input by itself
       compare walks           every small walk of supply, with no seed

   Ends with 1 at the first difference, which is told and kept in files of the current folder, and where an answer that
   documents 01 and 02 name, or one of the events below, never came up: a comparison that does not ask is worth nothing. */
#include "ask.h"
#include "chivetassel.h"
#include "draft.h"

#include <stdio.h>
#include <stdlib.h>
#include <string.h>

static void compare_input(uint64_t seed, uint64_t number) {
    static uint8_t plan[DRAFT_BYTES];
    struct random r = random_of(seed, number);
    name_input(seed, number);
    if (number % 16 == 0) {
        ask_of_register(&r);
        return;
    }
    if (number % 16 == 8) {
        ask_of_rounds(&r);
        return;
    }
    for (uint32_t i = 0; i < 6; i++)
        ask_verdict(&r, plan, make_plan(&r, plan));
    ask_of_plan(&r, plan, make_plan(&r, plan));
}

/* Every number that a call can answer with; the calls that take a plan give the verdict's too. */
static const unsigned wanted[CALLS][20] = {
    [VERDICT] = {1, 2, 3, 4, 5, 6, 7, 8, 9, 10, 11, 12, 13, 14, 15, 16, 17},
    [SUPPLY] = {20, 21, 22, 23, 24, 26},
    [DATES] = {20, 21, 22, 26},
    [SPLIT] = {25, 26},
    [SHOW_DAY] = {26},
    [DAY_SUMS] = {26},
    [CLEAR] = {30},
    [SUBMIT] = {30, 31, 32},
    [SIGN] = {30, 33, 34, 35, 36, 37},
    [RELEASE] = {26, 30, 33, 38, 39},
    [DROP] = {30, 33},
    [STATE] = {26, 30, 33},
};

static const char *const event_words[EVENTS] = {
    [SUPPLY_NEEDS_MORE] = "supply ended for reason 1",
    [SUPPLY_STOP_DAY] = "supply ended for reason 2",
    [SUPPLY_LAST_DAY] = "supply ended for reason 3",
    [SUPPLY_BY_1] = "supply by choice 1",
    [SUPPLY_BY_2] = "supply by choice 2",
    [SUPPLY_BY_3] = "supply by choice 3",
    [SUPPLY_BY_4] = "supply by choice 4",
    [NOTHING_BY_1] = "nothing to supply by choice 1",
    [NOTHING_BY_2] = "nothing to supply by choice 2",
    [NOTHING_BY_3] = "nothing to supply by choice 3",
    [NOTHING_BY_4] = "nothing to supply by choice 4",
    [CHOICE_0] = "choice 0 refused",
    [CHOICE_5] = "choice 5 refused",
    [CHOICE_257] = "choice 257 refused",
    [DATES_RULE_BROKEN] = "dates refused as by the verdict",
    [DATES_39_BYTES] = "dates into 39 bytes",
    [DATES_NONE] = "dates all absent",
    [DATES_END] = "an end date",
    [DATES_APART] = "a minimum and another maximum date",
    [DATES_MINIMUM_ALONE] = "a minimum and no maximum date",
    [DATES_3_IS_4] = "dates 3 and 4 on one day",
    [DATES_3_IS_NOT_4] = "dates 3 and 4 on two days",
    [DATES_4_ALONE] = "a date 4 and no date 3",
    [DATES_NEED_ONLY] = "dates of a need-only plan",
    [DAY_SHOWN] = "a day shown",
    [NO_DAY_SHOWN] = "no day shown",
    [ROUNDS_OF_1] = "two rounds or more of 1 day",
    [ROUNDS_OF_2] = "two rounds or more of 2 days",
    [ROUNDS_OF_7] = "two rounds or more of 7 days",
    [ROUNDS_OF_28] = "two rounds or more of 28 days",
    [ROUNDS_OF_620] = "two rounds or more of 620 days",
    [ROUND_OF_65535] = "a round of 65,535 days",
    [ROUNDS_OF_HUNDREDS] = "two rounds or more of hundreds of days",
    [ROUNDS_OF_THOUSANDS] = "two rounds or more of thousands of days",
    [ROUNDS_TO_2199] = "rounds over more than 65,535 days",
    [PAUSED_TO_2199] = "rounds over more than 65,535 days, and pauses",
    [ROUNDS_OF_NOTHING] = "rounds that need nothing",
    [ROUNDS_NOT_OF_CHOICE] = "rounds without a dose of the choice",
    [ANY_DAY_BY_3] = "rounds of days with day number 0, by choice 3",
    [ANY_DAY_BY_4] = "rounds of days with day number 0, by choice 4",
    [START_AHEAD] = "rounds from a start ahead of the period",
    [START_FIRST_DAY] = "rounds from the period's first day",
    [START_LAST_DAY] = "a start on an iterated period's last day",
    [START_ROUND] = "rounds from the first day of a later round",
    [START_END_OF_ROUND] = "rounds from the last day of a round",
    [START_INSIDE_ROUND] = "rounds from a day inside a round",
    [PACK_ONE_LESS] = "a pack for one round, less one",
    [PACK_EXACT] = "a pack for exactly one round",
    [PACK_ONE_MORE] = "a pack for one round, and one",
    [PACK_MANY_ONE_LESS] = "a pack for ten rounds or more, less one",
    [PACK_MANY_EXACT] = "a pack for exactly ten rounds or more",
    [PACK_MANY_ONE_MORE] = "a pack for ten rounds or more, and one",
    [STOP_WITH_ROUND] = "the stop day ends a round",
    [STOP_AFTER_ROUND] = "the stop day is the first of a round",
    [STOP_SHORT_OF_ROUND] = "the stop day is the last but one of a round",
    [NEXT_WITH_ROUND] = "the next period begins where a round ends",
    [NEXT_INSIDE_ROUND] = "the next period begins inside a round",
    [OVER_BEGINS_BY_1] = "the other list's period begins in a round, by 1",
    [OVER_BEGINS_BY_2] = "the other list's period begins in a round, by 2",
    [OVER_BEGINS_BY_3] = "the other list's period begins in a round, by 3",
    [OVER_BEGINS_BY_4] = "the other list's period begins in a round, by 4",
    [OVER_ENDS_BY_1] = "the other list's period ends in a round, by 1",
    [OVER_ENDS_BY_2] = "the other list's period ends in a round, by 2",
    [OVER_ENDS_BY_3] = "the other list's period ends in a round, by 3",
    [OVER_ENDS_BY_4] = "the other list's period ends in a round, by 4",
    [PAUSE_ON_LAST_OF_ROUND] = "a pause from the last day of a round on",
    [PAUSE_ON_FIRST_OF_ROUND] = "a pause from the first day of a round on",
    [PAUSE_OF_A_DAY] = "a pause of one day inside a round",
    [PAUSE_UP_TO_ROUND] = "a pause up to the day ahead of a round",
    [PAUSE_OPEN] = "a pause open to the end",
    [PAUSE_PAST_STOP] = "a pause past the stop day",
    [PAUSES_TOUCH] = "two pauses that touch",
    [PAUSES_OVERLAP] = "two pauses that overlap",
    [PAUSES_DAY_BETWEEN] = "one day between two pauses",
    [PAUSES_ROUND_BETWEEN] = "a round between two pauses",
    [PAUSES_SHORT_ROUND_BETWEEN] = "a round less a day between two pauses",
    [PAUSES_LONG_ROUND_BETWEEN] = "a round and a day between two pauses",
    [ROUNDS_TO_END_DATE] = "two rounds or more to an end date",
    [ROUNDS_TO_MINIMUM] = "two rounds or more to a minimum date",
    [ROUNDS_TO_MAXIMUM] = "two rounds or more to a maximum date",
    [ROUNDS_TO_DATE_3] = "two rounds or more to a date 3",
    [ROUNDS_TO_DATE_4] = "two rounds or more to a date 4",
};

static unsigned missing(void) {
    unsigned count = 0;
    for (unsigned call = 0; call < CALLS; call++) {
        count += answers[call][0] == 0;
        for (unsigned i = 0; i < 20 && wanted[call][i] != 0; i++)
            if (answers[call][wanted[call][i]] == 0) {
                printf("%s never answered %u\n", call_names[call], wanted[call][i]);
                count++;
            }
    }
    for (unsigned event = 0; event < EVENTS; event++)
        if (events[event] == 0) {
            printf("never came up: %s\n", event_words[event]);
            count++;
        }
    return count;
}

static void print_answers(void) {
    for (unsigned call = 0; call < CALLS; call++) {
        uint64_t all = 0;
        for (unsigned number = 0; number < 64; number++)
            all += answers[call][number];
        printf("%-8s %8llu calls:", call_names[call], (unsigned long long)all);
        for (unsigned number = 0; number < 64; number++)
            if (answers[call][number] > 0)
                printf(" %u:%llu", number, (unsigned long long)answers[call][number]);
        printf("\n");
    }
    for (unsigned event = 0; event < EVENTS; event++)
        printf("%-48s %8llu times\n", event_words[event], (unsigned long long)events[event]);
}

int main(int words, char **word) {
    bool of_walks = words == 2 && strcmp(word[1], "walks") == 0;
    if (words != 3 && !of_walks) {
        fprintf(stderr, "usage: compare COUNT SEED, compare =INPUT SEED, or compare walks\n");
        return 2;
    }
    if (chivetassel_version() != CHIVETASSEL_VERSION) {
        printf("DIFFERENCE in version: the library was built from another header\n");
        return 1;
    }
    if (of_walks) {
        printf("no difference in %llu small walks\n", (unsigned long long)ask_small_walks());
        return 0;
    }
    uint64_t seed = strtoull(word[2], NULL, 10);
    if (word[1][0] == '=') {
        compare_input(seed, strtoull(word[1] + 1, NULL, 10));
        printf("no difference\n");
        return 0;
    }
    uint64_t count = strtoull(word[1], NULL, 10);
    for (uint64_t i = 0; i < count; i++)
        compare_input(seed, i);
    print_answers();
    unsigned never = missing();
    if (never > 0) {
        printf("%u answers never came up among %llu inputs\n", never, (unsigned long long)count);
        return 1;
    }
    printf("no difference in %llu inputs of seed %llu\n", (unsigned long long)count, (unsigned long long)seed);
    return 0;
}
