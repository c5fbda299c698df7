/* Answers that nobody looks at: every call here has to be warned of; tests/headers/run counts. */
#include "chivetassel.h"

uint8_t a[CHIVETASSEL_SLOT], b[CHIVETASSEL_SLOT], c[CHIVETASSEL_SLOT];

void unlooked(void);

void unlooked(void) {
    chivetassel_verdict(a, 512);                       /* warned */
    chivetassel_supply(a, 512, 0, 0, 1, NULL, 0, b, 32); /* warned */
    chivetassel_dates(a, 512, 0, 0, NULL, 0, b, 40);   /* warned */
    chivetassel_split(a, 512, b, 512, c, 512, NULL, 0); /* warned */
    chivetassel_show_day(a, 512, a, 512, 1, 0, b, 16); /* warned */
    chivetassel_day_sums(a, 512, 0, b, 32);            /* warned */
    chivetassel_clear(a, sizeof a);                    /* warned */
    chivetassel_submit(a, sizeof a, b, 512);           /* warned */
    chivetassel_sign(a, sizeof a, 1, b, 512);          /* warned */
    chivetassel_release(a, sizeof a, 1, b, sizeof b, c, 8); /* warned */
    chivetassel_drop(a, sizeof a, 1);                  /* warned */
    chivetassel_state(a, sizeof a, 1, b, 16);          /* warned */
}
