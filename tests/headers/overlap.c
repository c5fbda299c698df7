/* What the header warns of: one buffer for two, in each call that writes beside what it reads. Every line here has to be warned of
   by a compiler that can see it (-Wrestrict); tests/headers/run counts. */
#include "chivetassel.h"

uint8_t a[CHIVETASSEL_SLOT], b[CHIVETASSEL_SLOT], c[CHIVETASSEL_SLOT];

uint32_t overlaps(void);

uint32_t overlaps(void) {
    uint32_t all = 0;
    all |= chivetassel_supply(a, 512, 0, 0, 1, b, 8, a, 32); /* warned */
    all |= chivetassel_supply(a, 512, 0, 0, 1, b, 8, b, 32); /* warned */
    all |= chivetassel_dates(a, 512, 0, 0, b, 8, a, 40); /* warned */
    all |= chivetassel_dates(a, 512, 0, 0, b, 8, b, 40); /* warned */
    all |= chivetassel_split(a, 512, a, 512, b, 512, c, 16); /* warned */
    all |= chivetassel_split(a, 512, b, 512, a, 512, c, 16); /* warned */
    all |= chivetassel_split(a, 512, b, 512, b, 512, c, 16); /* warned */
    all |= chivetassel_split(a, 512, b, 512, c, 512, a, 16); /* warned */
    all |= chivetassel_show_day(a, 512, b, 512, 1, 0, a, 16); /* warned */
    all |= chivetassel_day_sums(a, 512, 0, a, 32); /* warned */
    all |= chivetassel_submit(a, sizeof a, a, 512); /* warned */
    all |= chivetassel_sign(a, sizeof a, 1, a, 512); /* warned */
    all |= chivetassel_release(a, sizeof a, 1, b, sizeof b, b, 8); /* warned */
    all |= chivetassel_release(a, sizeof a, 1, a, sizeof a, b, 8); /* warned */
    all |= chivetassel_state(a, sizeof a, 1, a, 16); /* warned */
    all |= chivetassel_show_day(a, 512, a, 512, 1, 0, b, 16); /* both are only read: no fault */
    return all;
}
