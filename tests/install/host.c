/* The program that the shared object of plugin.c is loaded into. */
#include <chivetassel.h>
#include <stdio.h>

uint32_t office_judges(const uint8_t *plan, size_t plan_len);

static uint8_t plan[CHIVETASSEL_PLAN_ROOM + 1];

int main(void) {
    return CHIVETASSEL_IS_DONE(office_judges(plan, fread(plan, 1, sizeof plan, stdin))) ? 0 : 1;
}
