/* A program of somebody who has installed the library: it judges the plan on standard input. As C and as C++. */
#include <chivetassel.h>
#include <chivetassel_text.h>
#include <stdio.h>

static uint8_t plan[CHIVETASSEL_PLAN_ROOM + 1];

int main(void) {
    if (chivetassel_version() != CHIVETASSEL_VERSION) {
        printf("the library is not this header's\n");
        return 2;
    }
    uint32_t answer = chivetassel_verdict(plan, fread(plan, 1, sizeof plan, stdin));
    printf("%s: %u %u: %s\n", CHIVETASSEL_VERSION_TEXT, CHIVETASSEL_NUMBER(answer), CHIVETASSEL_PLACE(answer),
           chivetassel_text(CHIVETASSEL_NUMBER(answer)));
    return CHIVETASSEL_IS_DONE(answer) ? 0 : 1;
}
