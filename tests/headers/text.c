/* Each number of document 01 has words of its own, and no other number has any. As C and as C++; tests/headers/run runs it. */
#include "chivetassel_text.h"
#include "chivetassel_text.h"

#include <stdio.h>
#include <string.h>

static int is_given(uint32_t number) {
    return number <= 17 || (number >= 20 && number <= 26) || (number >= 30 && number <= 39);
}

static int has_words(uint32_t number) {
    const char *text = chivetassel_text(number), *look = chivetassel_look_at(number);
    for (uint32_t other = 0; other < number; other++)
        if (is_given(other) && (strcmp(text, chivetassel_text(other)) == 0 || strcmp(look, chivetassel_look_at(other)) == 0))
            return 0;
    return text[0] != 0 && (look[0] != 0) == (number > 0);
}

static int has_none(uint32_t number) {
    return strcmp(chivetassel_text(number), "no such number") == 0 && chivetassel_look_at(number)[0] == 0;
}

int main(void) {
    int wrong = 0;
    for (uint32_t number = 0; number < 1000; number++)
        if (is_given(number) ? !has_words(number) : !has_none(number)) {
            printf("%u: \"%s\", look at \"%s\"\n", number, chivetassel_text(number), chivetassel_look_at(number));
            wrong++;
        }
    for (uint32_t reason = 0; reason < 10; reason++)
        if ((chivetassel_reason_text(reason)[0] != 0) != (reason >= 1 && reason <= 3)) {
            printf("reason %u: \"%s\"\n", reason, chivetassel_reason_text(reason));
            wrong++;
        }
    return wrong == 0 ? 0 : 1;
}
