/* renumber NUMBER REVISION: a plan from standard input to standard output, with another number and revision and its head's sums
   made right again. */
#include <stdint.h>
#include <stdio.h>
#include <stdlib.h>

static uint8_t plan[16384];

static void put(uint32_t at, uint32_t number) {
    for (uint32_t i = 0; i < 4; i++)
        plan[at + i] = (uint8_t)(number >> 8 * i);
}

static uint32_t get(uint32_t at) {
    return plan[at] | (uint32_t)plan[at + 1] << 8 | (uint32_t)plan[at + 2] << 16 | (uint32_t)plan[at + 3] << 24;
}

int main(int count, char **word) {
    size_t length = fread(plan, 1, sizeof plan, stdin);
    if (count != 3 || length < 512)
        return 2;
    put(12, (uint32_t)strtoull(word[1], NULL, 10));
    put(16, (uint32_t)strtoull(word[2], NULL, 10));
    uint32_t first = 0, second = 0;
    for (uint32_t i = 0; i < 126; i++) {
        first += get(4 * i);
        second += first;
    }
    put(504, first);
    put(508, second);
    return fwrite(plan, 1, length, stdout) == length && fflush(stdout) == 0 ? 0 : 1;
}
