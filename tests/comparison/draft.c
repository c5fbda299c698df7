/* From a draft to bytes. */
#include "draft.h"

#include <string.h>

void put_bytes(uint8_t *at, uint32_t bytes, uint64_t number) {
    for (uint32_t i = 0; i < bytes; i++)
        at[i] = (uint8_t)(number >> 8 * i);
}

uint64_t get_bytes(const uint8_t *at, uint32_t bytes) {
    uint64_t number = 0;
    for (uint32_t i = 0; i < bytes; i++)
        number |= (uint64_t)at[i] << 8 * i;
    return number;
}

void put_sums(uint8_t *block) {
    uint32_t first = 0, second = 0;
    for (uint32_t i = 0; i < 504; i += 4) {
        first += (uint32_t)get_bytes(block + i, 4);
        second += first;
    }
    put_bytes(block + 504, 4, first);
    put_bytes(block + 508, 4, second);
}

uint32_t blocks_of(const struct draft_period *period) {
    return period->doses == 0 ? 1 : (period->doses + 19) / 20;
}

uint32_t blocks_in(const struct draft *draft) {
    uint32_t blocks = 1;
    for (uint32_t i = 0; i < draft->periods; i++)
        blocks += blocks_of(&draft->period[i]);
    return blocks;
}

static void write_doses(const struct draft_period *period, uint32_t from, uint8_t *block) {
    block[1] = (uint8_t)(period->doses - from < 20 ? period->doses - from : 20);
    for (uint32_t i = 0; i < block[1]; i++) {
        const struct draft_dose *dose = &period->dose[from + i];
        uint8_t *at = block + 24 + 24 * i;
        put_bytes(at, 2, dose->day);
        at[2] = (uint8_t)dose->kind;
        at[3] = (uint8_t)dose->mark;
        put_bytes(at + 4, 2, dose->minute);
        put_bytes(at + 8, 8, dose->low);
        put_bytes(at + 16, 8, dose->high);
    }
}

size_t write_draft(const struct draft *draft, uint8_t *bytes) {
    uint32_t blocks = 1;
    memset(bytes, 0, DRAFT_BYTES);
    for (uint32_t i = 0; i < draft->periods && blocks + blocks_of(&draft->period[i]) <= DRAFT_BLOCKS; i++) {
        const struct draft_period *period = &draft->period[i];
        for (uint32_t b = 0; b < blocks_of(period); b++, blocks++) {
            uint8_t *block = bytes + 512 * blocks;
            block[0] = b == 0 ? 2 : 3;
            if (b == 0) {
                put_bytes(block + 2, 2, period->interval);
                put_bytes(block + 4, 4, period->first);
                put_bytes(block + 8, 4, period->last);
            }
            write_doses(period, 20 * b, block);
            put_sums(block);
        }
    }
    bytes[0] = 1;
    bytes[1] = (uint8_t)(blocks - 1);
    put_bytes(bytes + 2, 2, draft->unit);
    put_bytes(bytes + 4, 4, draft->start);
    put_bytes(bytes + 8, 4, draft->end);
    put_bytes(bytes + 12, 4, draft->number);
    put_bytes(bytes + 16, 4, draft->revision);
    bytes[20] = (uint8_t)draft->vka;
    put_sums(bytes);
    return 512 * (size_t)blocks;
}
