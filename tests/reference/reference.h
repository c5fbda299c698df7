/* The calls of include/chivetassel.h once more, plain and slow, written from documents 01 and 02 and the readings in
   docs/DECISIONS.md: what tests/compare holds the library to. Nothing here is shared with the library. It is not for several
   threads. */
#ifndef REFERENCE_H
#define REFERENCE_H

#include <stddef.h>
#include <stdint.h>

uint32_t reference_verdict(const uint8_t *plan, size_t plan_len);
uint32_t reference_supply(const uint8_t *plan, size_t plan_len, uint32_t start, uint64_t pack, uint32_t choice,
                          const uint8_t *pauses, size_t pauses_len, uint8_t *out, size_t out_len);
uint32_t reference_dates(const uint8_t *plan, size_t plan_len, uint32_t start, uint64_t pack, const uint8_t *pauses,
                         size_t pauses_len, uint8_t *out, size_t out_len);
uint32_t reference_split(const uint8_t *plan, size_t plan_len, uint8_t *fixed, size_t fixed_len, uint8_t *need,
                         size_t need_len, uint8_t *out, size_t out_len);
uint32_t reference_show_day(const uint8_t *fixed, size_t fixed_len, const uint8_t *need, size_t need_len, uint32_t list,
                            uint32_t day, uint8_t *out, size_t out_len);
uint32_t reference_day_sums(const uint8_t *plan, size_t plan_len, uint32_t day, uint8_t *out, size_t out_len);
uint32_t reference_clear(uint8_t *reg, size_t reg_len);
uint32_t reference_submit(uint8_t *reg, size_t reg_len, const uint8_t *plan, size_t plan_len);
uint32_t reference_sign(uint8_t *reg, size_t reg_len, uint32_t signer, const uint8_t *plan, size_t plan_len);
uint32_t reference_release(const uint8_t *reg, size_t reg_len, uint32_t number, uint8_t *room, size_t room_len,
                           uint8_t *out, size_t out_len);
uint32_t reference_drop(uint8_t *reg, size_t reg_len, uint32_t number);
uint32_t reference_state(const uint8_t *reg, size_t reg_len, uint32_t number, uint8_t *out, size_t out_len);

#endif
