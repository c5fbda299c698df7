/* Numbers, days and amounts as people write them. A word that is none ends the screen, and says what was wanted. */
#ifndef WORDS_H
#define WORDS_H

#include <stdint.h>

/* Room for what is written below. */
enum { WORD_ROOM = 24 };

uint64_t slots_of(const char *word);   /* 1 to 64 */
uint64_t signer_of(const char *word);  /* a pharmacist's number */
uint64_t number_of(const char *word);  /* a plan's number */
uint64_t day_of(const char *word);     /* 2017-12-04 */
uint64_t amount_of(const char *word);  /* 10, 10.5 or 10.50, in hundredths */
uint64_t choice_of(const char *word);  /* low, upper, both or needed */

/* 2017-12-04, or "open". Gives the buffer. */
const char *day_in(char *made, uint64_t day);

/* 10.50 */
const char *amount_in(char *made, uint64_t hundredths);

/* Numbers in plans and in `out` buffers, least byte first. */
uint32_t word_at(const uint8_t *bytes, uint32_t at);
uint64_t long_at(const uint8_t *bytes, uint32_t which);

#endif
