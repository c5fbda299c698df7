#define _DEFAULT_SOURCE
#include "words.h"

#include "chivetassel.h"
#include "end.h"

#include <stdbool.h>
#include <stdio.h>
#include <string.h>

/* Digits and nothing else, at most 12 of them: larger than any amount that is taken. */
static bool is_number(const char *word, size_t digits, uint64_t *number) {
    *number = 0;
    if (digits == 0 || digits > 12)
        return false;
    for (size_t i = 0; i < digits; i++) {
        if (word[i] < '0' || word[i] > '9')
            return false;
        *number = *number * 10 + (uint64_t)(word[i] - '0');
    }
    return true;
}

static uint64_t number_from(const char *word, uint64_t least, uint64_t most, const char *wanted) {
    uint64_t number;
    if (!is_number(word, strlen(word), &number) || number < least || number > most)
        fail_by_word(word, wanted);
    return number;
}

uint64_t slots_of(const char *word) {
    return number_from(word, 1, CHIVETASSEL_SLOTS_MOST, "no number of slots: a register has 1 to 64, one for each plan");
}

uint64_t signer_of(const char *word) {
    return number_from(word, 0, UINT32_MAX, "no signer: a pharmacist signs with a number, 1 to 4294967295");
}

uint64_t number_of(const char *word) {
    return number_from(word, 0, UINT32_MAX, "no plan number: that is a number, 0 to 4294967295");
}

static uint32_t year_length(uint32_t year) {
    return year % 4 == 0 && (year % 100 != 0 || year % 400 == 0) ? 366 : 365;
}

static uint32_t month_length(uint32_t year, uint32_t month) {
    static const uint32_t lengths[] = {31, 28, 31, 30, 31, 30, 31, 31, 30, 31, 30, 31};
    return lengths[month - 1] + (month == 2 && year_length(year) == 366);
}

uint64_t day_of(const char *word) {
    static const char wanted[] = "no day: a day is written 2017-12-04, and lies between 2000-01-01 and 2199-12-31";
    uint64_t year, month, day;
    if (strlen(word) != 10 || word[4] != '-' || word[7] != '-' || !is_number(word, 4, &year) || !is_number(word + 5, 2, &month) ||
        !is_number(word + 8, 2, &day) || year < 2000 || year > 2199 || month < 1 || month > 12 || day < 1 ||
        day > month_length((uint32_t)year, (uint32_t)month))
        fail_by_word(word, wanted);
    uint32_t number = (uint32_t)day - 1;
    for (uint32_t y = 2000; y < year; y++)
        number += year_length(y);
    for (uint32_t m = 1; m < month; m++)
        number += month_length((uint32_t)year, m);
    return number;
}

uint64_t amount_of(const char *word) {
    const char *point = strchr(word, '.');
    size_t whole = point == NULL ? strlen(word) : (size_t)(point - word), behind = point == NULL ? 0 : strlen(point + 1);
    uint64_t units, hundredths = 0;
    if (!is_number(word, whole, &units) || (point != NULL && (behind > 2 || !is_number(point + 1, behind, &hundredths))))
        fail_by_word(word, "no amount: an amount is written 10 or 10.50");
    return units * 100 + (behind == 1 ? hundredths * 10 : hundredths);
}

uint64_t choice_of(const char *word) {
    static const struct { const char *word; uint64_t choice; } choices[] = {
        {"low", CHIVETASSEL_LOW}, {"upper", CHIVETASSEL_UPPER}, {"both", CHIVETASSEL_BOTH}, {"needed", CHIVETASSEL_AS_NEEDED}};
    for (size_t i = 0; i < sizeof choices / sizeof choices[0]; i++)
        if (strcmp(word, choices[i].word) == 0)
            return choices[i].choice;
    fail_by_word(word, "no choice: say low or upper for the fixed doses, both for all doses, needed for the as-needed ones");
}

const char *day_in(char *made, uint64_t day) {
    if (day > CHIVETASSEL_LAST_DAY) {
        snprintf(made, WORD_ROOM, "open");
        return made;
    }
    uint32_t year = 2000, month = 1, left = (uint32_t)day;
    for (; left >= year_length(year); year++)
        left -= year_length(year);
    for (; left >= month_length(year, month); month++)
        left -= month_length(year, month);
    snprintf(made, WORD_ROOM, "%04u-%02u-%02u", year, month, left + 1);
    return made;
}

const char *amount_in(char *made, uint64_t hundredths) {
    snprintf(made, WORD_ROOM, "%llu.%02u", (unsigned long long)(hundredths / 100), (unsigned)(hundredths % 100));
    return made;
}

uint32_t word_at(const uint8_t *bytes, uint32_t at) {
    return bytes[at] | (uint32_t)bytes[at + 1] << 8 | (uint32_t)bytes[at + 2] << 16 | (uint32_t)bytes[at + 3] << 24;
}

uint64_t long_at(const uint8_t *bytes, uint32_t which) {
    return word_at(bytes, 8 * which) | (uint64_t)word_at(bytes, 8 * which + 4) << 32;
}
