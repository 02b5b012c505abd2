/*
 * Places in a text. A scanner takes a place and hands back the place behind what it read, or LOST, where nothing is
 * read any more. The text ends in "(end)" and a line feed: no scanner passes a line feed but the one of a line's end,
 * and behind every bracket stand five bytes more, so that no scanner asks where the text ends.
 */
#ifndef BASELINE_SCAN_H
#define BASELINE_SCAN_H

#include <stdbool.h>
#include <stdint.h>
#include <string.h>

static const uint8_t LOST[16];

#define LIKELY(x) __builtin_expect(!!(x), 1)
#define UNLIKELY(x) __builtin_expect(!!(x), 0)

/* The six bytes at a bracket or at the start of a line begin with a word. */
static inline bool begins(const uint8_t *at, const char *word, size_t length)
{
    return memcmp(at, word, length) == 0;
}

static inline const uint8_t *scan_byte(const uint8_t *at, uint8_t byte)
{
    return LIKELY(*at == byte) ? at + 1 : LOST;
}

static inline const uint8_t *scan_two(const uint8_t *at, uint8_t first, uint8_t second)
{
    return LIKELY(at[0] == first && at[1] == second) ? at + 2 : LOST;
}

static inline uint32_t digit_at(const uint8_t *at)
{
    return (uint32_t)*at - '0';
}

/* A number of two digits or more. */
static inline const uint8_t *scan_digits(const uint8_t *at, uint32_t *number)
{
    uint64_t value = digit_at(at);
    uint32_t digits = 1;
    if (UNLIKELY(value == 0))
        return LOST;
    for (at++; digit_at(at) < 10 && digits < 11; digits++)
        value = 10 * value + digit_at(at++);
    if (UNLIKELY(digits > 10 || value > UINT32_MAX))
        return LOST;
    *number = (uint32_t)value;
    return at;
}

/* A number: 1 to 10 digits, at most 4,294,967,295, no leading zero. What follows it is no digit. */
static inline const uint8_t *scan_number(const uint8_t *at, uint32_t *number)
{
    *number = digit_at(at);
    if (UNLIKELY(*number > 9))
        return LOST;
    uint32_t second = digit_at(at + 1);
    if (second > 9)
        return at + 1;
    if (UNLIKELY(digit_at(at + 2) < 10 || *number == 0))
        return scan_digits(at, number);
    *number = 10 * *number + second;
    return at + 2;
}

static inline const uint8_t *scan_spaced_number(const uint8_t *at, uint32_t *number)
{
    return scan_number(scan_byte(at, ' '), number);
}

/* A space, the letter of a name, its number. */
static inline const uint8_t *scan_name(const uint8_t *at, uint8_t letter, uint32_t *number)
{
    return scan_number(scan_two(at, ' ', letter), number);
}

static inline const uint8_t *scan_line_end(const uint8_t *at)
{
    return scan_two(at, ')', '\n');
}

#endif
