/* Random numbers, and random changes of a book's text: of bytes, numbers and lines. */
#ifndef BENCH_EDITS_H
#define BENCH_EDITS_H

#include "files.h"
#include <string.h>

struct dice {
    uint64_t state;
};

/* splitmix64 */
static inline uint64_t roll(struct dice *d)
{
    uint64_t x = d->state += 0x9e3779b97f4a7c15;
    x = (x ^ x >> 30) * 0xbf58476d1ce4e5b9;
    x = (x ^ x >> 27) * 0x94d049bb133111eb;
    return x ^ x >> 31;
}

static inline size_t below(struct dice *d, size_t limit)
{
    return limit == 0 ? 0 : (size_t)(roll(d) % limit);
}

/* A byte that a book may hold, or now and then any. */
static inline uint8_t some_byte(struct dice *d)
{
    static const char usual[] = "0123456789()()  \n\ntnisbokrulehdfygvapmxc";
    return below(d, 16) == 0 ? (uint8_t)roll(d) : (uint8_t)usual[below(d, sizeof usual - 1)];
}

/* Puts `count` bytes in the place of `cut` bytes at a place; nothing happens where there is no room. */
static inline void splice(struct text *t, size_t at, size_t cut, const uint8_t *bytes, size_t count)
{
    if (at > t->length || cut > t->length - at || t->length - cut + count > sizeof t->bytes)
        return;
    memmove(t->bytes + at + count, t->bytes + at + cut, t->length - at - cut);
    memcpy(t->bytes + at, bytes, count);
    t->length = t->length - cut + count;
}

static inline void edit_byte(struct dice *d, struct text *t)
{
    uint8_t byte = some_byte(d);
    size_t at = below(d, t->length + 1), way = below(d, 3);
    splice(t, at, way != 1, &byte, way != 2);
}

/* The line that holds a place: its start, and how long it is with its line feed. */
static inline size_t line_at(const struct text *t, size_t at, size_t *length)
{
    size_t start = at, end = at;
    while (start > 0 && t->bytes[start - 1] != '\n')
        start--;
    while (end < t->length && t->bytes[end] != '\n')
        end++;
    *length = end - start + (end < t->length);
    return start;
}

/* Takes a line away, or puts a copy of it somewhere, or in the place of another. */
static inline void edit_line(struct dice *d, struct text *t)
{
    uint8_t copy[512];
    size_t length, other, start = line_at(t, below(d, t->length), &length), way = below(d, 3);
    if (length > sizeof copy)
        return;
    memcpy(copy, t->bytes + start, length);
    if (way == 0) {
        splice(t, start, length, copy, 0);
        return;
    }
    size_t place = line_at(t, below(d, t->length), &other);
    splice(t, place, way == 1 ? 0 : other, copy, length);
}

static inline uint64_t other_number(struct dice *d, uint64_t number)
{
    static const uint64_t edges[] = {0,  1,  4,  8,  9,   15,  16,  17,         31,
                                     32, 33, 63, 64, 127, 128, 129, 4294967295, 4294967296};
    switch (below(d, 4)) {
    case 0:
        return number + 1;
    case 1:
        return number > 0 ? number - 1 : 2;
    case 2:
        return below(d, 40);
    default:
        return edges[below(d, sizeof edges / sizeof edges[0])];
    }
}

static inline bool is_digit(uint8_t byte)
{
    return byte >= '0' && byte <= '9';
}

static inline void edit_number(struct dice *d, struct text *t)
{
    size_t at = below(d, t->length), end;
    uint64_t number = 0;
    char written[24];
    while (at < t->length && !is_digit(t->bytes[at]))
        at++;
    while (at > 0 && at < t->length && is_digit(t->bytes[at - 1]))
        at--;
    for (end = at; end < t->length && is_digit(t->bytes[end]) && end < at + 10; end++)
        number = 10 * number + (uint64_t)(t->bytes[end] - '0');
    int length = snprintf(written, sizeof written, "%" PRIu64, other_number(d, number));
    splice(t, at, end - at, (const uint8_t *)written, (size_t)length);
}

/* One to three changes. */
static inline void edit(struct dice *d, struct text *t)
{
    for (size_t times = 1 + below(d, 3); times > 0 && t->length > 0; times--) {
        switch (below(d, 8)) {
        case 0:
            edit_byte(d, t);
            break;
        case 1:
            edit_line(d, t);
            break;
        default:
            edit_number(d, t);
        }
    }
}

#endif
