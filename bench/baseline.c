/* The two calls of the baseline: lengths, stored words, and the order of the conditions. */
#include "baseline.h"
#include "baseline/book.h"
#include "baseline/formulas.h"
#include "baseline/grammar.h"
#include "baseline/machine.h"
#include "baseline/scan.h"
#include "baseline/sections.h"
#include "baseline/states.h"
#include <string.h>

/* 8, 9 and 10, of all states: the lowest that applies anywhere. */
static uint32_t check_states(struct book *b)
{
    struct grammar g;
    struct closure c;
    struct interned t;
    uint32_t refusal = 0;
    t.count = MAX_INTERNED;
    b->reducers = b->plans = 0;
    prepare_grammar(&g, b);
    for (uint32_t S = 0; S < b->states; S++) {
        close_state(&g, &c, S);
        if (!goes_right(&g, &c))
            return 8;
        if (refusal != 9 && !actions_right(b, &g, &c))
            refusal = 9;
        if (refusal == 0 && !one_formula(b, &g, &c, &t))
            refusal = 10;
    }
    return refusal;
}

/* 2 to 10 of a text of at most 65,536 bytes; 0 where it is taken. */
static uint32_t compile(struct book *b, const uint8_t *text, size_t length)
{
    if (!scan_book(b, text, length))
        return 2;
    uint32_t early = b->broken & (1u << 3 | 1u << 4 | 1u << 5);
    if (early != 0)
        return lowest(early);
    if (!all_defined(b))
        return 6;
    if (b->broken != 0)
        return lowest(b->broken);
    return check_states(b);
}

static bool little_endian(void)
{
    const uint32_t one = 1;
    uint8_t first;
    memcpy(&first, &one, 1);
    return first == 1;
}

static void pack(const uint8_t *text, size_t length, uint32_t *words)
{
    if (little_endian()) {
        memcpy(words, text, length);
        memset((uint8_t *)words + length, 0, MAX_TEXT - length);
        return;
    }
    memset(words, 0, MAX_TEXT);
    for (size_t i = 0; i < length; i++)
        words[i / 4] |= (uint32_t)text[i] << 8 * (i % 4);
}

/* The bytes of the words: in place, or in `room` where the machine's order is another. */
static const uint8_t *unpack(const uint32_t *words, uint8_t *room)
{
    if (little_endian())
        return (const uint8_t *)words;
    for (size_t i = 0; i < MAX_TEXT; i++)
        room[i] = (uint8_t)(words[i / 4] >> 8 * (i % 4));
    return room;
}

enum { BLOCK = 64 };

/* Whether a block of words is zero, eight bytes at a time in four rows. */
static bool block_is_zero(const uint32_t *words)
{
    uint64_t any[4] = {0, 0, 0, 0}, eight;
    for (size_t i = 0; i < BLOCK; i += 8)
        for (size_t j = 0; j < 4; j++) {
            memcpy(&eight, words + i + 2 * j, sizeof eight);
            any[j] |= eight;
        }
    return (any[0] | any[1] | any[2] | any[3]) == 0;
}

/* How many bytes stand before the zeros at the end. A zero among them is misspelt. */
static size_t stored_length(const uint32_t *words)
{
    size_t count = BOOK_WORDS;
    while (count > 0 && block_is_zero(words + (count - BLOCK)))
        count -= BLOCK;
    while (count > 0 && words[count - 1] == 0)
        count--;
    return count == 0 ? 0 : 4 * count - (size_t)__builtin_clz(words[count - 1]) / 8;
}

uint32_t baseline_read(const uint8_t *text, size_t text_length, uint32_t *words, size_t words_length)
{
    struct book b;
    uint32_t refusal = text_length > MAX_TEXT || words_length != BOOK_WORDS ? 1 : compile(&b, text, text_length);
    if (refusal == 0)
        pack(text, text_length, words);
    else
        memset(words, 0, words_length * sizeof *words);
    return refusal;
}

/* 14 */
static bool kinds_right(const struct book *b, const uint32_t *tokens, size_t tokens_length)
{
    for (size_t i = 0; i < tokens_length; i += 2)
        if (tokens[i] - 1 >= b->terminals)
            return false;
    return true;
}

/* 11 to 17, before the rows are cleared. */
static uint32_t evaluate(const uint32_t *words, size_t words_length, const uint32_t *tokens, size_t tokens_length,
                         uint32_t *rows, size_t rows_length, uint32_t *count)
{
    struct book b;
    uint8_t room[MAX_TEXT];
    if (words_length != BOOK_WORDS || compile(&b, unpack(words, room), stored_length(words)) != 0)
        return 11;
    if (rows_length != PAGE_WORDS)
        return 12;
    if (tokens_length % 2 != 0 || tokens_length > 2 * MAX_TOKENS)
        return 13;
    if (!kinds_right(&b, tokens, tokens_length))
        return 14;
    return run(&b, tokens, (uint32_t)tokens_length / 2, rows, count);
}

uint32_t baseline_evaluate(const uint32_t *words, size_t words_length, const uint32_t *tokens, size_t tokens_length,
                           uint32_t *rows, size_t rows_length, uint32_t *count)
{
    uint32_t refusal = evaluate(words, words_length, tokens, tokens_length, rows, rows_length, count);
    if (refusal != 0)
        *count = 0;
    size_t used = (size_t)*count * ROW_WORDS;
    memset(rows + used, 0, (rows_length - used) * sizeof *rows);
    return refusal;
}
