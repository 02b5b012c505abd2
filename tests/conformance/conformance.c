/*
 * Runs the stored cases against an engine with the two calls of message_book.h.
 *
 *     conformance FILE..
 *
 * A case is an input of document 01's desk program, a book and (tok kind value) lines, with what must be printed; the
 * format of the files is told in tests/vectors/README.md. This program is the desk program over the engine's two calls.
 * Beside the printed answer it checks every word that it lends: on a refusal all are 0, a taken book's words are its
 * text, rows end in zeros, and the guard words around them are not touched.
 *
 * Exit codes: 0 all cases passed, 1 some failed, 2 usage or a file that is no file of cases.
 */
#include "message_book.h"
#include <inttypes.h>
#include <stdbool.h>
#include <stdio.h>
#include <stdlib.h>
#include <string.h>

enum { MOST_INPUT = 1 << 17, MOST_OUTPUT = 1 << 17, MOST_SHOWN = 5, GUARDS = 16 };

#define GARBAGE 0xa5a5a5a5u

/* Bytes that are read from the front. */
struct bytes {
    const uint8_t *at;
    size_t left;
};

/* What is lent to the engine, with guard words around. */
struct lent {
    uint32_t low[GUARDS];
    uint32_t words[MESSAGE_BOOK_WORDS];
    uint32_t middle[GUARDS];
    uint32_t rows[MESSAGE_BOOK_ROW_WORDS];
    uint32_t count;
    uint32_t high[GUARDS];
};

static _Noreturn void stop(const char *what, const char *path)
{
    fprintf(stderr, "conformance: %s: %s\n", path, what);
    exit(2);
}

/* The desk program's input */

static bool starts_with(struct bytes b, const char *word)
{
    return b.left >= strlen(word) && memcmp(b.at, word, strlen(word)) == 0;
}

static struct bytes skip(struct bytes b, size_t count)
{
    return (struct bytes){b.at + count, b.left - count};
}

/* How long the book text of an input is: up to its first end line, or all of it. */
static size_t book_length(struct bytes input)
{
    struct bytes rest = input;
    while (rest.left > 0) {
        if (starts_with(rest, "(end)\n"))
            return input.left - rest.left + 6;
        const uint8_t *feed = memchr(rest.at, '\n', rest.left);
        if (feed == NULL)
            return input.left;
        rest = skip(rest, (size_t)(feed - rest.at) + 1);
    }
    return input.left;
}

static bool take_word(struct bytes *b, const char *word)
{
    if (!starts_with(*b, word))
        return false;
    *b = skip(*b, strlen(word));
    return true;
}

/* A number of 1 to 10 digits, at most 4,294,967,295, no leading zero. */
static bool take_number(struct bytes *b, uint32_t *number)
{
    uint64_t value = 0;
    size_t digits = 0;
    while (digits < b->left && b->at[digits] >= '0' && b->at[digits] <= '9' && digits < 11)
        value = 10 * value + (uint64_t)(b->at[digits++] - '0');
    if (digits == 0 || digits > 10 || value > UINT32_MAX || (digits > 1 && b->at[0] == '0'))
        return false;
    *number = (uint32_t)value;
    *b = skip(*b, digits);
    return true;
}

static bool take_token(struct bytes *b, uint32_t *kind, uint32_t *value)
{
    return take_word(b, "(tok ") && take_number(b, kind) && take_word(b, " ") && take_number(b, value) &&
           take_word(b, ")\n");
}

/* The token lines; whether they are spelled right. */
static bool take_tokens(struct bytes rest, uint32_t *numbers, size_t *count)
{
    *count = 0;
    while (rest.left > 0) {
        if (!take_token(&rest, &numbers[*count], &numbers[*count + 1]))
            return false;
        *count += 2;
    }
    return true;
}

/* What the engine must leave in the words that it is lent */

static bool all_are(const uint32_t *words, size_t count, uint32_t word)
{
    while (count > 0 && words[count - 1] == word)
        count--;
    return count == 0;
}

static bool guards_whole(const struct lent *l)
{
    return all_are(l->low, GUARDS, GARBAGE) && all_are(l->middle, GUARDS, GARBAGE) && all_are(l->high, GUARDS, GARBAGE);
}

/* Every word of a taken book: its text, lowest byte first, and zeros. */
static bool words_right(const struct lent *l, uint32_t answer, struct bytes text)
{
    if (answer != 0)
        return all_are(l->words, MESSAGE_BOOK_WORDS, 0);
    for (size_t i = 0; i < 4 * MESSAGE_BOOK_WORDS; i++)
        if ((l->words[i / 4] >> 8 * (i % 4) & 255) != (i < text.left ? text.at[i] : 0))
            return false;
    return true;
}

static bool rows_right(const struct lent *l, uint32_t answer)
{
    size_t used = (size_t)l->count * MESSAGE_BOOK_ROW;
    if (used > MESSAGE_BOOK_ROW_WORDS || (answer != 0 && l->count != 0))
        return false;
    return all_are(l->rows + used, MESSAGE_BOOK_ROW_WORDS - used, 0);
}

/* The desk program over the two calls */

static size_t print_refusal(char *out, uint32_t answer)
{
    return (size_t)snprintf(out, MOST_OUTPUT, "(refused %u)\n", answer);
}

static size_t print_rows(char *out, const struct lent *l)
{
    size_t length = 0;
    for (size_t i = 0; i < (size_t)l->count * MESSAGE_BOOK_ROW && l->count <= MESSAGE_BOOK_ROWS; i++) {
        const char *before = i % MESSAGE_BOOK_ROW == 0 ? "(row " : " ";
        const char *after = i % MESSAGE_BOOK_ROW == MESSAGE_BOOK_ROW - 1 ? ")\n" : "";
        length += (size_t)snprintf(out + length, MOST_OUTPUT - length, "%s%u%s", before, l->rows[i], after);
    }
    return length + (size_t)snprintf(out + length, MOST_OUTPUT - length, "(accepted %u)\n", l->count);
}

/* Input to output. `kept` turns false where a lent word is not what it must be. */
static size_t desk(struct bytes input, char *out, bool *kept)
{
    static struct lent lent;
    static uint32_t numbers[MOST_INPUT];
    struct bytes text = {input.at, book_length(input)};
    size_t count;
    memset(&lent, 0xa5, sizeof lent);
    uint32_t answer = message_book_read(text.at, text.left, lent.words, MESSAGE_BOOK_WORDS);
    *kept = words_right(&lent, answer, text) && guards_whole(&lent);
    if (answer != 1 && !take_tokens(skip(input, text.left), numbers, &count))
        answer = 2;
    if (answer != 0)
        return print_refusal(out, answer);
    answer = message_book_evaluate(lent.words, MESSAGE_BOOK_WORDS, numbers, count, lent.rows, MESSAGE_BOOK_ROW_WORDS,
                                   &lent.count);
    *kept = *kept && rows_right(&lent, answer) && words_right(&lent, 0, text) && guards_whole(&lent);
    return answer != 0 ? print_refusal(out, answer) : print_rows(out, &lent);
}

/* Files of cases */

struct file {
    const char *path;
    struct bytes rest, base;
    unsigned cases, failed;
};

/* `count` numbers of a block's first line. */
static void take_line(struct file *f, size_t *numbers, size_t count)
{
    for (size_t i = 0; i < count; i++) {
        uint32_t number;
        if (!take_word(&f->rest, " ") || !take_number(&f->rest, &number))
            stop("no number where one is due", f->path);
        numbers[i] = number;
    }
    if (!take_word(&f->rest, ")\n"))
        stop("a block's first line goes on", f->path);
}

static struct bytes take_bytes(struct file *f, size_t count)
{
    if (f->rest.left < count)
        stop("the file ends within a block", f->path);
    struct bytes taken = {f->rest.at, count};
    f->rest = skip(f->rest, count);
    return taken;
}

/* The base with some bytes cut and others put in their place. */
static struct bytes put_together(const struct file *f, size_t at, size_t cut, struct bytes put)
{
    static uint8_t input[MOST_INPUT];
    if (at > f->base.left || cut > f->base.left - at || f->base.left - cut + put.left > sizeof input)
        stop("a case does not fit its base", f->path);
    memcpy(input, f->base.at, at);
    memcpy(input + at, put.at, put.left);
    memcpy(input + at + put.left, f->base.at + at + cut, f->base.left - at - cut);
    return (struct bytes){input, f->base.left - cut + put.left};
}

static void show_failure(struct file *f, struct bytes due, const char *out, size_t length, bool kept)
{
    if (f->failed++ >= MOST_SHOWN)
        return;
    printf("%s, case %u:%s\n", f->path, f->cases, kept ? "" : " a lent word is not what it must be");
    printf("    due: %.*s\n", (int)strcspn((const char *)due.at, "\n"), (const char *)due.at);
    printf("    got: %.*s, %zu bytes, %zu are due\n", (int)strcspn(out, "\n"), out, length, due.left);
}

static void run_case(struct file *f)
{
    static char out[MOST_OUTPUT];
    size_t numbers[4];
    bool kept;
    take_line(f, numbers, 4);
    struct bytes put = take_bytes(f, numbers[2]), due = take_bytes(f, numbers[3]);
    size_t length = desk(put_together(f, numbers[0], numbers[1], put), out, &kept);
    f->cases++;
    if (!kept || length != due.left || memcmp(out, due.at, length) != 0)
        show_failure(f, due, out, length, kept);
}

static void run_block(struct file *f)
{
    if (take_word(&f->rest, "(base")) {
        size_t length;
        take_line(f, &length, 1);
        f->base = take_bytes(f, length);
    } else if (take_word(&f->rest, "(case")) {
        run_case(f);
    } else {
        stop("neither a base nor a case", f->path);
    }
}

/* The whole file, in memory that stays until the program ends. */
static struct bytes load(const char *path)
{
    FILE *file = fopen(path, "rb");
    if (file == NULL || fseek(file, 0, SEEK_END) != 0)
        stop("cannot be read", path);
    long size = ftell(file);
    rewind(file);
    uint8_t *bytes = malloc((size_t)size + 1);
    if (size < 0 || bytes == NULL || fread(bytes, 1, (size_t)size, file) != (size_t)size)
        stop("cannot be read", path);
    bytes[size] = '\n';
    fclose(file);
    return (struct bytes){bytes, (size_t)size};
}

static unsigned run_file(const char *path, unsigned *cases)
{
    struct file f = {path, load(path), {NULL, 0}, 0, 0};
    const void *whole = f.rest.at;
    while (f.rest.left > 0)
        run_block(&f);
    printf("%s: %u passed, %u failed\n", path, f.cases - f.failed, f.failed);
    *cases += f.cases;
    free((void *)(uintptr_t)whole);
    return f.failed;
}

int main(int argc, char **argv)
{
    unsigned cases = 0, failed = 0;
    if (argc < 2)
        stop("FILE..", "usage: conformance");
    for (int i = 1; i < argc; i++)
        failed += run_file(argv[i], &cases);
    printf("stored cases: %u passed, %u failed\n", cases - failed, failed);
    return failed > 0 || cases == 0;
}
