/*
 * Differential runs: the engine and the baseline get the same texts, words and tokens, and must give the same answers
 * and the same result words.
 *
 *     differ DIRECTORY [SECONDS [SEED]]
 *
 * First every cut of the small books and every one-byte change of them (of the large ones, some of each); then, for
 * SECONDS, random changes of books, random words, random tokens and random bytes. Prints how many of each were tried
 * with which answers. The first disagreement ends the run: what was asked is left in the file differ.case.
 *
 * Exit codes: 0 no disagreement, 1 one, 2 usage or files.
 */
#include "baseline.h"
#include "edits.h"
#include "files.h"
#include "message_book.h"
#include <string.h>
#include <time.h>

enum { BOOKS = 5, ANSWERS = 18, MOST_NUMBERS = 520, MOST_ROWS = MESSAGE_BOOK_ROW_WORDS + 8 };

static const char *const NAMES[BOOKS] = {"s", "middle", "states", "limits", "formulas"};

static struct text BOOK[BOOKS];
static struct tokens MESSAGE[BOOKS];

struct tally {
    unsigned long times[ANSWERS];
};

static void print_tally(const char *what, const char *name, struct tally *t)
{
    unsigned long all = 0;
    for (unsigned i = 0; i < ANSWERS; i++)
        all += t->times[i];
    printf("%s%s%s: %lu", what, *name ? " of " : "", name, all);
    for (unsigned i = 0; i < ANSWERS; i++)
        if (t->times[i] > 0)
            printf(", %u x %lu", i, t->times[i]);
    putchar('\n');
    fflush(stdout);
    memset(t, 0, sizeof *t);
}

/* What was asked when the two did not agree. */
static void leave_case(const char *what, const void *bytes, size_t length, const uint32_t *numbers, size_t count)
{
    FILE *file = fopen("differ.case", "wb");
    printf("DISAGREEMENT: %s, left in differ.case\n", what);
    if (file != NULL) {
        fwrite(bytes, 1, length, file);
        for (size_t i = 0; i < count; i++)
            fprintf(file, "%s%u", i > 0 ? " " : "tokens: ", numbers[i]);
        fclose(file);
    }
    exit(1);
}

/* A copy of the text that ends where its memory ends: an address sanitizer sees what is read behind it. */
static const uint8_t *copy_at_end(const struct text *t)
{
    static uint8_t room[MESSAGE_BOOK_TEXT_BYTES];
    return memcpy(room + (sizeof room - t->length), t->bytes, t->length);
}

static uint32_t differ_read(const struct text *t, uint32_t *words)
{
    static uint32_t other[MESSAGE_BOOK_WORDS];
    const uint8_t *text = copy_at_end(t);
    uint32_t x = message_book_read(text, t->length, words, MESSAGE_BOOK_WORDS);
    uint32_t y = baseline_read(text, t->length, other, MESSAGE_BOOK_WORDS);
    if (x != y || memcmp(words, other, sizeof other) != 0) {
        printf("reading: engine %u, baseline %u\n", x, y);
        leave_case("reading", t->bytes, t->length, NULL, 0);
    }
    return x % ANSWERS;
}

static uint32_t differ_evaluate(const uint32_t *words, const uint32_t *numbers, size_t count, size_t rows_length)
{
    static uint32_t rows[MOST_ROWS], other[MOST_ROWS];
    uint32_t rows_count = 99, other_count = 98;
    uint32_t x = message_book_evaluate(words, MESSAGE_BOOK_WORDS, numbers, count, rows, rows_length, &rows_count);
    uint32_t y = baseline_evaluate(words, MESSAGE_BOOK_WORDS, numbers, count, other, rows_length, &other_count);
    if (x != y || rows_count != other_count || memcmp(rows, other, 4 * rows_length) != 0) {
        printf("evaluating: engine %u, %u rows, baseline %u, %u rows\n", x, rows_count, y, other_count);
        leave_case("evaluating", words, 4 * MESSAGE_BOOK_WORDS, numbers, count);
    }
    return x % ANSWERS;
}

static uint32_t differ_text(const struct text *t)
{
    static uint32_t words[MESSAGE_BOOK_WORDS];
    return differ_read(t, words);
}

/* Every cut, or every `step`th. */
static void cuts(unsigned book, size_t step)
{
    static struct text t;
    struct tally tally = {{0}};
    t = BOOK[book];
    for (t.length = 0; t.length < BOOK[book].length; t.length += step)
        tally.times[differ_text(&t)]++;
    print_tally("cuts", NAMES[book], &tally);
}

/* Every byte changed to every other, or every `step`th of these changes. */
static void changes(unsigned book, size_t step)
{
    static struct text t;
    struct tally tally = {{0}};
    t = BOOK[book];
    for (size_t change = 0; change < 255 * t.length; change += step) {
        size_t at = change / 255;
        uint8_t old = t.bytes[at];
        t.bytes[at] = (uint8_t)(old + 1 + change % 255);
        tally.times[differ_text(&t)]++;
        t.bytes[at] = old;
    }
    print_tally("one-byte changes", NAMES[book], &tally);
}

/* Tokens of a book's terminals, now and then another; sometimes a message with some tokens changed. */
static size_t some_tokens(struct dice *d, unsigned book, uint32_t *numbers)
{
    size_t count = below(d, below(d, 4) == 0 ? MOST_NUMBERS : 24);
    if (below(d, 3) > 0) {
        count = MESSAGE[book].length;
        memcpy(numbers, MESSAGE[book].number, sizeof MESSAGE[book].number);
        count -= below(d, 3) == 0 ? below(d, count + 1) : 0;
    } else {
        for (size_t i = 0; i < count; i++)
            numbers[i] = (uint32_t)(1 + below(d, 10));
    }
    for (size_t times = below(d, 4); times > 0 && count > 0; times--)
        numbers[below(d, count)] = below(d, 8) == 0 ? (uint32_t)roll(d) : (uint32_t)below(d, 32);
    return count;
}

/* A changed book; if it is taken, it evaluates messages of the book that it was. */
static void random_edits(struct dice *d, struct tally *reading, struct tally *evaluating)
{
    static struct text t;
    static uint32_t words[MESSAGE_BOOK_WORDS], numbers[MOST_NUMBERS];
    unsigned book = (unsigned)below(d, below(d, 8) == 0 ? BOOKS : 2);
    t = BOOK[book];
    edit(d, &t);
    uint32_t answer = differ_read(&t, words);
    reading->times[answer]++;
    for (int i = 0; i < 4 && answer == 0; i++) {
        size_t count = some_tokens(d, book, numbers);
        evaluating->times[differ_evaluate(words, numbers, count, MESSAGE_BOOK_ROW_WORDS)]++;
    }
}

static void random_messages(struct dice *d, struct tally *tally)
{
    static uint32_t words[MESSAGE_BOOK_WORDS], numbers[MOST_NUMBERS];
    unsigned book = (unsigned)below(d, below(d, 8) == 0 ? BOOKS : 2);
    differ_read(&BOOK[book], words);
    for (int i = 0; i < 8; i++) {
        size_t count = some_tokens(d, book, numbers);
        size_t rows = below(d, 16) == 0 ? below(d, MOST_ROWS) : MESSAGE_BOOK_ROW_WORDS;
        tally->times[differ_evaluate(words, numbers, count, rows)]++;
    }
}

/* Stored words with some of them changed, or nothing but random words. */
static void random_words(struct dice *d, struct tally *tally)
{
    static uint32_t words[MESSAGE_BOOK_WORDS], numbers[MOST_NUMBERS];
    unsigned book = (unsigned)below(d, 2);
    differ_read(&BOOK[book], words);
    size_t among = below(d, 2) == 0 ? MESSAGE_BOOK_WORDS : BOOK[book].length / 4 + 2;
    for (size_t times = below(d, 32) == 0 ? MESSAGE_BOOK_WORDS : 1 + below(d, 2); times > 0; times--)
        words[below(d, among)] ^= below(d, 2) == 0 ? (uint32_t)roll(d) : 1u << below(d, 32);
    size_t count = some_tokens(d, book, numbers);
    tally->times[differ_evaluate(words, numbers, count, MESSAGE_BOOK_ROW_WORDS)]++;
}

static void random_bytes(struct dice *d, struct tally *tally)
{
    static struct text t;
    bool any = below(d, 2) == 0;
    t.length = below(d, below(d, 16) == 0 ? sizeof t.bytes : 64);
    for (size_t i = 0; i < t.length; i++)
        t.bytes[i] = any ? (uint8_t)roll(d) : some_byte(d);
    tally->times[differ_text(&t)]++;
}

static void random_runs(unsigned seconds, uint64_t seed)
{
    struct dice d = {seed};
    struct tally edits = {{0}}, edited = {{0}}, messages = {{0}}, words = {{0}}, bytes = {{0}};
    for (time_t end = time(NULL) + (time_t)seconds; time(NULL) < end;) {
        for (int i = 0; i < 8; i++)
            random_edits(&d, &edits, &edited);
        random_messages(&d, &messages);
        random_words(&d, &words);
        random_bytes(&d, &bytes);
    }
    print_tally("random changes", "books", &edits);
    print_tally("messages", "changed books", &edited);
    print_tally("messages", "books", &messages);
    print_tally("random words", "", &words);
    print_tally("random bytes", "", &bytes);
}

static void load_books(const char *directory)
{
    char path[512];
    for (unsigned i = 0; i < BOOKS; i++) {
        snprintf(path, sizeof path, "%s/%s.book", directory, NAMES[i]);
        load_text(&BOOK[i], path);
        snprintf(path, sizeof path, "%s/%s.short.tokens", directory, NAMES[i]);
        load_tokens(&MESSAGE[i], path);
    }
}

int main(int argc, char **argv)
{
    if (argc < 2 || argc > 4) {
        fputs("usage: differ DIRECTORY [SECONDS [SEED]]\n", stderr);
        return 2;
    }
    load_books(argv[1]);
    cuts(0, 1);
    cuts(1, 1);
    cuts(2, 61);
    cuts(3, 997);
    changes(0, 1);
    changes(1, 17);
    changes(2, 997);
    changes(3, 19997);
    changes(4, 19997);
    random_runs(argc > 2 ? (unsigned)atoi(argv[2]) : 10, argc > 3 ? strtoull(argv[3], NULL, 10) : 1);
    puts("no disagreement");
    return 0;
}
