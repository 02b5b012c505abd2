/*
 * The benchmark: reading and evaluating, the engine and the baseline in one run, turn by turn.
 *
 *     bench DIRECTORY [ROUNDS]
 *
 * For each case both engines are called in turn, ROUNDS times in short batches; the figures are the medians of the
 * batches, in nanoseconds a call, and the median of the ratios of a round, whose two batches a machine runs at about
 * the same speed.
 */
#include "baseline.h"
#include "files.h"
#include "message_book.h"
#include <string.h>
#include <time.h>

enum { MOST_ROUNDS = 9999 };

struct engine {
    uint32_t (*read)(const uint8_t *, size_t, uint32_t *, size_t);
    uint32_t (*evaluate)(const uint32_t *, size_t, const uint32_t *, size_t, uint32_t *, size_t, uint32_t *);
};

static const struct engine OURS = {message_book_read, message_book_evaluate};
static const struct engine BASELINE = {baseline_read, baseline_evaluate};

/* What a case calls: reading of a text, or evaluating of a message where there are tokens. */
struct work {
    const struct text *text;
    const struct tokens *tokens;
    uint32_t words[MESSAGE_BOOK_WORDS];
    uint32_t rows[MESSAGE_BOOK_ROW_WORDS];
    uint32_t count;
};

static uint32_t call(const struct engine *engine, struct work *w)
{
    if (w->tokens == NULL)
        return engine->read(w->text->bytes, w->text->length, w->words, MESSAGE_BOOK_WORDS);
    return engine->evaluate(w->words, MESSAGE_BOOK_WORDS, w->tokens->number, w->tokens->length, w->rows,
                            MESSAGE_BOOK_ROW_WORDS, &w->count);
}

static double now(void)
{
    struct timespec t;
    clock_gettime(CLOCK_MONOTONIC, &t);
    return (double)t.tv_sec * 1e9 + (double)t.tv_nsec;
}

/* Nanoseconds a call, over a batch. */
static double batch(const struct engine *engine, struct work *w, unsigned calls)
{
    double start = now();
    for (unsigned i = 0; i < calls; i++)
        call(engine, w);
    return (now() - start) / calls;
}

static int compare(const void *x, const void *y)
{
    double a = *(const double *)x, b = *(const double *)y;
    return (a > b) - (a < b);
}

static double median(double *values, unsigned count)
{
    qsort(values, count, sizeof *values, compare);
    return values[count / 2];
}

static void measure(const char *name, const char *what, struct work *w, unsigned rounds)
{
    static double ours[MOST_ROUNDS], baseline[MOST_ROUNDS], ratio[MOST_ROUNDS];
    uint32_t answer = call(&OURS, w);
    if (answer != 0 || call(&BASELINE, w) != 0) {
        printf("%-10s %-16s refused %u\n", name, what, answer);
        exit(1);
    }
    double once = batch(&BASELINE, w, 3);
    unsigned calls = once > 50000 ? 1 : (unsigned)(50000 / once);
    for (unsigned i = 0; i < rounds; i++) {
        ours[i] = batch(&OURS, w, calls);
        baseline[i] = batch(&BASELINE, w, calls);
        ratio[i] = ours[i] / baseline[i];
    }
    printf("%-10s %-16s %10.0f %10.0f %7.2f\n", name, what, median(ours, rounds), median(baseline, rounds),
           median(ratio, rounds));
    fflush(stdout);
}

static void evaluate_message(const char *directory, const char *name, const char *message, struct work *w,
                             unsigned rounds)
{
    static struct tokens tokens;
    char path[512], what[64];
    snprintf(path, sizeof path, "%s/%s.%s.tokens", directory, name, message);
    load_tokens(&tokens, path);
    w->tokens = &tokens;
    call(&BASELINE, w);
    snprintf(what, sizeof what, "%zu tokens, %u rows", tokens.length / 2, w->count);
    measure(name, what, w, rounds);
}

static void run_book(const char *directory, const char *name, const char *const *messages, unsigned rounds)
{
    static struct text text;
    static struct work w;
    char path[512], what[64];
    snprintf(path, sizeof path, "%s/%s.book", directory, name);
    load_text(&text, path);
    w.text = &text;
    w.tokens = NULL;
    snprintf(what, sizeof what, "read %zu bytes", text.length);
    measure(name, what, &w, rounds);
    for (; *messages != NULL; messages++)
        evaluate_message(directory, name, *messages, &w, rounds);
}

int main(int argc, char **argv)
{
    static const char *const both[] = {"short", "long", NULL}, *const one[] = {"short", NULL};
    unsigned rounds = argc > 2 ? (unsigned)atoi(argv[2]) : 401;
    if (argc < 2 || rounds == 0 || rounds > MOST_ROUNDS) {
        fprintf(stderr, "usage: bench DIRECTORY [ROUNDS, at most %d]\n", MOST_ROUNDS);
        return 2;
    }
    printf("%-10s %-16s %10s %10s %7s\n", "book", "call", "engine ns", "base ns", "ratio");
    run_book(argv[1], "s", both, rounds);
    run_book(argv[1], "orchard", both, rounds);
    run_book(argv[1], "middle", both, rounds);
    run_book(argv[1], "states", both, rounds);
    run_book(argv[1], "limits", both, rounds);
    run_book(argv[1], "formulas", one, rounds);
    return 0;
}
