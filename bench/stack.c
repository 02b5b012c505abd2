/*
 * How much stack the two calls need: they run in a thread whose stack is filled beforehand, and what is changed counts.
 *
 *     stack DIRECTORY
 *
 * Exit codes: 0 no call needs more than MESSAGE_BOOK_STACK bytes, 1 one does, 2 usage or files.
 */
#include "baseline.h"
#include "files.h"
#include "message_book.h"
#include <pthread.h>
#include <string.h>
#include <sys/mman.h>

enum { STACK = 4 << 20, FILLER = 0xa5 };

struct engine {
    const char *name;
    uint32_t (*read)(const uint8_t *, size_t, uint32_t *, size_t);
    uint32_t (*evaluate)(const uint32_t *, size_t, const uint32_t *, size_t, uint32_t *, size_t, uint32_t *);
};

static const struct engine ENGINES[] = {{"engine", message_book_read, message_book_evaluate},
                                        {"baseline", baseline_read, baseline_evaluate}};

static struct text text;
static struct tokens tokens;
static uint32_t words[MESSAGE_BOOK_WORDS], rows[MESSAGE_BOOK_ROW_WORDS], count;

static void *do_nothing(void *engine)
{
    return engine;
}

static void *do_read(void *engine)
{
    ((const struct engine *)engine)->read(text.bytes, text.length, words, MESSAGE_BOOK_WORDS);
    return NULL;
}

static void *do_evaluate(void *engine)
{
    ((const struct engine *)engine)
        ->evaluate(words, MESSAGE_BOOK_WORDS, tokens.number, tokens.length, rows, MESSAGE_BOOK_ROW_WORDS, &count);
    return NULL;
}

/* The bytes of a stack from the lowest one that is changed to its end. */
static size_t used(const uint8_t *stack)
{
    size_t untouched = 0;
    while (untouched < STACK && stack[untouched] == FILLER)
        untouched++;
    return STACK - untouched;
}

static size_t stack_of(void *(*work)(void *), const struct engine *engine)
{
    pthread_t thread;
    pthread_attr_t attributes;
    uint8_t *stack = mmap(NULL, STACK, PROT_READ | PROT_WRITE, MAP_PRIVATE | MAP_ANONYMOUS, -1, 0);
    if (stack == MAP_FAILED)
        exit(2);
    memset(stack, FILLER, STACK);
    pthread_attr_init(&attributes);
    if (pthread_attr_setstack(&attributes, stack, STACK) != 0 ||
        pthread_create(&thread, &attributes, work, (void *)(uintptr_t)engine) != 0)
        exit(2);
    pthread_join(thread, NULL);
    size_t bytes = used(stack);
    munmap(stack, STACK);
    return bytes;
}

/* Largest use over the books, without what a thread itself needs. */
static bool measure(const char *directory, const struct engine *engine)
{
    static const char *const names[] = {"s", "middle", "states", "limits", "formulas"};
    size_t thread = stack_of(do_nothing, engine), reading = 0, evaluating = 0;
    for (size_t i = 0; i < sizeof names / sizeof names[0]; i++) {
        char path[512];
        snprintf(path, sizeof path, "%s/%s.book", directory, names[i]);
        load_text(&text, path);
        snprintf(path, sizeof path, "%s/%s.short.tokens", directory, names[i]);
        load_tokens(&tokens, path);
        size_t r = stack_of(do_read, engine) - thread, e = stack_of(do_evaluate, engine) - thread;
        reading = r > reading ? r : reading;
        evaluating = e > evaluating ? e : evaluating;
    }
    printf("%-10s reading %7zu bytes of stack, evaluating %7zu, allowed %d\n", engine->name, reading, evaluating,
           MESSAGE_BOOK_STACK);
    return reading <= MESSAGE_BOOK_STACK && evaluating <= MESSAGE_BOOK_STACK;
}

int main(int argc, char **argv)
{
    if (argc != 2) {
        fputs("usage: stack DIRECTORY\n", stderr);
        return 2;
    }
    bool fine = measure(argv[1], &ENGINES[0]);
    fine = measure(argv[1], &ENGINES[1]) && fine;
    return fine ? 0 : 1;
}
