/*
 * The two calls at their borders: wrong lengths, odd numbers of tokens, damaged words, nothing at all, one past the
 * limits. Every trial is run four times, with the lent memory at either fence (fence.h) and with two fillings, and must
 * come out the same: a result that is left unwritten shows. Sweeps over cut and changed texts and words run each trial
 * once and count the answers by number. The report is fixed by document 01; host/trials.expected has it.
 *
 * Exit codes: 0 the calls kept to their memory, 1 they did not or answered in two ways.
 */
#include "fence.h"
#include "message_book.h"

enum { MOST_TEXT = MESSAGE_BOOK_TEXT_BYTES + 1, MOST_WORDS = MESSAGE_BOOK_WORDS + 1 };
enum { MOST_NUMBERS = 600, MOST_ROWS = MESSAGE_BOOK_ROW_WORDS + 1 };

/* Document 01's S, and K with its states. */
static const char S[] =
    "(book 2 2 6)\n(inh i0 n2)\n(syn s0 n1)\n(syn s1 n2)\n(rule 0 n0 n1)\n(rule 1 n1 t1 n2)\n(rule 2 n2)\n"
    "(rule 3 n2 t2 n2)\n(inhdef 1 2 i0 (val 1))\n(inhdef 3 2 i0 (add (own i0) (val 1)))\n"
    "(syndef 1 s0 (at 2 s1))\n(syndef 2 s1 (own i0))\n(syndef 3 s1 (at 2 s1))\n(kernel 0 0 0 t0)\n"
    "(kernel 1 1 1 t0)\n(kernel 2 0 1 t0)\n(kernel 3 3 1 t0)\n(kernel 4 1 2 t0)\n(kernel 5 3 2 t0)\n"
    "(go 0 t1 1)\n(go 0 n1 2)\n(go 1 t2 3)\n(go 1 n2 4)\n(go 3 t2 3)\n(go 3 n2 5)\n(end)\n";
static const char K[] = "(book 1 2 5)\n(rule 0 n0 n1)\n(rule 1 n1 n1 n2)\n(rule 2 n1 n2)\n(rule 3 n2 t1)\n"
                        "(kernel 0 0 0 t0)\n(kernel 1 3 1 t0 t1)\n(kernel 2 0 1 t0)\n(kernel 2 1 1 t0 t1)\n"
                        "(kernel 3 2 1 t0 t1)\n(kernel 4 1 2 t0 t1)\n"
                        "(go 0 t1 1)\n(go 0 n1 2)\n(go 0 n2 3)\n(go 2 t1 1)\n(go 2 n2 4)\n(end)\n";

static bool kept = true; /* no trial went wrong so far */

/* What a trial showed: the answer, the row count, whether all result words are 0, and a sum over them. */
struct outcome {
    uint32_t answer, count;
    bool zeros;
    uint32_t sum;
};

static struct outcome outcome_of(uint32_t answer, uint32_t count, const struct fenced *result)
{
    struct outcome o = {answer, count, true, 2166136261u};
    for (size_t i = 0; i < result->length; i += 4) {
        uint32_t word;
        memcpy(&word, result->start + i, 4);
        o.zeros = o.zeros && word == 0;
        o.sum = (o.sum ^ word) * 16777619u;
    }
    return o;
}

static bool same_outcome(const struct outcome *x, const struct outcome *y)
{
    return x->answer == y->answer && x->count == y->count && x->sum == y->sum;
}

static void print_outcome(const char *name, const struct outcome *o)
{
    printf("%-46s %2u", name, o->answer);
    if (o->count > 0)
        printf(", %u rows", o->count);
    if (o->zeros)
        puts(", zeros");
    else
        printf(", sum %08x\n", o->sum);
}

/* A refusal leaves zeros, and no count. */
static void judge(const char *name, const struct outcome *o)
{
    if (o->answer == 0 || (o->zeros && o->count == 0))
        return;
    printf("%s: refused, but not all is zero\n", name);
    kept = false;
}

static void keep(const char *what, const struct fenced *f)
{
    if (unharmed(f))
        return;
    printf("%s: written outside of what was lent\n", what);
    kept = false;
}

static struct fenced lend_copy(const void *from, size_t length, int way)
{
    struct fenced f = fence(length, way % 2 == 0, way < 2 ? 0xa5 : 0x5a);
    memcpy(f.start, from, length);
    return f;
}

/* The way a sweep runs its trials: each in one of the four ways. */
static int next_way(void)
{
    static int way;
    return way = (way + 1) % 4;
}

static struct outcome read_once(const uint8_t *text, size_t text_length, size_t words_length, int way)
{
    struct fenced from = lend_copy(text, text_length, way);
    struct fenced to = fence(4 * words_length, way % 2 == 0, way < 2 ? 0xa5 : 0x5a);
    uint32_t answer = message_book_read(from.start, text_length, (uint32_t *)(void *)to.start, words_length);
    struct outcome o = outcome_of(answer, 0, &to);
    if (memcmp(from.start, text, text_length) != 0)
        kept = false;
    keep("text of a reading", &from);
    keep("words of a reading", &to);
    take_down(&from);
    take_down(&to);
    return o;
}

static void try_read(const char *name, const void *text, size_t text_length, size_t words_length)
{
    struct outcome first = read_once(text, text_length, words_length, 0);
    for (int way = 1; way < 4; way++) {
        struct outcome other = read_once(text, text_length, words_length, way);
        kept = kept && same_outcome(&first, &other);
    }
    judge(name, &first);
    print_outcome(name, &first);
}

/* What evaluating is given. */
struct question {
    uint32_t words[MOST_WORDS];
    size_t words_length;
    uint32_t tokens[MOST_NUMBERS];
    size_t tokens_length;
    size_t rows_length;
};

static struct outcome evaluate_once(const struct question *q, int way)
{
    struct fenced words = lend_copy(q->words, 4 * q->words_length, way);
    struct fenced tokens = lend_copy(q->tokens, 4 * q->tokens_length, way);
    struct fenced rows = fence(4 * q->rows_length, way % 2 == 0, way < 2 ? 0xa5 : 0x5a);
    struct fenced count = fence(4, way % 2 == 0, way < 2 ? 0xa5 : 0x5a);
    uint32_t answer = message_book_evaluate(
        (uint32_t *)(void *)words.start, q->words_length, (uint32_t *)(void *)tokens.start, q->tokens_length,
        (uint32_t *)(void *)rows.start, q->rows_length, (uint32_t *)(void *)count.start);
    struct outcome o = outcome_of(answer, 0, &rows);
    memcpy(&o.count, count.start, 4);
    if (memcmp(words.start, q->words, words.length) != 0 || memcmp(tokens.start, q->tokens, tokens.length) != 0)
        kept = false;
    keep("words of an evaluation", &words);
    keep("tokens of an evaluation", &tokens);
    keep("rows of an evaluation", &rows);
    keep("count of an evaluation", &count);
    take_down(&words);
    take_down(&tokens);
    take_down(&rows);
    take_down(&count);
    return o;
}

static void try_evaluate(const char *name, const struct question *q)
{
    struct outcome first = evaluate_once(q, 0);
    for (int way = 1; way < 4; way++) {
        struct outcome other = evaluate_once(q, way);
        kept = kept && same_outcome(&first, &other);
    }
    judge(name, &first);
    print_outcome(name, &first);
}

/* A question with a stored book, no tokens and rows as they must be. */
static void ask(struct question *q, const char *book)
{
    memset(q, 0, sizeof *q);
    q->words_length = MESSAGE_BOOK_WORDS;
    q->rows_length = MESSAGE_BOOK_ROW_WORDS;
    if (book != NULL && message_book_read((const uint8_t *)book, strlen(book), q->words, MESSAGE_BOOK_WORDS) != 0)
        kept = false;
}

static void put_tokens(struct question *q, size_t count, uint32_t kind, uint32_t value)
{
    for (; count > 0; count--) {
        q->tokens[q->tokens_length++] = kind;
        q->tokens[q->tokens_length++] = value;
    }
}

static void put_message(struct question *q)
{
    put_tokens(q, 1, 1, 100);
    put_tokens(q, 1, 2, 5);
    put_tokens(q, 1, 2, 7);
}

static void lengths_of_reading(void)
{
    static uint8_t long_text[MOST_TEXT];
    memset(long_text, ' ', sizeof long_text);
    try_read("read S", S, strlen(S), MESSAGE_BOOK_WORDS);
    try_read("read K", K, strlen(K), MESSAGE_BOOK_WORDS);
    try_read("read S into no words", S, strlen(S), 0);
    try_read("read S into 1 word", S, strlen(S), 1);
    try_read("read S into 16,383 words", S, strlen(S), MESSAGE_BOOK_WORDS - 1);
    try_read("read S into 16,385 words", S, strlen(S), MESSAGE_BOOK_WORDS + 1);
    try_read("read no text", S, 0, MESSAGE_BOOK_WORDS);
    try_read("read no text into no words", S, 0, 0);
    try_read("read 65,536 spaces", long_text, MESSAGE_BOOK_TEXT_BYTES, MESSAGE_BOOK_WORDS);
    try_read("read 65,537 spaces", long_text, MESSAGE_BOOK_TEXT_BYTES + 1, MESSAGE_BOOK_WORDS);
    try_read("read 65,537 spaces into 16,383 words", long_text, MESSAGE_BOOK_TEXT_BYTES + 1, MESSAGE_BOOK_WORDS - 1);
    try_read("read S and a zero byte", S, sizeof S, MESSAGE_BOOK_WORDS);
    try_read("read the end line alone", "(end)\n", 6, MESSAGE_BOOK_WORDS);
}

static void lengths_of_evaluating(void)
{
    static struct question q;
    ask(&q, S);
    put_message(&q);
    try_evaluate("evaluate 3 tokens", &q);
    for (size_t i = 0; i < 5; i++) {
        static const size_t wrong[] = {0, 1, 9, MESSAGE_BOOK_ROW_WORDS - 1, MESSAGE_BOOK_ROW_WORDS + 1};
        static const char *const name[] = {"evaluate into no row words", "evaluate into 1 row word",
                                           "evaluate into 9 row words", "evaluate into 5,119 row words",
                                           "evaluate into 5,121 row words"};
        q.rows_length = wrong[i];
        try_evaluate(name[i], &q);
    }
    for (size_t i = 0; i < 4; i++) {
        static const size_t wrong[] = {0, 1, MESSAGE_BOOK_WORDS - 1, MESSAGE_BOOK_WORDS + 1};
        static const char *const name[] = {"evaluate no words", "evaluate 1 word", "evaluate 16,383 words",
                                           "evaluate 16,385 words"};
        ask(&q, S);
        put_message(&q);
        q.words_length = wrong[i];
        try_evaluate(name[i], &q);
    }
}

static void numbers_of_tokens(void)
{
    static struct question q;
    ask(&q, S);
    try_evaluate("evaluate no tokens", &q);
    for (size_t length = 1; length < 8; length += 2) {
        static const char *const name[] = {"evaluate 1 number", "evaluate 3 numbers", "evaluate 5 numbers",
                                           "evaluate 7 numbers"};
        ask(&q, S);
        put_message(&q);
        put_tokens(&q, 1, 2, 9);
        q.tokens_length = length;
        try_evaluate(name[length / 2], &q);
    }
    for (size_t length = 510; length < 513; length++) {
        static const char *const name[] = {"evaluate 510 numbers", "evaluate 511 numbers", "evaluate 512 numbers"};
        ask(&q, S);
        put_tokens(&q, 256, 1, 1);
        q.tokens_length = length;
        try_evaluate(name[length - 510], &q);
    }
}

static void kinds_of_tokens(void)
{
    static struct question q;
    for (size_t i = 0; i < 4; i++) {
        static const uint32_t kind[] = {0, 3, 33, UINT32_MAX};
        static const char *const name[] = {"evaluate kind 0", "evaluate kind 3", "evaluate kind 33",
                                           "evaluate kind 4,294,967,295"};
        ask(&q, S);
        put_message(&q);
        put_tokens(&q, 1, kind[i], 1);
        try_evaluate(name[i], &q);
    }
}

static void limits_of_the_run(void)
{
    static struct question q;
    ask(&q, S);
    put_tokens(&q, 1, 1, 1);
    put_tokens(&q, 126, 2, UINT32_MAX);
    try_evaluate("evaluate S, t1 and 126 t2", &q);
    put_tokens(&q, 1, 2, 1);
    try_evaluate("evaluate S, t1 and 127 t2", &q);
    ask(&q, K);
    put_tokens(&q, 170, 1, 7);
    try_evaluate("evaluate K, 170 tokens", &q);
    put_tokens(&q, 1, 1, 7);
    try_evaluate("evaluate K, 171 tokens", &q);
}

/* Two and more conditions at once: the lowest number is answered. */
static void lowest_number_first(void)
{
    static struct question q;
    ask(&q, NULL);
    put_tokens(&q, 1, 0, 1);
    q.tokens_length = 1;
    q.rows_length = 7;
    try_evaluate("evaluate zeros, 7 row words, 1 number, kind 0", &q);
    ask(&q, S);
    put_tokens(&q, 1, 0, 1);
    q.tokens_length = 1;
    q.rows_length = 7;
    try_evaluate("evaluate S, 7 row words, 1 number, kind 0", &q);
    q.rows_length = MESSAGE_BOOK_ROW_WORDS;
    try_evaluate("evaluate S, 1 number, kind 0", &q);
    q.tokens_length = 2;
    try_evaluate("evaluate S, 2 numbers, kind 0", &q);
}

static void words_of_no_book(void)
{
    static struct question q;
    ask(&q, NULL);
    put_message(&q);
    try_evaluate("evaluate zeros", &q);
    memset(q.words, 0xff, 4 * MESSAGE_BOOK_WORDS);
    try_evaluate("evaluate ones", &q);
    memset(q.words, 0x28, 4 * MESSAGE_BOOK_WORDS);
    try_evaluate("evaluate brackets", &q);
}

/* How often each number is answered in a sweep. */
struct tally {
    unsigned times[18];
};

static void count_outcome(struct tally *t, const char *name, struct outcome o)
{
    judge(name, &o);
    t->times[o.answer % 18]++;
}

static void print_tally(const char *name, const struct tally *t)
{
    printf("%s:", name);
    for (unsigned number = 0; number < 18; number++)
        if (t->times[number] > 0)
            printf(" %u x %u", t->times[number], number);
    putchar('\n');
}

/* Bits of a stored book's text turned over, and a bit in words behind it. */
static void damaged_words(size_t step)
{
    static struct question q;
    struct tally in_text = {{0}}, behind = {{0}};
    ask(&q, S);
    put_message(&q);
    for (size_t bit = 0; bit < 8 * strlen(S); bit += step) {
        q.words[bit / 32] ^= 1u << bit % 32;
        count_outcome(&in_text, "words changed in the text", evaluate_once(&q, next_way()));
        q.words[bit / 32] ^= 1u << bit % 32;
    }
    for (size_t word = (strlen(S) + 3) / 4; word < MESSAGE_BOOK_WORDS; word += 13 * step) {
        q.words[word] = 1u << word % 32;
        count_outcome(&behind, "words changed behind the text", evaluate_once(&q, next_way()));
        q.words[word] = 0;
    }
    print_tally("words of S, a bit changed in the text", &in_text);
    print_tally("words of S, a bit changed behind the text", &behind);
}

/* Cuts and one-bit changes of S, read. */
static void damaged_texts(size_t step)
{
    static uint8_t text[sizeof S];
    struct tally cut = {{0}}, changed = {{0}};
    memcpy(text, S, sizeof S);
    for (size_t length = 0; length < strlen(S); length += step)
        count_outcome(&cut, "text cut", read_once(text, length, MESSAGE_BOOK_WORDS, next_way()));
    for (size_t bit = 0; bit < 8 * strlen(S); bit += step) {
        text[bit / 8] ^= (uint8_t)(1u << bit % 8);
        count_outcome(&changed, "text changed", read_once(text, strlen(S), MESSAGE_BOOK_WORDS, next_way()));
        text[bit / 8] ^= (uint8_t)(1u << bit % 8);
    }
    print_tally("text of S cut", &cut);
    print_tally("text of S, a bit changed", &changed);
}

/* A text as long as S is read and its number counted. So many are read that they share one lent result. */
static void count_text(struct tally *t, const char *name, const uint8_t *text)
{
    static uint32_t words[MESSAGE_BOOK_WORDS];
    static const uint32_t nothing[MESSAGE_BOOK_WORDS];
    memset(words, 0xa5, sizeof words);
    uint32_t answer = message_book_read(text, strlen(S), words, MESSAGE_BOOK_WORDS);
    count_outcome(t, name, (struct outcome){answer, 0, memcmp(words, nothing, sizeof words) == 0, 0});
}

/* S with another byte at one place: every byte at every place. */
static void changed_bytes(size_t step)
{
    static uint8_t text[sizeof S];
    struct tally changed = {{0}};
    memcpy(text, S, sizeof S);
    for (size_t change = 0; change < 255 * strlen(S); change += step) {
        size_t place = change / 255;
        text[place] = (uint8_t)((uint8_t)S[place] + 1 + change % 255);
        count_text(&changed, "byte changed", text);
        text[place] = (uint8_t)S[place];
    }
    print_tally("text of S, a byte changed", &changed);
}

/* The next digit, 0 after 9. */
static uint8_t raised(char digit)
{
    return digit == '9' ? '0' : (uint8_t)(digit + 1);
}

static bool is_digit(char byte)
{
    return byte >= '0' && byte <= '9';
}

/* S with two digits raised: every two. */
static void raised_digits(size_t step)
{
    static uint8_t text[sizeof S];
    struct tally pairs = {{0}};
    memcpy(text, S, sizeof S);
    for (size_t pair = 0; pair < strlen(S) * strlen(S); pair += step) {
        size_t one = pair / strlen(S), other = pair % strlen(S);
        if (other >= one || !is_digit(S[one]) || !is_digit(S[other]))
            continue;
        text[one] = raised(S[one]);
        text[other] = raised(S[other]);
        count_text(&pairs, "two digits raised", text);
        text[one] = (uint8_t)S[one];
        text[other] = (uint8_t)S[other];
    }
    print_tally("text of S, two digits raised", &pairs);
}

/* S up to a place, and then its bytes in an order that follows no rule. */
static void random_tails(size_t step)
{
    static uint8_t text[sizeof S];
    struct tally tails = {{0}};
    uint32_t seed = 1;
    for (size_t turn = 0; turn < 10000; turn += step) {
        memcpy(text, S, sizeof S);
        for (size_t place = turn % strlen(S); place < strlen(S); place++) {
            seed ^= seed << 13;
            seed ^= seed >> 17;
            seed ^= seed << 5;
            text[place] = (uint8_t)S[seed % strlen(S)];
        }
        count_text(&tails, "random tail", text);
    }
    print_tally("text of S, another tail", &tails);
}

int main(int argc, char **argv)
{
    size_t step = argc > 1 ? (size_t)atoi(argv[1]) : 1;
    if (step == 0)
        return 2;
    lengths_of_reading();
    lengths_of_evaluating();
    numbers_of_tokens();
    kinds_of_tokens();
    limits_of_the_run();
    lowest_number_first();
    words_of_no_book();
    damaged_words(step);
    damaged_texts(step);
    changed_bytes(step);
    raised_digits(step);
    random_tails(step);
    puts(kept ? "all calls kept to their memory" : "A CALL WENT WRONG");
    return kept ? 0 : 1;
}
