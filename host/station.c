/*
 * A base station's host program: stores books, evaluates messages, prints their figures. See usage() for its commands.
 *
 * A stored book is a file of 65,536 bytes: the 16,384 words that message_book_read fills, each lowest byte first.
 * A message is a line of numbers with spaces between, a kind and a value for each token. An empty line is the message
 * without tokens; a line that begins with # is passed over.
 *
 * Exit codes: 0 all was taken, 1 the engine refused something or a line is no message, 2 wrong usage, 3 a file could
 * not be read or written, or a stored book has another length than it must.
 */
#include "message_book.h"
#include "refusals.h"
#include <errno.h>
#include <stdbool.h>
#include <stdio.h>
#include <stdlib.h>
#include <string.h>

enum exit_code { FINE = 0, REFUSED = 1, USAGE = 2, FILES = 3 };

enum { STORED_BYTES = 4 * MESSAGE_BOOK_WORDS };

static int usage(FILE *out)
{
    fputs("usage:\n"
          "  station store BOOK STORED             check the text of a book and store it\n"
          "  station evaluate STORED [MESSAGES]    evaluate messages, one a line, from a file or from standard input\n"
          "  station refusals                      what the refusal numbers mean\n"
          "\n"
          "A message is a line of numbers, a kind and a value for each token: 1 100 2 5 2 7\n"
          "STORED is a file of 65536 bytes; of another length, it is not used.\n"
          "Exit codes: 0 all taken, 1 something refused, 2 usage, 3 files\n",
          out);
    return out == stdout ? FINE : USAGE;
}

static int file_trouble(const char *path)
{
    fprintf(stderr, "station: %s: %s\n", path, strerror(errno));
    return FILES;
}

static int wrong_length(const char *path, size_t length)
{
    fprintf(stderr, "station: %s: no stored book: it has %zu bytes and should have %d\n", path, length, STORED_BYTES);
    return FILES;
}

/* The next byte, or EOF. A read that a signal interrupts is tried again. */
static int read_byte(FILE *in)
{
    int byte = getc(in);
    while (byte == EOF && ferror(in) && errno == EINTR) {
        clearerr(in);
        byte = getc(in);
    }
    return byte;
}

/* The first `room` bytes of a file, and how many it has; whether it could be read. */
static bool load(const char *path, uint8_t *bytes, size_t room, size_t *length)
{
    FILE *file = fopen(path, "rb");
    if (file == NULL)
        return false;
    *length = 0;
    for (int byte; (byte = read_byte(file)) != EOF; ++*length)
        if (*length < room)
            bytes[*length] = (uint8_t)byte;
    bool fine = ferror(file) == 0;
    return fclose(file) == 0 && fine;
}

/* The words of a stored book as bytes, lowest first, and back. */
static void to_bytes(const uint32_t *words, uint8_t *bytes)
{
    for (size_t i = 0; i < STORED_BYTES; i++)
        bytes[i] = (uint8_t)(words[i / 4] >> 8 * (i % 4));
}

static void to_words(const uint8_t *bytes, uint32_t *words)
{
    memset(words, 0, STORED_BYTES);
    for (size_t i = 0; i < STORED_BYTES; i++)
        words[i / 4] |= (uint32_t)bytes[i] << 8 * (i % 4);
}

static bool save(const char *path, const uint32_t *words)
{
    static uint8_t bytes[STORED_BYTES];
    to_bytes(words, bytes);
    FILE *file = fopen(path, "wb");
    if (file == NULL)
        return false;
    bool fine = fwrite(bytes, 1, sizeof bytes, file) == sizeof bytes;
    return fclose(file) == 0 && fine;
}

/* Of a text that is too long, the engine is given one byte more than a text may have: it refuses that. */
static int store(const char *book, const char *stored)
{
    static uint8_t text[MESSAGE_BOOK_TEXT_BYTES + 1];
    static uint32_t words[MESSAGE_BOOK_WORDS];
    size_t length;
    if (!load(book, text, sizeof text, &length))
        return file_trouble(book);
    size_t given = length < sizeof text ? length : sizeof text;
    uint32_t answer = message_book_read(text, given, words, MESSAGE_BOOK_WORDS);
    if (answer != MESSAGE_BOOK_TAKEN) {
        printf("%s: refused (%u): %s\n", book, answer, refusal_in_words(answer));
        return REFUSED;
    }
    if (!save(stored, words))
        return file_trouble(stored);
    printf("%s: taken, %zu bytes\n", book, length);
    return FINE;
}

/* A message as it is read: its numbers, with room for two more than a message may have. */
struct message {
    size_t length;
    uint32_t number[MESSAGE_BOOK_TOKEN_NUMBERS + 2];
};

enum line { MESSAGE, COMMENT, GARBLED, NO_LINE };

static int next_byte(FILE *in)
{
    int byte = read_byte(in);
    return byte == '\r' ? ' ' : byte;
}

static void skip_line(FILE *in, int byte)
{
    while (byte != '\n' && byte != EOF)
        byte = read_byte(in);
}

/* A number that begins with `byte`; hands back the byte behind it. */
static int read_number(FILE *in, int byte, uint64_t *number)
{
    *number = 0;
    while (byte >= '0' && byte <= '9') {
        if (*number <= UINT32_MAX)
            *number = 10 * *number + (uint64_t)(byte - '0');
        byte = next_byte(in);
    }
    return byte;
}

/* Numbers past the room are counted as two more than a message may have: the engine refuses them. */
static void put_number(struct message *m, uint32_t number)
{
    if (m->length < sizeof m->number / sizeof m->number[0])
        m->number[m->length++] = number;
}

/* A message that cannot be read to its end is none. */
static enum line read_message(FILE *in, struct message *m)
{
    int byte = next_byte(in);
    m->length = 0;
    if (byte == EOF)
        return NO_LINE;
    if (byte == '#') {
        skip_line(in, byte);
        return COMMENT;
    }
    while (byte != '\n' && byte != EOF) {
        uint64_t number;
        if (byte == ' ' || byte == '\t') {
            byte = next_byte(in);
            continue;
        }
        bool digit = byte >= '0' && byte <= '9';
        byte = read_number(in, byte, &number);
        if (!digit || number > UINT32_MAX) {
            skip_line(in, byte);
            return GARBLED;
        }
        put_number(m, (uint32_t)number);
    }
    return byte == EOF && ferror(in) ? NO_LINE : MESSAGE;
}

/* Four values, with spaces between, in `text`. */
static const char *four(char text[64], const uint32_t *value)
{
    snprintf(text, 64, "%u %u %u %u", value[0], value[1], value[2], value[3]);
    return text;
}

static void print_row(unsigned place, const uint32_t *row)
{
    char inherited[64], synthesized[64];
    uint32_t kind = row[MESSAGE_BOOK_ROW_KIND], start = row[MESSAGE_BOOK_ROW_START];
    if (kind >= MESSAGE_BOOK_ROW_TOKEN)
        printf("  %4u  token %-4u %5u  %-22s  %u\n", place, kind - MESSAGE_BOOK_ROW_TOKEN, start, "",
               row[MESSAGE_BOOK_ROW_SYNTHESIZED]);
    else
        printf("  %4u  rule  %-4u %5u  %-22s  %s\n", place, kind, start,
               four(inherited, row + MESSAGE_BOOK_ROW_INHERITED),
               four(synthesized, row + MESSAGE_BOOK_ROW_SYNTHESIZED));
}

/* The last row is the whole message: its synthesized values are the message's figures. */
static void print_rows(unsigned line, const struct message *m, const uint32_t *rows, uint32_t count)
{
    char figures[64];
    const uint32_t *last = rows + (size_t)(count > 0 ? count - 1 : 0) * MESSAGE_BOOK_ROW;
    printf("line %u: %zu tokens, %u rows, figures %s\n", line, m->length / 2, count,
           four(figures, last + MESSAGE_BOOK_ROW_SYNTHESIZED));
    printf("  %4s  %-10s %5s  %-22s  %s\n", "row", "node", "start", "inherited", "synthesized");
    for (uint32_t i = 0; i < count; i++)
        print_row(i, rows + (size_t)i * MESSAGE_BOOK_ROW);
}

static int evaluate_message(unsigned line, const uint32_t *words, const struct message *m)
{
    static uint32_t rows[MESSAGE_BOOK_ROW_WORDS];
    uint32_t count;
    uint32_t answer =
        message_book_evaluate(words, MESSAGE_BOOK_WORDS, m->number, m->length, rows, MESSAGE_BOOK_ROW_WORDS, &count);
    if (answer != MESSAGE_BOOK_TAKEN) {
        printf("line %u: refused (%u): %s\n", line, answer, refusal_in_words(answer));
        return REFUSED;
    }
    print_rows(line, m, rows, count);
    return FINE;
}

static int evaluate_lines(FILE *in, const char *path, const uint32_t *words)
{
    static struct message m;
    int code = FINE;
    enum line line;
    for (unsigned number = 1; (line = read_message(in, &m)) != NO_LINE; number++) {
        if (line == GARBLED) {
            printf("line %u: no message: a line has numbers up to 4294967295 and spaces\n", number);
            code = REFUSED;
        } else if (line == MESSAGE && evaluate_message(number, words, &m) != FINE) {
            code = REFUSED;
        }
    }
    return ferror(in) ? file_trouble(path) : code;
}

static int evaluate(const char *stored, const char *messages)
{
    static uint8_t bytes[STORED_BYTES];
    static uint32_t words[MESSAGE_BOOK_WORDS];
    size_t length;
    if (!load(stored, bytes, sizeof bytes, &length))
        return file_trouble(stored);
    if (length != sizeof bytes)
        return wrong_length(stored, length);
    to_words(bytes, words);
    FILE *in = messages == NULL ? stdin : fopen(messages, "rb");
    if (in == NULL)
        return file_trouble(messages);
    int code = evaluate_lines(in, messages == NULL ? "standard input" : messages, words);
    if (messages != NULL)
        fclose(in);
    return code;
}

static int list_refusals(void)
{
    for (uint32_t number = 1; number <= MESSAGE_BOOK_TOO_DEEP; number++)
        printf("%2u  %s\n", number, refusal_in_words(number));
    return FINE;
}

static int run(int argc, char **argv)
{
    const char *command = argc > 1 ? argv[1] : "";
    if (strcmp(command, "store") == 0 && argc == 4)
        return store(argv[2], argv[3]);
    if (strcmp(command, "evaluate") == 0 && (argc == 3 || argc == 4))
        return evaluate(argv[2], argc == 4 ? argv[3] : NULL);
    if (strcmp(command, "refusals") == 0 && argc == 2)
        return list_refusals();
    return usage(strcmp(command, "help") == 0 ? stdout : stderr);
}

/* Figures that cannot be written are told too. */
int main(int argc, char **argv)
{
    int code = run(argc, argv);
    return fflush(stdout) != 0 || ferror(stdout) ? file_trouble("standard output") : code;
}
