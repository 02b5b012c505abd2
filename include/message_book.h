/*
 * The message book engine, as C sees it: two calls.
 *
 *     message_book_read       the text of a book  ->  the words of a stored book
 *     message_book_evaluate   stored words and a token list  ->  rows
 *
 * Both answer 0 where the book is taken or the message accepted, and otherwise the number of the first condition that
 * is broken (enum message_book_refusal). On a refusal every lent result word is 0, and so is the row count. Nothing
 * that is handed in is trusted: any bytes, any words, any tokens and any lengths are answered, in bounded time.
 *
 * Rules for callers
 *
 * - A length counts elements: bytes of a text, 32-bit words of everything else.
 * - No pointer is NULL, also where its length is 0. Word pointers are aligned as uint32_t is (4 bytes); a text may lie
 *   anywhere. Each pointer stands for as many readable (or, for results, writable) elements as the length says; nothing
 *   outside of them is touched.
 * - A result (words of a reading, rows and count of an evaluation) overlaps no other argument.
 * - The calls keep nothing between them and share nothing: no static data is written, no heap is used, no file, no
 * lock, no errno. They may run in any number of threads at once, each with its own results, and in a signal handler
 * that has the stack for it.
 * - A call needs at most MESSAGE_BOOK_STACK bytes of stack.
 * - Stored words may be kept in a file or in flash and handed to another machine: word i holds bytes 4i to 4i + 3 of
 * the book's text, lowest byte in the lowest bits, and zeros after the text. Written lowest byte first, the file begins
 *   with the text itself.
 */
#ifndef MESSAGE_BOOK_H
#define MESSAGE_BOOK_H

#include <stddef.h>
#include <stdint.h>

#ifdef __cplusplus
extern "C" {
#endif

#define MESSAGE_BOOK_TEXT_BYTES 65536  /* the longest text of a book */
#define MESSAGE_BOOK_WORDS 16384       /* words of a stored book, always all of them */
#define MESSAGE_BOOK_ROW_WORDS 5120    /* row words of an evaluation, always all of them */
#define MESSAGE_BOOK_TOKEN_NUMBERS 510 /* most token numbers: a kind and a value for each of 255 tokens */
#define MESSAGE_BOOK_ROWS 512          /* most rows of a message */
#define MESSAGE_BOOK_ROW 10            /* words of one row */
#define MESSAGE_BOOK_STACK 524288      /* stack that a call may need, in bytes */

/* The words of a row, by place. */
enum message_book_row {
    MESSAGE_BOOK_ROW_KIND = 0,        /* the rule's number, or MESSAGE_BOOK_ROW_TOKEN plus the terminal's */
    MESSAGE_BOOK_ROW_START = 1,       /* how many tokens stand before the first one below this node */
    MESSAGE_BOOK_ROW_INHERITED = 2,   /* 4 words: the left side's inherited values in order, then zeros */
    MESSAGE_BOOK_ROW_SYNTHESIZED = 6, /* 4 words: the left side's synthesized values (a token: its value), then zeros */
    MESSAGE_BOOK_ROW_TOKEN = 64       /* added to the terminal's number in the row of a token */
};

/* The answers. 1 to 10 are said by reading, 11 to 17 by evaluating; the lowest that applies is said. */
enum message_book_refusal {
    MESSAGE_BOOK_TAKEN = 0,       /* the book is taken, the message accepted */
    MESSAGE_BOOK_LENGTHS = 1,     /* the text is longer than 65,536 bytes, or the result is not 16,384 words */
    MESSAGE_BOOK_SPELLING = 2,    /* spelling, order of the kinds, order of the lines */
    MESSAGE_BOOK_LIMIT = 3,       /* a limit: terminals, states, attributes, rules, definitions, nodes, lines */
    MESSAGE_BOOK_NAME = 4,        /* a name, rule, position or state that is not declared, or not allowed there */
    MESSAGE_BOOK_ATTRIBUTE = 5,   /* an attribute that its symbol has not, or a value that is not to the left */
    MESSAGE_BOOK_UNDEFINED = 6,   /* a rule leaves an attribute without definition */
    MESSAGE_BOOK_KERNEL = 7,      /* the kernel of a state is not as it must be */
    MESSAGE_BOOK_GO = 8,          /* the go lines do not agree with the items */
    MESSAGE_BOOK_CONFLICT = 9,    /* two different actions for one state and terminal */
    MESSAGE_BOOK_FORMULAS = 10,   /* two formulas for one inherited attribute in a partial state */
    MESSAGE_BOOK_STORED = 11,     /* the words are not those of a taken book, or not 16,384 */
    MESSAGE_BOOK_ROW_LENGTH = 12, /* the rows are not 5,120 words */
    MESSAGE_BOOK_TOKENS = 13,     /* the token numbers are odd in number, or more than 510 */
    MESSAGE_BOOK_TOKEN_KIND = 14, /* a token's kind is 0, or over the book's number of terminals */
    MESSAGE_BOOK_NO_MESSAGE = 15, /* the tokens are no message of this book */
    MESSAGE_BOOK_TOO_MANY = 16,   /* a 513th row would be due */
    MESSAGE_BOOK_TOO_DEEP = 17    /* a 129th symbol would be due on the stack */
};

/*
 * Reads the text of a book. Where it is taken the answer is 0 and the words are the stored book; else the answer is 1
 * to 10 and every lent word is 0.
 */
uint32_t message_book_read(const uint8_t *text, size_t text_length, uint32_t *words, size_t words_length);

/*
 * Evaluates one message. tokens are pairs of a kind (1 to the book's number of terminals) and a value. Where the
 * message is accepted the answer is 0, *count the number of rows, and the rows stand one after the other, children
 * before their node, zeros after the last; else the answer is 11 to 17, *count is 0 and every lent row word is 0.
 */
uint32_t message_book_evaluate(const uint32_t *words, size_t words_length, const uint32_t *tokens, size_t tokens_length,
                               uint32_t *rows, size_t rows_length, uint32_t *count);

#ifdef __cplusplus
}
#endif

#endif
