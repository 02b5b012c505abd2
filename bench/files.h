/* Files of the benchmark and of the differential runs: books, and messages as (tok kind value) lines. */
#ifndef BENCH_FILES_H
#define BENCH_FILES_H

#include "message_book.h"
#include <inttypes.h>
#include <stdbool.h>
#include <stdio.h>
#include <stdlib.h>

struct text {
    size_t length;
    uint8_t bytes[MESSAGE_BOOK_TEXT_BYTES];
};

struct tokens {
    size_t length; /* numbers, two for each token */
    uint32_t number[MESSAGE_BOOK_TOKEN_NUMBERS];
};

static inline FILE *open_file(const char *path)
{
    FILE *file = fopen(path, "rb");
    if (file == NULL) {
        perror(path);
        exit(2);
    }
    return file;
}

static inline void load_text(struct text *text, const char *path)
{
    FILE *file = open_file(path);
    text->length = fread(text->bytes, 1, sizeof text->bytes, file);
    fclose(file);
}

static inline void load_tokens(struct tokens *tokens, const char *path)
{
    FILE *file = open_file(path);
    uint32_t kind, value;
    tokens->length = 0;
    while (tokens->length < MESSAGE_BOOK_TOKEN_NUMBERS &&
           fscanf(file, " (tok %" SCNu32 " %" SCNu32 ")", &kind, &value) == 2) {
        tokens->number[tokens->length++] = kind;
        tokens->number[tokens->length++] = value;
    }
    fclose(file);
}

#endif
