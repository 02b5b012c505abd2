/*
 * A second engine with the calls of message_book.h, in plain C: the baseline of the benchmark and the other side of the
 * differential runs. It shares no code with the proved engine. Same arguments, same answers, same words.
 */
#ifndef BASELINE_H
#define BASELINE_H

#include <stddef.h>
#include <stdint.h>

uint32_t baseline_read(const uint8_t *text, size_t text_length, uint32_t *words, size_t words_length);

uint32_t baseline_evaluate(const uint32_t *words, size_t words_length, const uint32_t *tokens, size_t tokens_length,
                           uint32_t *rows, size_t rows_length, uint32_t *count);

#endif
