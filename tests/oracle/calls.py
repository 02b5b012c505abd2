"""What the engine's two calls must answer. The words of a stored book are its text, four bytes to a word, lowest byte first (docs/DECISIONS.md)."""

import struct

from .answer import LONGEST_TEXT, MOST_TOKENS, compiled, evaluated

WORDS = 16384
ROW_WORDS = 5120


def packed(text):
    """The words of a stored book."""
    return list(struct.unpack(f"<{WORDS}I", text.ljust(4 * WORDS, b"\0")))


def read(text, words_length):
    """The answer to a text and all words of the lent result."""
    number = 1 if len(text) > LONGEST_TEXT or words_length != WORDS else compiled(text)[0]
    return number, [0] * words_length if number else packed(text)


def evaluate(words, numbers, rows_length):
    """The answer to stored words and token numbers: the number, the row count, all words of the lent rows."""
    number, rows = answered(words, numbers, rows_length)
    flat = [word for row in rows for word in row]
    return number, len(rows), flat + [0] * (rows_length - len(flat))


def answered(words, numbers, rows_length):
    """The number and the rows."""
    text = struct.pack(f"<{len(words)}I", *words).rstrip(b"\0")
    if len(words) != WORDS or compiled(text)[0]:
        return 11, []
    if rows_length != ROW_WORDS:
        return 12, []
    if len(numbers) % 2 or len(numbers) > 2 * MOST_TOKENS:
        return 13, []
    return evaluated(text, list(zip(numbers[::2], numbers[1::2])))
