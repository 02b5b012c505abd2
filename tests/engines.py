"""Engines under test: the desk program, or the two calls in a shared library, both with the desk program's input and output."""

import ctypes
import subprocess
from array import array

from oracle.answer import cut, printed
from oracle.spelling import Misspelt, read_tokens

WORDS, ROW_WORDS = 16384, 5120
GARBAGE = 0xA5A5A5A5


def add_options(parser):
    """The options that name an engine."""
    parser.add_argument("--desk", help="the desk program")
    parser.add_argument("--library", help="a shared library with the two calls")
    parser.add_argument("--prefix", default="message_book", help="what the names of the calls begin with")


def engine_of(options):
    """The engine that the options name, or None."""
    if options.library:
        return Library(options.library, options.prefix)
    return Desk(options.desk) if options.desk else None


class Desk:
    """The desk program."""

    def __init__(self, program):
        self.program = program

    def desk(self, whole):
        """Input to output."""
        return subprocess.run([self.program], input=whole, capture_output=True, check=False).stdout


def address(words):
    """Where an array of words lies; not NULL, also where it is empty."""
    return ctypes.c_void_p(words.buffer_info()[0] or 64)


class Library:
    """Reading and evaluating, called as C does (include/message_book.h). Lent results hold garbage before each call."""

    def __init__(self, path, prefix):
        library = ctypes.CDLL(path)
        self.read_call = getattr(library, prefix + "_read")
        self.evaluate_call = getattr(library, prefix + "_evaluate")
        self.read_call.restype = self.evaluate_call.restype = ctypes.c_uint32

    def lent(self, length):
        """A buffer of garbage with one word more, which must stay as it is."""
        return array("I", [GARBAGE]) * (length + 1)

    def taken_back(self, buffer):
        """The words of a buffer."""
        if buffer.pop() != GARBAGE:
            raise AssertionError("a word behind the lent buffer was changed")
        return buffer.tolist()

    def read(self, text, words_length):
        """As oracle.calls.read."""
        words = self.lent(words_length)
        number = self.read_call(text, ctypes.c_size_t(len(text)), address(words), ctypes.c_size_t(words_length))
        return number, self.taken_back(words)

    def evaluate(self, words, numbers, rows_length):
        """As oracle.calls.evaluate."""
        stored, tokens, rows, count = array("I", words), array("I", numbers), self.lent(rows_length), ctypes.c_uint32(GARBAGE)
        given = [part for words in (stored, tokens) for part in (address(words), ctypes.c_size_t(len(words)))]
        number = self.evaluate_call(*given, address(rows), ctypes.c_size_t(rows_length), ctypes.byref(count))
        return number, count.value, self.taken_back(rows)

    def desk(self, whole):
        """Input to output, by the two calls."""
        text, rest = cut(whole)
        number, words = self.read(text, WORDS)
        try:
            tokens = read_tokens(rest.decode("latin-1"))
        except Misspelt:
            number = 1 if number == 1 else 2
        if number:
            return printed(number, [])
        number, count, rows = self.evaluate(words, [word for token in tokens for word in token], ROW_WORDS)
        return printed(number, [rows[10 * place : 10 * place + 10] for place in range(count)])
