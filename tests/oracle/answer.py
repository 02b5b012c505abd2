"""What the desk program must print for an input, by demand 3 where there is a tree."""

import sys
from functools import lru_cache

from .conditions import check
from .machine import Machine
from .spelling import Misspelt, read_book, read_tokens
from .trees import MANY, NONE, Forest

LONGEST_TEXT = 65536
MOST_TOKENS = 255
sys.setrecursionlimit(200000)


class Disagreement(Exception):
    """The tree and the evaluator, both as 01 gives them, do not agree: a fault of this program or of 01."""


@lru_cache(maxsize=64)
def compiled(text):
    """The first of 1 to 10 that a book text meets, or 0; and the book with its states and formulas."""
    if len(text) > LONGEST_TEXT:
        return 1, None, None, None
    try:
        book = read_book(text.decode("latin-1"))
    except Misspelt:
        return 2, None, None, None
    number, states, formulas = check(book)
    return number, book, states, formulas


def by_tree(book, tokens):
    """Demand 3: 0 with the rows of the one tree, 16 or 17 for a tree past the limits, 15 without a tree."""
    forest = Forest(book, tokens)
    if forest.count == NONE:
        return 15, []
    if forest.count == MANY:
        raise Disagreement("a taken book with two trees for one list")
    size, need = forest.size_and_need()
    limit = forest.first_limit()
    if (limit == 0) != (size <= 512 and need <= 128):
        raise Disagreement(f"size {size}, need {need}, but the walk says {limit}")
    return limit, [] if limit else forest.rows()


def evaluated(text, tokens):
    """The answer to a list of tokens under a taken book text: the number and the rows. Without a tree it is the evaluator's 15, 16 or 17."""
    _, book, states, formulas = compiled(text)
    if len(tokens) > MOST_TOKENS:
        return 13, []
    if any(not 1 <= kind <= book.terminals for kind, _ in tokens):
        return 14, []
    tree = by_tree(book, tokens)
    run = Machine(states, formulas, tokens).run()
    if run != tree and not (tree[0] == 15 and run[0] in (16, 17)):
        raise Disagreement(f"tree says {tree}, evaluator {run}")
    return run


def cut(whole):
    """The book text of an input, up to its first end line, and the rest. Without an end line all of it is book text."""
    end = 0 if whole.startswith(b"(end)\n") else whole.find(b"\n(end)\n") + 1
    if end == 0 and not whole.startswith(b"(end)\n"):
        return whole, b""
    return whole[: end + 6], whole[end + 6 :]


def answer(whole):
    """The number and the rows for an input of the desk program."""
    text, rest = cut(whole)
    if len(text) > LONGEST_TEXT:
        return 1, []
    try:
        tokens = read_tokens(rest.decode("latin-1"))
    except Misspelt:
        return 2, []
    number = compiled(text)[0]
    return (number, []) if number else evaluated(text, tokens)


def printed(number, rows):
    """What the desk program prints."""
    if number:
        return b"(refused %d)\n" % number
    lines = ["(row " + " ".join(map(str, row)) + ")\n" for row in rows]
    return ("".join(lines) + f"(accepted {len(rows)})\n").encode()


def desk(whole):
    """The desk program: its input to its output."""
    return printed(*answer(whole))
