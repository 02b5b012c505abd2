"""Kernel lines whose lookaheads are those of the line before, or of one before lines with a single lookahead, changed in one place: more, fewer or other
lookaheads, other bytes behind them."""

import re

from generate.books import random_book
from oracle.answer import compiled

ITEM = rb"\(kernel [0-9]+ [0-9]+ [0-9]+"
BESIDE = re.compile(ITEM + rb"((?: t[0-9]+)+)\)\n" + ITEM + rb"(\1)\)\n")
APART = re.compile(ITEM + rb"((?: t[0-9]+)+)\)\n(?:" + ITEM + rb" t[0-9]+\)\n)+" + ITEM + rb"(\1)\)\n")
BASES = {BESIDE: 16, APART: 4}
LONG = range(14, 80)
LONGEST = 2500


def changes(names):
    """What may stand in the place of lookaheads."""
    many = names.split()
    last = int(many[-1][1:])
    yield names + b" t%d" % (last + 1)
    yield names[: -len(many[-1]) - 1]
    yield names[: -len(many[-1])] + b"t%d" % (last + 1)
    yield names[len(many[0]) + 1 :]
    for end in (b"0", b" ", b")", b" t", b" t0", b"\n", b"\0", b"\x80"):
        yield names + end
    for at in range(0, len(names), 5):
        yield names[:at] + b"n" + names[at + 1 :]


def fill_pairs(rng, group, pattern, wanted):
    """Of each base the first two such lines, one changed and then the other."""
    bases = 0
    while bases < wanted:
        text = random_book(rng, most_each=1, mended=True)[2].encode()
        found = next((pair for pair in pattern.finditer(text) if len(pair[1]) in LONG), None)
        if found and len(text) <= LONGEST and compiled(text)[0] == 0:
            bases += 1
            group.base(text)
            group.add(text)
            for line in (1, 2):
                group.add_all(text[: found.start(line)] + change + text[found.end(line) :] for change in changes(found[line]))


def fill(rng, group):
    """Lines beside each other, then lines apart."""
    for pattern, wanted in BASES.items():
        fill_pairs(rng, group, pattern, wanted)
