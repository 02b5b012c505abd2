#!/usr/bin/env python3
"""Runs fresh random cases against an engine and compares each answer with the oracle.

    python3 tests/fuzz.py --desk crates/desk/out/desk --seconds 60
    python3 tests/fuzz.py --library target/fuzz/engine.so --prefix message_book --seconds 60

With a library the two calls are tried too: wrong lengths, damaged words, odd token lists, and every lent word afterwards.
"""

import argparse
import random
import sys
import time
from collections import Counter
from pathlib import Path

from cases.limits import edges
from cases.messages import some_lists
from engines import Desk, Library, add_options, engine_of
from generate import damage, lists, shapes
from generate.books import random_book
from generate.definitions import define, give_attributes
from generate.grammars import grown
from oracle import calls
from oracle.answer import desk
import states

SAVED = Path("target/fuzz")
MOST_FAILURES = 20


class Fuzz:
    """A run: the engine, the random generator, what came out so far."""

    def __init__(self, engine, seed):
        self.engine, self.rng = engine, random.Random(seed)
        self.answers, self.failures = Counter(), 0

    def compare(self, what, expected, got, given):
        """Count an answer; save an input on which the engine differs."""
        if expected != got:
            self.failures += 1
            SAVED.mkdir(parents=True, exist_ok=True)
            (SAVED / f"failure-{self.failures}").write_bytes(given)
            print(f"{what}: expected {short(expected)}, got {short(got)}; the input is in {SAVED}/failure-{self.failures}", flush=True)

    def desk(self, whole):
        """An input of the desk program."""
        expected = desk(whole)
        self.answers["accepted" if b"accepted" in expected else expected.split()[1][:-1].decode()] += 1
        self.compare("desk", expected, self.engine.desk(whole), whole)

    def read(self, text, length=calls.WORDS):
        """Reading."""
        expected = calls.read(text, length)
        self.answers[f"read {expected[0]}"] += 1
        self.compare("read", expected, self.engine.read(text, length), text)
        return expected[1]

    def evaluate(self, words, numbers, length=calls.ROW_WORDS):
        """Evaluating."""
        expected = calls.evaluate(words, numbers, length)
        self.answers[f"evaluate {expected[0]}"] += 1
        given = b"".join(word.to_bytes(4, "little") for word in words)
        self.compare("evaluate", expected, self.engine.evaluate(words, numbers, length), given)

    def book(self):
        """A random book of some kind: its grammar, its text, and whether it has lists at the limits."""
        rng, way = self.rng, self.rng.random()
        if way < 0.05:
            grammar, automaton = shapes.conflicting(rng)
            give_attributes(rng, grammar, 1)
            define(rng, grammar)
            return grammar, states.book_text(grammar, automaton), False
        if way < 0.055:
            grammar = grown(rng, 31, 31, 64, 80, True)
            return grammar, random_book(rng, grammar, 4, True)[2], False
        if way < 0.1:
            grammar = rng.choice(shapes.GROWING)()
            return grammar, random_book(rng, grammar, 2, True)[2], True
        grammar, _, text = random_book(rng, shapes.two_dots(rng) if way < 0.2 else None, mended=rng.random() < 0.7)
        return grammar, text, False

    def turn(self):
        """One book: its lists, its damaged texts, its words."""
        rng = self.rng
        grammar, text, at_limits = self.book()
        text = text.encode()
        many = list(some_lists(rng, grammar, 6, (1, 5, 10, 30, 100)))
        many += [[(kind, place) for place, kind in enumerate(kinds)] for kinds in edges(rng, grammar, 60).values()] if at_limits else []
        for tokens in many:
            self.desk(text + lists.spelled(tokens).encode())
        for _ in range(12):
            self.desk(damage.applied(text, damage.random_damage(rng, text)))
        if isinstance(self.engine, Library):
            self.calls(text, many)

    def calls(self, text, many):
        """The two calls at odd lengths and with damaged words."""
        rng = self.rng
        words = self.read(text)
        self.read(text, rng.choice((0, 1, 16383, 16385)))
        self.read(damage.applied(text, damage.random_damage(rng, text)))
        self.read(bytes(rng.randrange(256) for _ in range(rng.randrange(300))))
        numbers = [number for tokens in many[:1] for token in tokens for number in token]
        self.evaluate(words, numbers)
        self.evaluate(words, numbers + [1])
        self.evaluate(words, numbers, rng.choice((0, 5119, 5121)))
        self.evaluate(words, [rng.randint(0, grammar_size(text) + 1) for _ in range(rng.choice((2, 4, 6, 510, 511, 512)))])
        self.evaluate(words[: rng.choice((0, 1, 16383))], numbers)
        self.evaluate(words + [0], numbers)
        self.evaluate([rng.randrange(1 << 32) for _ in range(calls.WORDS)], numbers)
        changed = list(words)
        changed[rng.choice((rng.randrange(len(text) // 4 + 2), rng.randrange(calls.WORDS)))] ^= 1 << rng.randrange(32)
        self.evaluate(changed, numbers)


def grammar_size(text):
    """The number of terminals of a book."""
    return int(text.split()[1])


def short(answer):
    """An answer, cut."""
    return repr(answer)[:120]


def main():
    """The command."""
    parser = argparse.ArgumentParser(description="Run random cases against an engine.")
    add_options(parser)
    parser.add_argument("--seconds", type=float, default=60)
    parser.add_argument("--seed", type=int, default=None)
    options = parser.parse_args()
    seed = random.randrange(1 << 32) if options.seed is None else options.seed
    engine = engine_of(options) or Desk("crates/desk/out/desk")
    print(f"seed {seed}", flush=True)
    fuzz, end = Fuzz(engine, seed), time.monotonic() + options.seconds
    while time.monotonic() < end and fuzz.failures < MOST_FAILURES:
        fuzz.turn()
    print(f"random cases: {fuzz.answers.total() - fuzz.failures} agree, {fuzz.failures} differ;",
          ", ".join(f"{answer} {count}" for answer, count in sorted(fuzz.answers.items())))
    sys.exit(fuzz.failures > 0)


if __name__ == "__main__":
    main()
