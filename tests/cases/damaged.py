"""Damaged texts of small books, and damaged token lines."""

from generate import damage
from generate.books import random_book
from oracle.answer import compiled

from . import named

BASES = 24
EACH = 80


def fill(rng, group):
    """Each base many times, in one place."""
    bases = [named.S, named.whole(named.SUMS), named.whole(named.TWO_FORMULAS)]
    while len(bases) < BASES:
        text = random_book(rng, most_each=rng.randint(1, 2), mended=True)[2]
        if 500 < len(text) < 1500 and compiled(text.encode())[0] == 0:
            bases.append(text)
    tokens = b"(tok 1 1)\n(tok 1 2)\n"
    for base in (text.encode() for text in bases):
        group.base(base)
        group.add_all(damage.applied(base, damage.random_damage(rng, base)) for _ in range(EACH))
        group.add_all(base + damage.applied(tokens, damage.one_byte(rng, tokens)) for _ in range(5))
