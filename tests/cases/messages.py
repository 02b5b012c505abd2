"""Random books, nearly all taken, each with a few token lists."""

from generate import lists
from generate.books import random_book

MOST_BYTES = 450000


def some_lists(rng, grammar, count, sizes):
    """Token lists for a book: derivations, mutated ones, and a few of chance."""
    source = lists.Derivations(grammar)
    for _ in range(count):
        found = source.random(rng, rng.choice(sizes)) if source.exists() else None
        kinds = found[0] if found else [rng.randint(1, grammar.terminals) for _ in range(rng.randint(0, 4))]
        if rng.random() < 0.35:
            kinds = lists.mutated(rng, grammar.terminals, kinds)
        if len(kinds) < 60:
            yield lists.with_values(rng, kinds)


def fill(rng, group):
    """Mostly small books."""
    while group.bytes < MOST_BYTES:
        grammar, _, text = random_book(rng, mended=rng.random() < 0.97)
        if len(text) > 2500 and rng.random() < 0.9:
            continue
        many = list(some_lists(rng, grammar, 7, (1, 4, 8, 12, 20)))
        if rng.random() < 0.2:
            many.append([(rng.choice((0, grammar.terminals + 1, 4294967295)), 1)])
        group.base(text.encode())
        group.add_all(text.encode() + lists.spelled(tokens).encode() for tokens in many)
