"""Whole random books: a grammar, its states of some make, attributes and definitions."""

import states

from .automata import some_variant
from .definitions import define, give_attributes, mend
from .grammars import random_grammar, states_of


def with_states(rng, grammar):
    """States of some make, or None where merging makes a conflict."""
    automaton = states_of(grammar, rng.random() < 0.5) or states_of(grammar, False)
    return automaton and some_variant(rng, automaton)


def random_book(rng, grammar=None, most_each=None, mended=None):
    """(grammar, automaton, text). Nearly all are taken if mended."""
    while True:
        chosen = grammar or random_grammar(rng)
        automaton = with_states(rng, chosen)
        if automaton is None:
            continue
        give_attributes(rng, chosen, rng.randint(0, 3) if most_each is None else most_each)
        define(rng, chosen)
        if mended if mended is not None else rng.random() < 0.9:
            mend(rng, chosen, automaton)
        return chosen, automaton, states.book_text(chosen, automaton)
