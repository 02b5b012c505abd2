"""Books and lists on which one of 01's plausible slips shows, and books with two formulas or a conflict."""

from collections import Counter

import states
from generate import lists, shapes, wrong
from generate.books import random_book
from generate.definitions import define, give_attributes
from oracle.answer import compiled
from oracle.items import States
from oracle.spelling import read_book

from .messages import some_lists

WANTED = Counter(whole=30, offsets=25, again=50, larger=25, split=50, conflict=50)
LONGEST = 1500


def sort_of(text):
    """Which slip shows on a book."""
    number, _, book_states, _ = compiled(text.encode())
    if number == 10:
        return "offsets" if wrong.offsets_decide(States(read_book(text))) else "split"
    if number == 0 and wrong.whole_states_split(book_states):
        return "whole"
    return "larger" if number == 0 and wrong.lookaheads_are_larger(book_states) else "none"


def conflicts(rng, group):
    """Books that only 9 turns back."""
    for _ in range(WANTED["conflict"]):
        grammar, automaton = shapes.conflicting(rng)
        give_attributes(rng, grammar, rng.randint(0, 1))
        define(rng, grammar)
        text = states.book_text(grammar, automaton).encode()
        if len(text) <= LONGEST:
            group.base(text)
            group.add(text)


def fill(rng, group):
    """As many of each sort as wanted."""
    conflicts(rng, group)
    left = WANTED - Counter(conflict=WANTED["conflict"])
    while +left:
        grammar, _, text = random_book(rng, shapes.two_dots(rng) if left["offsets"] else None, rng.randint(1, 2), rng.random() < 0.5)
        sort, base = sort_of(text), text.encode()
        number, _, book_states, formulas = compiled(base)
        many = list(some_lists(rng, grammar, 4, (4, 8, 12))) if number == 0 else [[]]
        if left[sort] <= 0 and number == 0:
            sort, many = "again", [tokens for tokens in many if wrong.setting_again_shows(book_states, formulas, tokens)]
        if left[sort] > 0 and many and len(text) <= LONGEST:
            left[sort] -= 1
            group.base(base)
            group.add_all(base + lists.spelled(tokens).encode() for tokens in many)
