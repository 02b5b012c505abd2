#!/usr/bin/env python3
"""A tool for advisers, no part of the engine: makes the states of a book.

It reads a book without kernel and go lines (they are passed over if they stand; Q and the end line may be missing) and writes the whole book:

    python3 tools/states.py [--lalr] GRAMMAR > BOOK

States are canonical LR(1), or merged by cores with --lalr (fewer states, larger lookaheads). Conflicts, and partial states in which an inherited
attribute has two formulas, are told in words, and then no book is written.
"""

import argparse
import sys
from pathlib import Path

sys.path.insert(0, str(Path(__file__).resolve().parent))
import grammar as grammars  # noqa: E402
import lr  # noqa: E402
from splits import Splits  # noqa: E402

MOST_STATES = 2000


def book_text(grammar, automaton):
    """The whole book."""
    return "\n".join(grammars.heading(grammar, len(automaton.kernels)) + lr.state_lines(automaton) + ["(end)"]) + "\n"


def limits(automaton):
    """The limits on states that the book would pass."""
    kernels = automaton.kernels
    counts = [
        ("states", len(kernels), 128),
        ("kernel lines", sum(map(len, kernels)), 512),
        ("kernel lines in one state", max(map(len, kernels)), 16),
        ("go lines", sum(map(len, automaton.go)), 1024),
    ]
    return [f"{count} {what}, but a book has at most {most}" for what, count, most in counts if count > most]


def conflict_words(grammar, conflict):
    """A conflict in words."""
    state, a, actions = conflict
    lines = [f"conflict in state {state} before t{a}:"]
    for action, items in sorted(actions.items()):
        lines += [f"    {action:20} {grammar.item(*item)}" for item in items]
    return lines


def split_words(grammar, formulas, split):
    """Two formulas in words, each with the chain of items that asks for it."""
    lines = [f"two formulas in state {split.state} before t{split.terminal} for i{split.attribute} of {grammar.inh[split.attribute]}:"]
    for formula, chain in zip(split.formulas, split.chains):
        lines.append("    " + formulas.written(formula))
        lines += ["        in " + grammar.item(*item) for item in chain]
    return lines


def faults(grammar, automaton):
    """All that the engine would turn back by 3, 9 or 10 for the states' sake, in words."""
    words = limits(automaton)
    for conflict in automaton.conflicts():
        words += conflict_words(grammar, conflict)
    if not words:
        splits = Splits(automaton)
        for split in splits.all():
            words += split_words(grammar, splits.formulas, split)
    return words


def main():
    """The command."""
    parser = argparse.ArgumentParser(description="Make the states of a book.")
    parser.add_argument("--lalr", action="store_true", help="merge states with equal cores")
    parser.add_argument("grammar", type=argparse.FileType("r"), help="a book without kernel and go lines, - for standard input")
    options = parser.parse_args()
    try:
        grammar = grammars.read(options.grammar.read())
        automaton = (lr.lalr if options.lalr else lr.canonical)(grammar, MOST_STATES)
    except grammars.Fault as fault:
        sys.exit(str(fault))
    except lr.TooMany:
        sys.exit(f"more than {MOST_STATES} states")
    words = faults(grammar, automaton)
    if words:
        sys.exit("\n".join(words))
    sys.stdout.write(book_text(grammar, automaton))


if __name__ == "__main__":
    main()
