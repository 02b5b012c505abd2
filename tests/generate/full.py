"""Books filled up to the limits: exact numbers of states, kernel lines and go lines, and the longest text."""

import lr
import states

from .automata import variant
from .definitions import define, mend
from .shapes import of_rules


def filled(automaton, all_states=None, all_kernels=None, all_goes=None):
    """Copy states that nothing then reaches until a count is exactly as wanted."""
    other = variant(automaton)

    def counts():
        return len(other.kernels), sum(map(len, other.kernels)), sum(map(len, other.go))

    for place, wanted in enumerate((all_states, all_kernels, all_goes)):
        while wanted is not None and counts()[place] < wanted:
            room = wanted - counts()[place]
            weight = lambda state: (1, len(other.kernels[state]), len(other.go[state]))[place]
            best = max((state for state in range(1, len(automaton.kernels)) if weight(state) <= room), key=weight)
            other.kernels.append(dict(other.kernels[best]))
            other.go.append(dict(other.go[best]))
    return other


def text_bytes(grammar, automaton):
    """The length of the book's text."""
    return len(states.book_text(grammar, automaton))


def padded(grammar, automaton, length):
    """Add lookaheads, to items with the dot farthest right first, until the text has exactly that length."""
    other = variant(automaton)
    room = length - text_bytes(grammar, other)
    order = [(-item[1], state, item) for state, kernel in enumerate(other.kernels) for item in kernel if item[0]]
    for _, state, item in sorted(order):
        for a in range(grammar.terminals, -1, -1):
            cost = 2 + len(str(a))
            if not other.kernels[state][item] >> a & 1 and (room - cost in (0, 3, 4) or room - cost >= 6):
                other.kernels[state][item] |= 1 << a
                room -= cost
    assert room == 0 and text_bytes(grammar, other) == length
    return other


def all_definitions(rng):
    """64 rules, 16 inherited and 32 synthesized attributes, 128 definitions, one of 15 nodes, a right side of 8."""
    rules = ["n0 n1", "n1 t1 n2", "n1 t2 n3", "n1 t3 n4", "n1 t4 n5"]
    rules += [f"n{k} t1 n{k + 4}" for k in range(2, 6)] + [f"n{k} t2 n{k}" for k in range(2, 6)]
    rules += [f"n{k} t1" for k in range(6, 9)] + [f"n{k} t2 n{k - 4} t3" for k in range(6, 9)] + [f"n{k} t4 n{k + 4}" for k in range(6, 9)]
    rules += [f"n{k} t1" for k in range(9, 31)] + [f"n{k} t2 n{k + 1}" for k in range(9, 28)] + ["n31 t1 t2 t3 t4 t5 t6 t7 t8"]
    grammar = of_rules(31, 31, *rules)
    grammar.inh = [f"n{k}" for k in range(2, 6)] * 4
    grammar.syn = [f"n{k}" for k in range(1, 9)] * 4
    define(rng, grammar)
    mend(rng, grammar, lr.lalr(grammar))
    deep = "0"
    for number in range(7):
        deep = ["add", deep, str(4294967295 - number)]
    grammar.syndefs[1, 0] = deep
    return grammar


def all_in_one(leaf, last):
    """An expression of 15 nodes with 8 leaves, of which the last may be another."""
    pair = ["add", leaf, leaf]
    return ["sub", ["max", pair, pair], ["min", pair, ["sub", leaf, last]]]


def huge_formulas(same):
    """15 levels that read the one above 8 times, each by two rules: formulas that no machine can write out, equal or not in their last leaf."""
    levels = range(2, 16)
    rules = ["n0 n1", "n1 t1 n2"] + [f"n{k} n{k + 1}{end}" for k in levels for end in ("", f" t{k}")] + ["n16 t16"]
    grammar = of_rules(16, 16, *rules)
    grammar.inh, grammar.syn = [f"n{k}" for k in range(2, 17)], ["n16"]
    grammar.inhdefs = {(1, 2, 0): ["val", "1"]}
    for rule, (left, _) in enumerate(grammar.rules[2:-1], 2):
        own = ["own", f"i{int(left[1:]) - 2}"]
        last = own if same or rule < len(rules) - 2 else "0"
        grammar.inhdefs[rule, 1, int(left[1:]) - 1] = all_in_one(own, last)
    grammar.syndefs = {(len(rules) - 1, 0): ["own", "i14"]}
    return grammar
