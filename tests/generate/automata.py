"""States of other makes that 01 allows: larger lookaheads, copies, states that nothing reaches, any numbering."""

import copy

import lr

from .grammars import MOST_STATES, fits


def variant(automaton):
    """A copy that may be changed."""
    other = copy.copy(automaton)
    other.kernels = [dict(kernel) for kernel in automaton.kernels]
    other.go = [dict(go) for go in automaton.go]
    return other


def settle(automaton):
    """Give every target at least the lookaheads that are advanced to it. Rule 0 must keep t0 alone; whether it does."""
    pending = list(range(len(automaton.kernels)))
    while pending:
        state = pending.pop()
        for symbol, kernel in automaton.advanced(automaton.kernels[state]).items():
            target = automaton.go[state][symbol]
            if automaton.widen(target, kernel):
                pending.append(target)
    return all(ahead == 1 for kernel in automaton.kernels for (rule, _), ahead in kernel.items() if rule == 0)


def right(automaton):
    """Whether states are within the limits and without conflicts."""
    return fits(automaton) and not automaton.conflicts()


def larger(rng, automaton, times):
    """Add lookaheads here and there, as long as nothing conflicts."""
    for _ in range(times):
        other = variant(automaton)
        state = rng.randrange(len(other.kernels))
        item = rng.choice(sorted(other.kernels[state]))
        if item[0] != 0:
            other.kernels[state][item] |= rng.randrange(1 << (other.grammar.terminals + 1))
            if settle(other) and right(other):
                automaton = other
    return automaton


def copied(rng, automaton, times):
    """Copy a state and send some of its arrivals to the copy, or none."""
    for _ in range(times):
        other = variant(automaton)
        state = rng.randrange(len(other.kernels))
        if state == 0:
            continue
        other.kernels.append(dict(other.kernels[state]))
        other.go.append(dict(other.go[state]))
        for go in other.go:
            for symbol, target in go.items():
                if target == state and rng.random() < 0.5:
                    go[symbol] = len(other.kernels) - 1
        if fits(other):
            automaton = other
    return automaton


def stray(rng, automaton):
    """Add a state that nothing reaches, with what it needs; the automaton itself if this does not work out."""
    rules = automaton.grammar.rules
    symbols = sorted({symbol for _, right_side in rules for symbol in right_side})
    symbol = rng.choice(symbols)
    places = [(rule, dot + 1) for rule, (_, side) in enumerate(rules) for dot, other in enumerate(side) if other == symbol and rule]
    if not places:
        return automaton
    chosen = rng.sample(places, rng.randint(1, min(3, len(places))))
    kernel = {item: 1 << rng.randint(0, automaton.grammar.terminals) for item in sorted(chosen)}
    other = variant(automaton)
    try:
        other.build(lambda kernel: frozenset(kernel.items()), MOST_STATES, [kernel])
    except lr.TooMany:
        return automaton
    return other if right(other) else automaton


def shuffled(rng, automaton):
    """Any numbering in which state 0 is the first."""
    order = list(range(1, len(automaton.kernels)))
    rng.shuffle(order)
    order = [0] + order
    place = {state: number for number, state in enumerate(order)}
    other = variant(automaton)
    other.kernels = [automaton.kernels[state] for state in order]
    other.go = [{symbol: place[target] for symbol, target in automaton.go[state].items()} for state in order]
    return other


def some_variant(rng, automaton):
    """A random make of the same states."""
    if rng.random() < 0.15:
        automaton = stray(rng, automaton)
    if rng.random() < 0.4:
        automaton = larger(rng, automaton, rng.randint(1, 6))
    if rng.random() < 0.3:
        automaton = copied(rng, automaton, rng.randint(1, 3))
    return shuffled(rng, automaton) if rng.random() < 0.7 else automaton
