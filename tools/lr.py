"""Helper of the advisers' tools, no part of the engine: makes LR(1) states, canonical or merged by cores (LALR), and finds conflicts.

A kernel is a dict (rule, dot) -> lookaheads; a set of terminals is a number whose bit K stands for tK.
"""


class TooMany(Exception):
    """More states than asked for."""


class Automaton:
    """The states of a grammar: kernels by number, and go[state] as a dict from symbol to state."""

    def __init__(self, grammar):
        self.grammar = grammar
        self.kernels, self.go = [], []
        self.below = {}
        for rule, (left, _) in enumerate(grammar.rules):
            self.below.setdefault(left, []).append(rule)
        self.first = self.first_sets()
        self.rest = [[self.first_of(right[dot + 1 :]) for dot in range(len(right))] for _, right in grammar.rules]

    def first_sets(self):
        """For each nonterminal (terminals that begin it, whether it may be empty)."""
        self.first = {left: (0, False) for left in self.below}
        while True:
            before = dict(self.first)
            for left, right in self.grammar.rules:
                starts, empty = self.first_of(right)
                self.first[left] = self.first[left][0] | starts, self.first[left][1] or empty
            if before == self.first:
                return before

    def first_of(self, symbols):
        """The same for a string of symbols."""
        starts = 0
        for symbol in symbols:
            more, empty = (1 << int(symbol[1:]), False) if symbol[0] == "t" else self.first.get(symbol, (0, False))
            starts |= more
            if not empty:
                return starts, False
        return starts, True

    def ahead(self, rule, dot, lookaheads):
        """FIRST of what follows the symbol after the dot, and of a lookahead."""
        starts, empty = self.rest[rule][dot]
        return starts | lookaheads if empty else starts

    def closure(self, kernel):
        """All items of a state, (rule, dot) -> lookaheads."""
        found, pending = dict(kernel), list(kernel)
        while pending:
            rule, dot = pending.pop()
            right = self.grammar.rules[rule][1]
            if dot == len(right) or right[dot][0] == "t":
                continue
            ahead = self.ahead(rule, dot, found[rule, dot])
            for other in self.below.get(right[dot], ()) if ahead else ():
                if ahead & ~found.get((other, 0), 0):
                    found[other, 0] = found.get((other, 0), 0) | ahead
                    pending.append((other, 0))
        return found

    def advanced(self, kernel):
        """The kernels after each symbol, terminals first."""
        after = {}
        for (rule, dot), lookaheads in self.closure(kernel).items():
            right = self.grammar.rules[rule][1]
            if dot < len(right):
                after.setdefault(right[dot], {})[rule, dot + 1] = lookaheads
        return dict(sorted(after.items(), key=lambda pair: (pair[0][0] == "n", int(pair[0][1:]))))

    def build(self, key, most, more=()):
        """Find all states from state 0, and from more kernels if wanted. States with equal keys are one, whose lookaheads are put together."""
        self.kernels = [{(0, 0): 1}, *more]
        self.go = [{} for _ in self.kernels]
        numbers, pending = {key(kernel): state for state, kernel in enumerate(self.kernels)}, list(range(len(self.kernels)))
        while pending:
            state = pending.pop(0)
            for symbol, kernel in self.advanced(self.kernels[state]).items():
                target = numbers.setdefault(key(kernel), len(self.kernels))
                if target == len(self.kernels):
                    if target == most:
                        raise TooMany
                    self.kernels.append(kernel)
                    self.go.append({})
                    pending.append(target)
                elif self.widen(target, kernel) and target not in pending:
                    pending.append(target)
                self.go[state][symbol] = target
        return self

    def widen(self, state, kernel):
        """Add lookaheads to a state; whether any is new."""
        have = self.kernels[state]
        new = any(lookaheads & ~have[item] for item, lookaheads in kernel.items())
        self.kernels[state] = {item: have[item] | kernel.get(item, 0) for item in have}
        return new

    def actions(self, state):
        """For each terminal of a state its actions, each with the items that ask for it: terminal -> {action: [(rule, dot), ..]}."""
        found = {}
        for (rule, dot), lookaheads in sorted(self.closure(self.kernels[state]).items()):
            right = self.grammar.rules[rule][1]
            if dot == len(right):
                wanted = [a for a in range(self.grammar.terminals + 1) if lookaheads >> a & 1]
                action = f"reduce by rule {rule}" if rule else "accept"
            elif right[dot][0] == "t":
                wanted, action = [int(right[dot][1:])], "shift"
            else:
                continue
            for a in wanted:
                found.setdefault(a, {}).setdefault(action, []).append((rule, dot))
        return found

    def conflicts(self):
        """All (state, terminal, {action: items}) with more than one action."""
        return [(state, a, found) for state in range(len(self.kernels)) for a, found in sorted(self.actions(state).items()) if len(found) > 1]


def canonical(grammar, most=1000000):
    """The canonical LR(1) states."""
    return Automaton(grammar).build(lambda kernel: frozenset(kernel.items()), most)


def lalr(grammar, most=1000000):
    """States with equal cores are one."""
    return Automaton(grammar).build(frozenset, most)


def lookahead_names(lookaheads):
    """A set of terminals as a book spells it."""
    return [f"t{a}" for a in range(lookaheads.bit_length()) if lookaheads >> a & 1]


def state_lines(automaton):
    """The kernel and go lines of a book."""
    kernels = [
        "(" + " ".join(["kernel", str(state), str(rule), str(dot), *lookahead_names(lookaheads)]) + ")"
        for state, kernel in enumerate(automaton.kernels)
        for (rule, dot), lookaheads in sorted(kernel.items())
    ]
    order = lambda pair: (pair[0][0] == "n", int(pair[0][1:]))
    goes = [f"(go {state} {symbol} {target})" for state, go in enumerate(automaton.go) for symbol, target in sorted(go.items(), key=order)]
    return kernels + goes
