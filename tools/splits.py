"""Helper of the advisers' tools, no part of the engine: finds the partial states in which an inherited attribute has two formulas.

A place is (nonterminal, terminal): that nonterminal is about to be read, and the terminal comes after it. Chains are paths of places.
"""

from collections import namedtuple

Split = namedtuple("Split", "state terminal attribute formulas chains")
LONGEST = 300


class Formulas:
    """Formulas by number, equal ones with the same number. A formula is a tuple of words and of numbers of earlier formulas."""

    def __init__(self):
        self.nodes, self.numbers = [], {}

    def number(self, *node):
        """The number of a formula."""
        if node not in self.numbers:
            self.numbers[node] = len(self.nodes)
            self.nodes.append(node)
        return self.numbers[node]

    def of(self, expression, dot, own):
        """A definition as a formula. `own` is the formulas of the left side, or None in a kernel item with that dot."""
        match expression:
            case str():
                return self.number(expression)
            case ["own", which]:
                return self.number("inherited", str(-dot), which) if own is None else own[int(which[1:])]
            case ["at", place, which]:
                return self.number("synthesized", str(int(place) - dot), which)
            case ["val", place]:
                return self.number("synthesized", str(int(place) - dot), "value")
        return self.number(expression[0], *(self.of(operand, dot, own) for operand in expression[1:]))

    def written(self, formula):
        """A formula in words, cut where it grows too long."""
        text, pending = "", [formula]
        while pending and len(text) < LONGEST:
            part = pending.pop()
            if isinstance(part, str):
                text += part if part == ")" else " " + part
            elif len(self.nodes[part]) == 1:
                text += " " + self.nodes[part][0]
            else:
                word, *parts = self.nodes[part]
                text += " (" + word
                pending += [")", *reversed(parts)]
        return text.strip() + (" ..." if pending else "")


class Splits:
    """The partial states of an automaton without conflicts."""

    def __init__(self, automaton):
        self.automaton, self.grammar = automaton, automaton.grammar
        self.formulas = Formulas()

    def places(self, rule, dot, lookaheads):
        """The places that an item leads to directly."""
        right = self.grammar.rules[rule][1]
        if dot == len(right) or right[dot][0] == "t":
            return []
        ahead = self.automaton.ahead(rule, dot, lookaheads)
        return [(right[dot], a) for a in range(self.grammar.terminals + 1) if ahead >> a & 1]

    def steps(self, place):
        """The places directly below a place, each with its rule."""
        nonterminal, a = place
        return [(rule, lower) for rule in self.automaton.below.get(nonterminal, ()) for lower in self.places(rule, 0, 1 << a)]

    def begins(self, place):
        """The terminals under which a place acts by a rule of its own: one that begins the rule, or the one after it for an empty rule."""
        nonterminal, a = place
        found = 0
        for rule in self.automaton.below.get(nonterminal, ()):
            right = self.grammar.rules[rule][1]
            if not right:
                found |= 1 << a
            elif right[0][0] == "t":
                found |= 1 << int(right[0][1:])
        return found

    def reach(self, start):
        """All places from these on, each with the terminals under which it or a place below it acts."""
        known, pending = {place: self.begins(place) for place in start}, list(start)
        while pending:
            for _, lower in self.steps(pending.pop()):
                if lower not in known:
                    known[lower] = self.begins(lower)
                    pending.append(lower)
        while True:
            before = dict(known)
            for place in known:
                for _, lower in self.steps(place):
                    known[place] |= known[lower]
            if before == known:
                return known

    def defined(self, rule, dot, own):
        """The formulas of the attributes of the symbol after the dot."""
        symbol = self.grammar.rules[rule][1][dot]
        return {k: self.formulas.of(self.grammar.inhdefs[rule, dot + 1, k], dot, own) for k in self.grammar.attributes(symbol)}

    def of_partial_state(self, state, a, reach):
        """Walk the chains under a terminal, and stop where an attribute has a second formula."""
        kernel = self.automaton.kernels[state]
        known, found, pending, seen = {}, [], [], set()

        def arrive(chain, place, own):
            if not reach[place] >> a & 1:
                return
            formulas = self.defined(*chain[-1], own)
            for k, formula in formulas.items():
                first, where = known.setdefault(k, (formula, chain))
                if first != formula:
                    found.append(Split(state, a, k, (first, formula), (where, chain)))
            if place not in seen:
                seen.add(place)
                pending.append((chain, place, formulas))

        for item in sorted(kernel):
            for place in self.places(*item, kernel[item]):
                arrive((item,), place, None)
        while pending and not found:
            chain, place, formulas = pending.pop(0)
            for rule, lower in self.steps(place):
                arrive((*chain, (rule, 0)), lower, formulas)
        return found

    def of_state(self, state):
        """The first split of each attribute in a state."""
        kernel = self.automaton.kernels[state]
        reach = self.reach({place for item in kernel for place in self.places(*item, kernel[item])})
        found = {}
        for a in range(self.grammar.terminals + 1):
            for split in self.of_partial_state(state, a, reach):
                found.setdefault(split.attribute, split)
        return list(found.values())

    def all(self):
        """All splits, by state."""
        return [split for state in range(len(self.automaton.kernels)) for split in self.of_state(state)]
