"""The plausible slips of document 01, each as a wrong check or a wrong machine, to find books and lists on which it shows."""

from oracle.formulas import Formulas
from oracle.machine import Machine


class WithoutOffsets(Formulas):
    """Formulas compared without offsets."""

    def intern(self, *node):
        if node[0] in ("inherited", "synthesized"):
            node = node[0], 0, node[2]
        return super().intern(*node)


class SetAgain(Machine):
    """Inherited values set again after a pop."""

    def push(self, symbol, made, start):
        if symbol[0] == "n":
            self.set_top(self.next_kind())
        super().push(symbol, made, start)


def whole_states_split(states):
    """Whether whole states, instead of partial ones, would have two formulas."""
    formulas = Formulas(states)
    return any(formulas.of_items(kernel, closure) is None for kernel, closure in zip(states.kernels, states.closures))


def offsets_decide(states):
    """Whether a book has two formulas that differ in their offsets alone."""
    return Formulas(states).split() and not WithoutOffsets(states).split()


def setting_again_shows(states, formulas, tokens):
    """Whether the machine that sets values again gives other rows."""
    return SetAgain(states, formulas, tokens).run() != Machine(states, formulas, tokens).run()


def lookaheads_are_larger(states):
    """Whether some state has lookaheads that no state before it hands on to it."""
    handed = [set() for _ in states.kernels]
    handed[0] = {(0, 0, 0)}
    for (state, symbol), target in states.book.goes.items():
        for rule, dot, b in states.closures[state]:
            if states.next_symbol((rule, dot, b)) == symbol:
                handed[target].add((rule, dot + 1, b))
    return any(more and not kernel <= more for kernel, more in zip(states.kernels, handed))
