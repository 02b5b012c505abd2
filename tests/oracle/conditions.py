"""Conditions 3 to 6 on a book that is spelled right, and the first number from 3 to 10 that applies."""

from collections import Counter

from .formulas import Formulas
from .items import States, breaks_kernel_rules

def past_a_limit(book):
    """3: a limit of 01's section on spelling."""
    definitions = len(book.inhdefs) + len(book.syndefs)
    per_state = Counter(state for state, _, _ in book.kernels)
    return not (
        1 <= book.terminals <= 31
        and 1 <= book.nonterminals <= 31
        and 1 <= book.states <= 128
        and len(book.inh) <= 16
        and len(book.syn) <= 32
        and max(Counter(book.inh).values(), default=0) <= 4
        and max(Counter(book.syn).values(), default=0) <= 4
        and 1 <= len(book.rules) <= 64
        and all(len(right) <= 8 for _, right in book.rules)
        and definitions <= 128
        and max(book.nodes, default=0) <= 15
        and len(book.kernels) <= 512
        and max(per_state.values(), default=0) <= 16
        and len(book.goes) <= 1024
    )


def leaves(expression):
    """The leaves of an expression that read something."""
    if expression[0] in ("own", "at", "val"):
        yield expression
    elif expression[0] != "number":
        for operand in expression[1:]:
            yield from leaves(operand)


def definitions(book):
    """All definitions: the rule, the target's place (0 for the left side), the attribute's table and number, the expression."""
    for (rule, place, which), meaning in book.inhdefs.items():
        yield rule, place, "inh", which, meaning
    for (rule, which), meaning in book.syndefs.items():
        yield rule, 0, "syn", which, meaning


def declared(book, symbol):
    """Whether a symbol may stand on a right side."""
    letter, which = symbol
    return 1 <= which <= (book.terminals if letter == "t" else book.nonterminals)


def leaf_is_known(book, rule, leaf):
    """Whether a leaf's attribute is declared and its position is one of the right side."""
    right = book.rules[rule][1]
    match leaf:
        case ("own", which):
            return which < len(book.inh)
        case ("at", place, which):
            return which < len(book.syn) and 1 <= place <= len(right)
        case ("val", place):
            return 1 <= place <= len(right)


def definition_is_known(book, rule, place, side, which, meaning):
    """Whether a definition speaks of a declared rule, position and attributes."""
    if rule >= len(book.rules) or which >= len(getattr(book, side)):
        return False
    if side == "inh" and not 1 <= place <= len(book.rules[rule][1]):
        return False
    return all(leaf_is_known(book, rule, leaf) for leaf in leaves(meaning))


def names_what_is_not_there(book):
    """4: an undeclared name, rule, position or state, a dot past the end, t0 or n0 out of place, a wrong rule 0."""
    rules = book.rules
    start_is_right = rules[0][0] == 0 and [letter for letter, _ in rules[0][1]] == ["n"]
    return not (
        start_is_right
        and all(1 <= owner <= book.nonterminals for owner in book.inh + book.syn)
        and all(1 <= left <= book.nonterminals for left, _ in rules[1:])
        and all(declared(book, symbol) for _, right in rules for symbol in right)
        and all(definition_is_known(book, *definition) for definition in definitions(book))
        and all(
            state < book.states and rule < len(rules) and dot <= len(rules[rule][1]) and max(ahead) <= book.terminals
            for (state, rule, dot), ahead in book.kernels.items()
        )
        and all(
            state < book.states and target < book.states and (declared(book, symbol) or symbol == ("n", 0))
            for (state, symbol), target in book.goes.items()
        )
    )


def symbol_at(book, rule, place):
    """The right symbol at a place, or the left side for place 0."""
    left, right = book.rules[rule]
    return ("n", left) if place == 0 else right[place - 1]


def owns(book, symbol, side, which):
    """Whether an attribute is that symbol's."""
    return symbol == ("n", getattr(book, side)[which])


def leaf_is_allowed(book, rule, target, side, leaf):
    """Whether a leaf reads what its symbol has, in an inherited definition left of the target only."""
    if leaf[0] == "own":
        return owns(book, symbol_at(book, rule, 0), "inh", leaf[1])
    if side == "inh" and leaf[1] >= target:
        return False
    symbol = symbol_at(book, rule, leaf[1])
    return symbol[0] == "t" if leaf[0] == "val" else owns(book, symbol, "syn", leaf[2])


def uses_what_is_not_its_own(book):
    """5: an attribute that is not its symbol's, val of a nonterminal, a leaf that is not left of the target."""
    return not all(
        owns(book, symbol_at(book, rule, target), side, which)
        and all(leaf_is_allowed(book, rule, target, side, leaf) for leaf in leaves(meaning))
        for rule, target, side, which, meaning in definitions(book)
    )


def lacks_a_definition(book):
    """6: in some rule, an inherited attribute of a right nonterminal or a synthesized one of the left side has no definition."""
    for rule, (left, right) in enumerate(book.rules):
        for place, symbol in enumerate(right, 1):
            if any(("n", owner) == symbol and (rule, place, which) not in book.inhdefs for which, owner in enumerate(book.inh)):
                return True
        if any(owner == left and (rule, which) not in book.syndefs for which, owner in enumerate(book.syn)):
            return True
    return False


EARLY = [
    (3, past_a_limit),
    (4, names_what_is_not_there),
    (5, uses_what_is_not_its_own),
    (6, lacks_a_definition),
    (7, breaks_kernel_rules),
]


def check(book):
    """The first of 3 to 10 that applies, or 0, and the states and formulas of a book to which none applies."""
    for number, applies in EARLY:
        if applies(book):
            return number, None, None
    states = States(book)
    if states.break_go_rules():
        return 8, None, None
    if states.conflict():
        return 9, None, None
    formulas = Formulas(states)
    if formulas.split():
        return 10, None, None
    return 0, states, formulas
