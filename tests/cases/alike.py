"""Rules that begin alike and define alike, side by side in a state: taken. Then one definition changed in one place, or rules between them."""

import re

import states
from generate import lists, shapes
from generate.books import with_states
from oracle.answer import compiled

from .messages import some_lists

ENTRY = {
    "empty": ("n2", "n2 t5 n2"),
    "full": ("n2 t5", "n2 t5 n2"),
}
FORKS = {
    "two": ("n1 t1 n2 t2", "n1 t1 n2 t3"),
    "three": ("n1 t1 n2 t2", "n1 t1 n2 t3 t3", "n1 t1 n2 t4 n2 t4"),
    "apart": ("n1 t1 n2 t2", "n1 t1 n3 t2", "n1 t1 n2 t3"),
    "later": ("n1 t4 t1 n2 t2", "n1 t4 t1 n2 t3"),
    "two dots": ("n1 t1 n2 t2 n1", "n1 t1 n2 t3", "n1 n3"),
    "behind": ("n1 t1 n3 n2 t2", "n1 t1 n3 n2 t3"),
}
EXPRESSIONS = (
    ("7", ["val", "J"]),
    (["add", ["val", "J"], "2"], "7"),
    (["sub", ["max", ["val", "J"], "65536"], ["val", "J"]], ["min", "1", ["val", "J"]]),
    (["pick", ["val", "J"], ["add", "1", ["val", "J"]], "0"], ["add", ["add", "1", "2"], ["val", "J"]]),
)
LEAF = re.compile(rb"\(inhdef [0-9]+ [0-9]+ i[0-9]+ (.*)\)\n")
CHANGES = (
    (rb"add", b"sub"),
    (rb"sub", b"add"),
    (rb"max", b"min"),
    (rb"min", b"max"),
    (rb"\(val [0-9]\)", b"0"),
    (rb"\b7\b", b"8"),
    (rb"(?<!val )\b2\b", b"(add 1 1)"),
    (rb"65536", b"65537"),
    (rb"s2", b"s3"),
    (rb"s3", b"s2"),
)


def placed(expression, before):
    """The expression of the definition of a right symbol, where J stands for the place before it."""
    if isinstance(expression, list):
        return [placed(part, before) for part in expression]
    return str(before) if expression == "J" else expression


def definition(left, right, place, k, expressions):
    """Attribute k of n2 at a place: from the token or from n3 before it, handed on unchanged in n2, a number elsewhere."""
    before = right[place - 2] if place > 1 else ""
    if left == "n2":
        return ["own", f"i{k}"]
    if before == "n3":
        return ["at", str(place - 1), f"s{2 + k}"]
    return placed(expressions[k], place - 1) if before[:1] == "t" else "3"


def grammar_of(forks, entry, expressions):
    """n2 has two inherited attributes, defined alike wherever rules begin alike."""
    grammar = shapes.of_rules(5, 3, "n0 n1", *forks, *entry, "n3 t5 t5")
    grammar.inh, grammar.syn = ["n2", "n2"], ["n2", "n1", "n3", "n3"]
    for rule, (left, right) in enumerate(grammar.rules):
        for place, symbol in enumerate(right, 1):
            for k in grammar.attributes(symbol):
                grammar.inhdefs[rule, place, k] = definition(left, right, place, k, expressions)
        result = ["at", str(right.index("n2") + 1), "s0"] if "n2" in right else "0"
        values = {"n2": {0: ["own", "i1"]}, "n1": {1: result}, "n3": {2: ["val", "1"], 3: ["val", "2"]}}
        grammar.syndefs.update({(rule, k): value for k, value in values.get(left, {}).items()})
    return grammar


def changed(text):
    """Texts with one definition changed in one place."""
    for line in LEAF.finditer(text):
        for old, new in CHANGES:
            found = re.search(old, line[1])
            if found:
                at = line.start(1)
                yield text[: at + found.start()] + new + text[at + found.end() :]


def fill(rng, group):
    """Every shape with every pair of expressions."""
    for forks in FORKS.values():
        for entry in ENTRY.values():
            for expressions in EXPRESSIONS:
                grammar = grammar_of(forks, entry, expressions)
                automaton = with_states(rng, grammar)
                if automaton is None:
                    continue
                text = states.book_text(grammar, automaton).encode()
                group.base(text)
                messages = some_lists(rng, grammar, 2, (4, 8)) if compiled(text)[0] == 0 else []
                group.add_all([text, *changed(text)] + [text + lists.spelled(tokens).encode() for tokens in messages])
