#!/usr/bin/env python3
"""Writes the books and messages of the benchmark to bench/books: NAME.book, and NAME.LENGTH.tokens for messages.

    python3 bench/books.py

S is document 01's; orchard is the book of examples/; middle is a grammar as an adviser writes it; states has 128 states; limits has 128 states and a text of
exactly 65,536 bytes; formulas is hard on the one-formula check. The files are kept in the repository, so that a benchmark needs no Python.
"""

import random
import sys
from pathlib import Path

ROOT = Path(__file__).resolve().parent.parent
sys.path[:0] = [str(ROOT / "tools"), str(ROOT / "tests")]
import grammar as grammars  # noqa: E402
import lr  # noqa: E402
import states as maker  # noqa: E402
from cases.named import S  # noqa: E402

BOOKS = Path(__file__).resolve().parent / "books"
LONGEST_TEXT = 65536

MIDDLE = """(book 10 9)
(inh i0 n2)
(inh i1 n3)
(inh i2 n4)
(inh i3 n4)
(inh i4 n5)
(inh i5 n5)
(inh i6 n6)
(inh i7 n7)
(inh i8 n8)
(syn s0 n1)
(syn s1 n1)
(syn s2 n2)
(syn s3 n2)
(syn s4 n3)
(syn s5 n3)
(syn s6 n4)
(syn s7 n4)
(syn s8 n5)
(syn s9 n5)
(syn s10 n6)
(syn s11 n7)
(syn s12 n8)
(syn s13 n9)
(rule 0 n0 n1)
(rule 1 n1 t1 n7 n2)
(rule 2 n2 n3)
(rule 3 n2 n2 n3)
(rule 4 n3 t2 n4 n9 t7)
(rule 5 n3 t2 t8 n8 n9 t7)
(rule 6 n4 n5)
(rule 7 n4 n4 n5)
(rule 8 n5 t3 n6 t7)
(rule 9 n5 t3 t10 n6 t8)
(rule 10 n6)
(rule 11 n6 t4 n6)
(rule 12 n7 t5 n7)
(rule 13 n7 t6 n7)
(rule 14 n7)
(rule 15 n8 t4 n8)
(rule 16 n8 t4)
(rule 17 n9)
(rule 18 n9 t9)
(inhdef 1 2 i7 (val 1))
(inhdef 1 3 i0 (add (val 1) (at 2 s11)))
(inhdef 2 1 i1 (own i0))
(inhdef 3 1 i0 (own i0))
(inhdef 3 2 i1 (max (own i0) (at 1 s3)))
(inhdef 4 2 i2 (val 1))
(inhdef 4 2 i3 (own i1))
(inhdef 5 3 i8 (min (val 1) (val 2)))
(inhdef 6 1 i4 (own i2))
(inhdef 6 1 i5 (own i3))
(inhdef 7 1 i2 (own i2))
(inhdef 7 1 i3 (own i3))
(inhdef 7 2 i4 (sub (own i2) (at 1 s7)))
(inhdef 7 2 i5 (own i3))
(inhdef 8 2 i6 (add (own i4) (val 1)))
(inhdef 9 3 i6 (add (own i5) (val 2)))
(inhdef 11 2 i6 (add (own i6) (val 1)))
(inhdef 12 2 i7 (max (own i7) (val 1)))
(inhdef 13 2 i7 (sub (own i7) (val 1)))
(inhdef 15 2 i8 (max (own i8) (val 1)))
(syndef 1 s0 (at 3 s2))
(syndef 1 s1 (add (at 3 s3) (at 2 s11)))
(syndef 2 s2 (at 1 s4))
(syndef 2 s3 (at 1 s5))
(syndef 3 s2 (add (at 1 s2) (at 2 s4)))
(syndef 3 s3 (max (at 1 s3) (at 2 s5)))
(syndef 4 s4 (at 2 s6))
(syndef 4 s5 (pick (at 3 s13) (at 2 s7) 0))
(syndef 5 s4 (at 3 s12))
(syndef 5 s5 (pick (sub (at 3 s12) (own i1)) (at 4 s13) (val 5)))
(syndef 6 s6 (at 1 s8))
(syndef 6 s7 (at 1 s9))
(syndef 7 s6 (add (at 1 s6) (at 2 s8)))
(syndef 7 s7 (add (at 1 s7) (at 2 s9)))
(syndef 8 s8 (at 2 s10))
(syndef 8 s9 (pick (sub (own i4) (at 2 s10)) 1 0))
(syndef 9 s8 (sub (at 3 s10) (val 4)))
(syndef 9 s9 (own i5))
(syndef 10 s10 (own i6))
(syndef 11 s10 (at 2 s10))
(syndef 12 s11 (at 2 s11))
(syndef 13 s11 (at 2 s11))
(syndef 14 s11 (own i7))
(syndef 15 s12 (at 2 s12))
(syndef 16 s12 (add (own i8) (val 1)))
(syndef 17 s13 0)
(syndef 18 s13 (val 1))
"""


class Maker:
    """A grammar that grows rule by rule; every attribute gets a definition by `expression` when it is written."""

    def __init__(self, terminals, nonterminals, seed):
        self.grammar = grammars.Grammar(terminals, nonterminals)
        self.random = random.Random(seed)
        self.rule("n0", "n1")

    def rule(self, left, *right):
        self.grammar.rules.append((left, list(right)))

    def leaves(self, rule, before):
        """What a definition may read: numbers, own, and the right symbols before a place."""
        left, right = self.grammar.rules[rule]
        found = [str(self.random.choice([0, 1, 7, 255, 65536]))]
        found += [["own", f"i{k}"] for k, owner in enumerate(self.grammar.inh) if owner == left] * 2
        for place, symbol in enumerate(right[: before - 1], 1):
            if symbol[0] == "t":
                found.append(["val", str(place)])
            found += [["at", str(place), f"s{k}"] for k, owner in enumerate(self.grammar.syn) if owner == symbol]
        return found

    def expression(self, rule, before, operators):
        """A random expression with this number of operators over what may be read."""
        if operators == 0:
            return self.random.choice(self.leaves(rule, before))
        left = self.random.randrange(operators)
        sides = [self.expression(rule, before, left), self.expression(rule, before, operators - 1 - left)]
        return [self.random.choice(["add", "sub", "min", "max"]), *sides]

    def define(self, operators):
        """All definitions that are missing."""
        grammar = self.grammar
        for rule, (left, right) in enumerate(grammar.rules):
            for place, symbol in enumerate(right, 1):
                for k in grammar.attributes(symbol):
                    grammar.inhdefs.setdefault((rule, place, k), self.expression(rule, place, self.random.randrange(operators)))
            for k, owner in enumerate(grammar.syn):
                if owner == left:
                    grammar.syndefs.setdefault((rule, k), self.expression(rule, len(right) + 1, self.random.randrange(operators)))


class Sampler:
    """Random messages of a grammar."""

    def __init__(self, grammar, seed):
        self.rules, self.random = grammar.rules, random.Random(seed)
        self.below, self.cost = {}, {}
        for rule, (left, _) in enumerate(self.rules):
            self.below.setdefault(left, []).append(rule)
        for _ in self.below:
            self.cost.update({left: 1 + min(map(self.price, rules)) for left, rules in self.below.items()})

    def price(self, rule):
        """The least number of nodes below a rule."""
        return sum(1 if symbol[0] == "t" else self.cost.get(symbol, 9999) for symbol in self.rules[rule][1])

    def derivation(self, most):
        """Tokens, and the nodes of their tree: random rules, and the shortest ones when `most` tokens are passed."""
        tokens, pending, size = [], ["n0"], -1
        while pending:
            symbol = pending.pop()
            size += 1
            if symbol[0] == "t":
                tokens.append((int(symbol[1:]), self.random.choice([0, 1, 5, 100, 4294967295, self.random.randrange(1 << 32)])))
                continue
            rules = self.below[symbol]
            short = len(tokens) + len(pending) > most
            pending += reversed(self.rules[min(rules, key=self.price) if short else self.random.choice(rules)][1])
        return tokens, size

    def longest(self, tokens, nodes):
        """The longest of some messages within these limits."""
        tried = [self.derivation(self.random.randrange(tokens)) for _ in range(2000)]
        return max((message for message, size in tried if len(message) <= tokens and size <= nodes), key=len)


def copy_states(automaton, chosen):
    """Copies of some states: a go line from outside leads to the copy from now on, go lines among the copies stay among them."""
    number = {old: len(automaton.kernels) + place for place, old in enumerate(chosen)}
    for old in chosen:
        automaton.kernels.append(dict(automaton.kernels[old]))
        automaton.go.append({symbol: number.get(target, target) for symbol, target in automaton.go[old].items()})
    for state in range(len(automaton.kernels) - len(chosen)):
        for symbol, target in automaton.go[state].items():
            if target in number and state not in number:
                automaton.go[state][symbol] = number[target]
                return


def settle(automaton):
    """Hand lookaheads on until every target has at least those that it is owed."""
    changed = True
    while changed:
        changed = False
        for state in range(len(automaton.kernels)):
            for symbol, kernel in automaton.advanced(automaton.kernels[state]).items():
                changed |= automaton.widen(automaton.go[state][symbol], kernel)


def states_grammar():
    """Eight sorts of sections, each with a list and a tail of its own: 128 states."""
    m = Maker(31, 31, 4)
    m.rule("n1", "t1", "n2", "t31")
    m.rule("n2", "n3")
    m.rule("n2", "n2", "n3")
    for k in range(8):
        m.rule("n3", f"n{4 + k}")
    for k in range(8):
        section, entry, tail = f"n{4 + k}", f"n{12 + k}", f"n{20 + k}"
        m.rule(section, f"t{2 + k}", entry, f"t{10 + k}")
        m.rule(section, f"t{2 + k}", entry, tail, "t26", f"t{10 + k}")
        m.rule(entry)
        m.rule(entry, f"t{18 + k}", entry)
        m.rule(tail, "t27", "n28")
        m.rule(tail, "t29", "t30")
    m.rule("n28", "t28")
    m.rule("n28", "t29", "n29", "t30", "t28", "t28", "t28", "t28")
    m.rule("n29", "t28", "t27", "t26", "t25", "t24", "t23", "t22", "t21")
    m.rule("n29", "t27")
    m.grammar.inh = ["n2", "n3"] + [f"n{12 + k}" for k in range(8)] + [f"n{20 + k}" for k in range(6)]
    m.grammar.syn = ["n2", "n3"] + [f"n{4 + k}" for k in range(26)] + ["n1", "n1", "n28", "n29"]
    own_or_same(m.grammar)
    m.define(4)
    return m.grammar


def own_or_same(grammar):
    """A left recursive rule copies; rules that begin alike define alike, from the token before."""
    for rule, (left, right) in enumerate(grammar.rules):
        for place, symbol in enumerate(right, 1):
            for k in grammar.attributes(symbol):
                if place == 1 and symbol == left:
                    grammar.inhdefs[rule, place, k] = ["own", f"i{k}"]
                elif place > 1 and right[place - 2][0] == "t" and left != symbol:
                    grammar.inhdefs[rule, place, k] = ["add", ["val", str(place - 1)], str(k)]


def limits_grammar():
    """Six groups of eight rules that differ in their last symbol, over a list and some small nonterminals."""
    m = Maker(31, 31, 9)
    m.rule("n1", "n2")
    m.rule("n2")
    m.rule("n2", "n2", "n3")
    for g in range(6):
        m.rule("n3", f"n{4 + g}")
    for g in range(6):
        for last in range(8):
            m.rule(f"n{4 + g}", f"t{1 + g}", "n14", f"t{8 + g}", "n14", f"t{15 + g}", f"n{10 + g % 3}", f"t{22 + g}", f"t{1 + last}")
    m.rule("n10")
    m.rule("n10", "t29", "n10")
    m.rule("n11", "t30")
    m.rule("n12")
    m.rule("n14")
    m.rule("n14", "n14", "n3")
    m.grammar.inh = ["n2", "n2", "n3", "n3", "n11", "n4", "n5", "n6", "n7", "n8", "n9", "n15", "n15", "n16", "n16", "n17"]
    m.grammar.syn = [f"n{A}" for A in range(1, 32)] + ["n31"]
    own_or_same(m.grammar)
    m.define(3)
    return m.grammar


def limits_book(grammar):
    """128 states, lookaheads as large as they may be, 65,536 bytes."""
    automaton = lr.lalr(grammar)
    group = [s for s, kernel in enumerate(automaton.kernels) if any(grammar.rules[rule][0] == "n4" for rule, _ in kernel)]
    copy_states(automaton, group)
    last = [s for s, kernel in enumerate(automaton.kernels) if any(dot == 8 for _, dot in kernel)]
    for state in last[: 128 - len(automaton.kernels)]:
        copy_states(automaton, [state])
    owed = [dict(kernel) for kernel in automaton.kernels]
    for kernel in automaton.kernels:
        kernel.update({(rule, dot): (1 << 32) - 1 for rule, dot in kernel if len(grammar.rules[rule][1]) == 8})
    settle(automaton)
    small = sorted((dot, state, rule) for state, kernel in enumerate(automaton.kernels) for rule, dot in kernel if len(grammar.rules[rule][1]) == 8)
    for dot, state, rule in small:
        if len(maker.book_text(grammar, automaton)) <= LONGEST_TEXT:
            break
        kernel, item = automaton.kernels[state], (rule, dot)
        kernel[item] = owed[state][item]
    for a in range(32):
        if len(maker.book_text(grammar, automaton)) <= LONGEST_TEXT - 4:
            kernel[item] |= 1 << a
    assert not maker.faults(grammar, automaton)
    return fill_text(grammar, automaton)


def fill_text(grammar, automaton):
    """Lengthen numbers in definitions until the text has 65,536 bytes."""
    for key, expression in sorted(grammar.syndefs.items()):
        missing = LONGEST_TEXT - len(maker.book_text(grammar, automaton))
        if isinstance(expression, str) and missing > 0:
            grammar.syndefs[key] = "1" * min(10, len(expression) + missing)
    text = maker.book_text(grammar, automaton)
    assert len(text) == LONGEST_TEXT, len(text)
    return text


def formulas_grammar():
    """32 states whose partial states have four items each that give n7 or n8 one and the same large formula, another one for each terminal."""
    m = Maker(31, 10, 2)
    for t in range(1, 17):
        m.rule("n1", f"t{t}", "n2", f"t{t}", "n2")
    for B in range(3, 7):
        m.rule("n2", f"n{B}")
    for B in range(3, 7):
        for t in range(17, 25):
            m.rule(f"n{B}", "n7" if t % 2 else "n8", f"t{t}", f"t{22 + B}")
    m.rule("n7", "n9")
    m.rule("n8", "n9")
    m.rule("n9", "n10")
    m.rule("n10")
    m.grammar.inh = ["n2", "n3", "n4", "n5", "n6", "n7", "n7", "n8", "n8", "n9", "n9", "n9", "n10", "n10", "n10", "n10"]
    m.grammar.syn = ["n10", "n1"]
    for rule, (left, right) in enumerate(m.grammar.rules):
        if left in ("n3", "n4", "n5", "n6"):
            own = ["own", f"i{m.grammar.attributes(left)[0]}"]
            m.grammar.inhdefs.update({(rule, 1, k): large(own, right[1][1:], str(k)) for k in m.grammar.attributes(right[0])})
        if left == "n2":
            m.grammar.inhdefs.update({(rule, 1, k): ["own", "i0"] for k in m.grammar.attributes(right[0])})
    m.define(3)
    return m.grammar


def large(own, *numbers):
    """An expression of 14 nodes."""
    x, y = numbers
    return ["pick", ["add", own, x], ["max", ["sub", own, y], "9"], ["sub", ["add", own, own], y]]


def write(name, text, **messages):
    """A book and its messages."""
    (BOOKS / f"{name}.book").write_text(text)
    for length, tokens in messages.items():
        (BOOKS / f"{name}.{length}.tokens").write_text("".join(f"(tok {kind} {value})\n" for kind, value in tokens))


def lalr_book(grammar):
    """The book with merged states."""
    automaton = lr.lalr(grammar)
    faults = maker.faults(grammar, automaton)
    assert not faults, faults
    return maker.book_text(grammar, automaton)


def messages(grammar, long_tokens, long_nodes):
    """A short and a long message."""
    sampler = Sampler(grammar, 1)
    return {"short": sampler.longest(16, 40), "long": sampler.longest(long_tokens, long_nodes)}


def orchard():
    """The book of examples/, its message, and a message of a hundred days of which each seventh is missing."""
    examples = ROOT / "examples"
    text, lines = (examples / "orchard.book").read_text(), (examples / "orchard.txt").read_text().splitlines()
    tokens = [tuple(map(int, line[5:-1].split())) for line in lines if line.startswith("(tok ")]
    days = [(4, 0) if day % 7 == 6 else (3, day * 5 % 13) for day in range(100)]
    write("orchard", text, short=tokens, long=tokens[:2] + days)


def main():
    """All files."""
    BOOKS.mkdir(exist_ok=True)
    write("s", S, short=[(1, 100), (2, 5), (2, 7)], long=[(1, 100)] + [(2, value) for value in range(126)])
    orchard()
    middle, states, limits, formulas = grammars.read(MIDDLE), states_grammar(), limits_grammar(), formulas_grammar()
    write("middle", lalr_book(middle), **messages(middle, 120, 255))
    write("states", lalr_book(states), **messages(states, 120, 255))
    write("limits", limits_book(limits), **messages(limits, 250, 512))
    write("formulas", lalr_book(formulas), short=Sampler(formulas, 1).longest(16, 40))


if __name__ == "__main__":
    main()
