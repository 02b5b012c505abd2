"""Books and messages whose size is about one at which an engine may go another way: 32 states, 64 kernel or go lines, 48 definitions, 4,096 bytes; 8
states, 16 lines of each kind, 1,024 bytes; 16 or 32 rules; 256 kernel or go lines, 16,384 bytes; stacks of 32 and of 128 symbols under 24 tokens or a
few more; 253 partial states with definitions, and 62 in a message of few tokens; 64 definitions of inherited attributes."""

import grammar as grammars
import lr
import states
from generate import full, lists, shapes
from generate.books import random_book
from generate.grammars import grown
from oracle.answer import compiled

from .messages import some_lists


def add_book(rng, group, grammar, automaton):
    """A book that is taken, some messages, and the text with its last byte changed."""
    text = states.book_text(grammar, automaton).encode()
    assert compiled(text)[0] == 0
    group.base(text)
    group.add_all([text + lists.spelled(tokens).encode() for tokens in some_lists(rng, grammar, 4, (5, 15))] + [text[:-2] + b"]\n"])


def around(middle):
    """A number and its neighbours."""
    return (middle - 1, middle, middle + 1)


def counts_of_states(rng, group, shape, wanted):
    """States, kernel lines and go lines, by copies of states that nothing reaches."""
    for name, middle in wanted.items():
        for count in around(middle):
            grammar, automaton, _ = random_book(rng, shape(), 1, True)
            add_book(rng, group, grammar, full.filled(automaton, **{name: count}))


def counts_of_definitions(rng, group, growing, middle, longest):
    """Definitions of random books."""
    wanted = set(around(middle))
    while wanted:
        grammar, automaton, text = random_book(rng, rng.choice(growing)(), 4, True)
        count = text.count("(inhdef") + text.count("(syndef")
        if count in wanted and len(text) <= longest and compiled(text.encode())[0] == 0:
            wanted.remove(count)
            add_book(rng, group, grammar, automaton)


def counts_of_rules(rng, group, middle, longest):
    """Rules of a list, with some between them of a nonterminal that nothing uses."""
    wanted = list(around(middle))
    while wanted:
        more = (f"n3 t{rng.randint(1, 2)} n3" for _ in range(wanted[0] - 4))
        grammar, automaton, text = random_book(rng, shapes.of_rules(2, 3, "n0 n1", "n1 n2", *more, "n2", "n2 n2 t1"), 1, True)
        if len(text) <= longest and compiled(text.encode())[0] == 0:
            del wanted[0]
            add_book(rng, group, grammar, automaton)


def forked():
    """Six rules that differ in their last symbol: six kernel lines in a state."""
    return shapes.of_rules(6, 1, "n0 n1", *(f"n1 t1 t2 t3 t{which}" for which in range(1, 7)))


def lengths(rng, group, shape, shortest, longest, middle):
    """Texts of about so many bytes, by more lookaheads."""
    grammar, automaton, text = random_book(rng, shape(), 1, True)
    while not shortest <= len(text) <= longest or compiled(text.encode())[0]:
        grammar, automaton, text = random_book(rng, shape(), 1, True)
    for more in (-5, -4, -3, -1, 0, 1):
        add_book(rng, group, grammar, full.padded(grammar, automaton, middle + more))


def taken(grammar, automaton):
    """Whether the book is taken."""
    return compiled(states.book_text(grammar, automaton).encode())[0] == 0


def longer(rng, group, shape, middle):
    """Texts of about so many bytes, by copies of states that nothing reaches and then by a few more lookaheads."""
    books = []
    while not (books and all(taken(*book) for book in books)):
        grammar, automaton, _ = random_book(rng, shape(), 1, True)
        sized = (full.filled(automaton, all_states=count) for count in range(len(automaton.kernels), 129))
        near = [other for other in sized if middle - 200 <= full.text_bytes(grammar, other) <= middle - 20]
        books = [(grammar, full.padded(grammar, other, middle + more)) for other in near[:1] for more in (-5, -4, -3, -1, 0, 1)]
    for book in books:
        add_book(rng, group, *book)


# A token t1 stands on the stack with six empty symbols, t3 alone: few tokens need a stack of any depth.
DEEP = """(book 3 2)
(inh i0 n1)
(syn s0 n1)
(syn s1 n2)
(rule 0 n0 n1)
(rule 1 n1 t1 n2 n2 n2 n2 n2 n2 n1)
(rule 2 n1 t3 n1)
(rule 3 n1 t2)
(rule 4 n2)
(inhdef 0 1 i0 7)
(inhdef 1 8 i0 (add (own i0) (at 2 s1)))
(inhdef 2 2 i0 (sub (own i0) (val 1)))
(syndef 1 s0 (max (at 8 s0) (own i0)))
(syndef 2 s0 (add (at 2 s0) (val 1)))
(syndef 3 s0 (add (val 1) (own i0)))
(syndef 4 s1 3)
"""


def depths(group):
    """Stacks of about 32 and 128 symbols under few tokens, and messages of about 24 tokens with a shallow stack; some end too early."""
    grammar = grammars.read(DEEP)
    text = states.book_text(grammar, lr.canonical(grammar, 128)).encode()
    assert compiled(text)[0] == 0
    group.base(text)
    deep = [[1] * ((depth - 1) // 7) + [3] * ((depth - 1) % 7) + [2] for middle in (32, 128) for depth in range(middle - 2, middle + 4)]
    long = [[3] * (count - 1) + [2] for count in (23, 24, 25, 33, 34)]
    for kinds in deep + long:
        for ended in (kinds, kinds[:-1], kinds + [2]):
            group.add(text + lists.spelled([(kind, 10 * place) for place, kind in enumerate(ended)]).encode())


LETTERS = 15


def empties():
    """n1 -> n1 tJ n2 n3 n4 for each of 15 terminals, all nonterminals empty: n2, n3 and n4 are given values before every token that follows."""
    grammar = shapes.of_rules(LETTERS, 4, "n0 n1", "n1", *(f"n1 n1 t{which + 1} n2 n3 n4" for which in range(LETTERS)), "n2", "n3", "n4")
    grammar.inh, grammar.syn = ["n2", "n3", "n4"], ["n1", "n2", "n3", "n4"]
    grammar.syndefs[1, 0] = "1"
    for rule in range(2, 2 + LETTERS):
        grammar.inhdefs[rule, 3, 0] = ["add", ["val", "2"], str(rule)]
        grammar.inhdefs[rule, 4, 1] = ["sub", ["at", "3", "s1"], ["at", "1", "s0"]]
        grammar.inhdefs[rule, 5, 2] = ["max", ["at", "4", "s2"], ["val", "2"]]
        grammar.syndefs[rule, 0] = ["add", ["at", "5", "s3"], ["at", "3", "s1"]]
    for which in range(3):
        grammar.syndefs[2 + LETTERS + which, 1 + which] = ["own", f"i{which}"]
    return grammar


def walk(length):
    """Letters of which no two that follow one another are met again, as long as there are such."""
    follows, letters = [LETTERS] * LETTERS, [0]
    while len(letters) < length:
        follows[letters[-1]] -= 1
        letters.append(follows[letters[-1]])
    return letters


def many_partial_states(group, messages):
    """Messages that meet many partial states with definitions, three for each token."""
    grammar = empties()
    text = states.book_text(grammar, lr.canonical(grammar, 128)).encode()
    assert compiled(text)[0] == 0
    group.base(text)
    for kinds in messages:
        group.add(text + lists.spelled([(kind + 1, 5 * place) for place, kind in enumerate(kinds)]).encode())


def side_by_side(fours, twos, ones):
    """n1 -> tJ n2 n3 n1, n1 -> tJ n3 n1 and n1 -> tJ n1, so many of each: four, two and one definitions of inherited attributes in a rule, of the four two for
    n2 behind one dot. One more stands in the rule of the start, and one at the front of the last rule of n1, n1 -> n3."""
    letters = [f"n1 t{which + 1} {right}n1" for which, right in enumerate(["n2 n3 "] * fours + ["n3 "] * twos + [""] * ones)]
    grammar = shapes.of_rules(len(letters), 3, "n0 n1", *letters, "n1 n3", "n2", "n3")
    grammar.inh, grammar.syn = ["n2", "n2", "n3", "n1"], ["n1", "n2", "n3"]
    grammar.inhdefs[0, 1, 3] = "9"
    for rule, letter in enumerate(letters, 1):
        right = letter.split()[1:]
        last = len(right)
        if "n2" in right:
            grammar.inhdefs[rule, 2, 0] = ["add", ["val", "1"], str(rule)]
            grammar.inhdefs[rule, 2, 1] = ["sub", ["own", "i3"], ["val", "1"]]
        if "n3" in right:
            grammar.inhdefs[rule, last - 1, 2] = ["max", ["own", "i3"], ["at", "2", "s1"] if "n2" in right else ["val", "1"]]
        grammar.inhdefs[rule, last, 3] = ["add", ["own", "i3"], ["at", str(last - 1), "s2"] if "n3" in right else ["val", "1"]]
        grammar.syndefs[rule, 0] = ["add", ["at", str(last), "s0"], ["val", "1"]]
    rule = 1 + len(letters)
    grammar.inhdefs[rule, 1, 2] = ["add", ["own", "i3"], "5"]
    grammar.syndefs[rule, 0] = ["at", "1", "s2"]
    grammar.syndefs[rule + 1, 1] = ["sub", ["own", "i0"], ["own", "i1"]]
    grammar.syndefs[rule + 2, 2] = ["add", ["own", "i2"], "1"]
    return grammar


def counts_of_inherited_definitions(rng, group):
    """About 64 definitions of inherited attributes, and nearly 100; messages that use those of many rules."""
    for numbers in ((14, 2, 1), (14, 2, 2), (14, 2, 3), (22, 2, 2)):
        grammar = side_by_side(*numbers)
        text = states.book_text(grammar, lr.canonical(grammar, 128)).encode()
        assert compiled(text)[0] == 0
        group.base(text)
        for count in (0, 1, 5, 20, 40):
            kinds = [rng.randint(1, grammar.terminals) for _ in range(count)] + list(range(max(1, grammar.terminals - 4), grammar.terminals + 1))
            group.add(text + lists.spelled(lists.with_values(rng, kinds)).encode())


def fill(rng, group):
    """All of these."""
    counts_of_states(rng, group, shapes.sums, {"all_states": 32, "all_kernels": 64, "all_goes": 64})
    counts_of_definitions(rng, group, shapes.GROWING, 48, 4000)
    lengths(rng, group, lambda: grown(rng, 31, 6, 14, 30, True), 2500, 3800, 4096)
    counts_of_states(rng, group, shapes.left_list, {"all_states": 8, "all_kernels": 16, "all_goes": 16})
    counts_of_definitions(rng, group, (shapes.right_list, shapes.left_list, shapes.right_list_of_tokens), 16, 1000)
    lengths(rng, group, lambda: grown(rng, 31, 3, 5, 30, True), 600, 900, 1024)
    depths(group)
    letters = walk(103)
    many_partial_states(group, (letters[:84], letters[:85], letters[:102], letters, letters[:96] + letters[:6], letters[:90] + [7] * 12))
    counts_of_rules(rng, group, 16, 800)
    counts_of_rules(rng, group, 32, 2000)
    counts_of_states(rng, group, forked, {"all_kernels": 256})
    counts_of_states(rng, group, shapes.sums, {"all_goes": 256})
    longer(rng, group, lambda: grown(rng, 31, 14, 40, 30, True), 16384)
    many_partial_states(group, [letters[:count] for count in range(19, 26)] + [letters[:21] + letters[:3], letters[:22] + letters[:2]])
    counts_of_inherited_definitions(rng, group)
