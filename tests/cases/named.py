"""The cases that document 01 names, with its answers written by hand: S, K, the table's rows, the edges, two cases of document 003."""

import grammar as grammars
import lr
import states

S = """(book 2 2 6)
(inh i0 n2)
(syn s0 n1)
(syn s1 n2)
(rule 0 n0 n1)
(rule 1 n1 t1 n2)
(rule 2 n2)
(rule 3 n2 t2 n2)
(inhdef 1 2 i0 (val 1))
(inhdef 3 2 i0 (add (own i0) (val 1)))
(syndef 1 s0 (at 2 s1))
(syndef 2 s1 (own i0))
(syndef 3 s1 (at 2 s1))
(kernel 0 0 0 t0)
(kernel 1 1 1 t0)
(kernel 2 0 1 t0)
(kernel 3 3 1 t0)
(kernel 4 1 2 t0)
(kernel 5 3 2 t0)
(go 0 t1 1)
(go 0 n1 2)
(go 1 t2 3)
(go 1 n2 4)
(go 3 t2 3)
(go 3 n2 5)
(end)
"""
S_TOKENS = "(tok 1 100)\n(tok 2 5)\n(tok 2 7)\n"
S_ROWS = """(row 65 0 0 0 0 0 100 0 0 0)
(row 66 1 0 0 0 0 5 0 0 0)
(row 66 2 0 0 0 0 7 0 0 0)
(row 2 3 112 0 0 0 112 0 0 0)
(row 3 2 105 0 0 0 112 0 0 0)
(row 3 1 100 0 0 0 112 0 0 0)
(row 1 0 0 0 0 0 112 0 0 0)
(accepted 7)
"""
TWO_FORMULAS = """(book 2 2)
(inh i0 n2)
(syn s0 n1)
(syn s1 n2)
(rule 0 n0 n1)
(rule 1 n1 t1 n2)
(rule 2 n2)
(rule 3 n2 n2 t2)
(inhdef 1 2 i0 (val 1))
(inhdef 3 1 i0 (own i0))
(syndef 1 s0 (at 2 s1))
(syndef 2 s1 (own i0))
(syndef 3 s1 (at 1 s1))
"""
K = "(book 1 2)\n(rule 0 n0 n1)\n(rule 1 n1 n1 n2)\n(rule 2 n1 n2)\n(rule 3 n2 t1)\n"
# Document 003: t1 is the digit 0, t2 the digit 1; n1 is N, n2 is L, n3 is B. Value, then length.
BINARY = """(book 2 3)
(syn s0 n1)
(syn s1 n1)
(syn s2 n2)
(syn s3 n2)
(syn s4 n3)
(rule 0 n0 n1)
(rule 1 n3 t1)
(rule 2 n3 t2)
(rule 3 n2 n3)
(rule 4 n2 n2 n3)
(rule 5 n1 n2)
(syndef 1 s4 0)
(syndef 2 s4 1)
(syndef 3 s2 (at 1 s4))
(syndef 3 s3 1)
(syndef 4 s2 (add (add (at 1 s2) (at 1 s2)) (at 2 s4)))
(syndef 4 s3 (add (at 1 s3) 1))
(syndef 5 s0 (at 1 s2))
(syndef 5 s1 (at 1 s3))
"""
# Document 003 without left recursion: t1 is an integer, t2 plus, t3 minus; n1 is S, n2 is E, n3 is R, n4 is T.
SUMS = """(book 3 4)
(inh i0 n3)
(syn s0 n1)
(syn s1 n2)
(syn s2 n3)
(syn s3 n4)
(rule 0 n0 n1)
(rule 1 n1 n2)
(rule 2 n2 n4 n3)
(rule 3 n3 t2 n4 n3)
(rule 4 n3 t3 n4 n3)
(rule 5 n3)
(rule 6 n4 t1)
(inhdef 2 2 i0 (at 1 s3))
(inhdef 3 3 i0 (add (own i0) (at 2 s3)))
(inhdef 4 3 i0 (sub (own i0) (at 2 s3)))
(syndef 1 s0 (at 1 s1))
(syndef 2 s1 (at 2 s2))
(syndef 3 s2 (at 3 s2))
(syndef 4 s2 (at 3 s2))
(syndef 5 s2 (own i0))
(syndef 6 s3 (val 1))
"""


def whole(text, build=lr.canonical):
    """The book of a grammar's text."""
    grammar = grammars.read(text)
    return states.book_text(grammar, build(grammar))


def tokens(*pairs):
    """Token lines."""
    return "".join(f"(tok {kind} {value})\n" for kind, value in pairs)


def swapped(text, *pairs):
    """A text with each first of a pair replaced by the second; the first must stand just once."""
    for old, new in pairs:
        assert text.count(old) == 1, old
        text = text.replace(old, new)
    return text


def refused(number):
    """What the desk program prints for a refusal."""
    return f"(refused {number})\n"


def cases():
    """(name, input, output). An output that starts with `...` says only how it ends."""
    split = swapped(whole(TWO_FORMULAS), ("(inhdef 3 1 i0 (own i0))", "(inhdef 3 1 i0 (add (own i0) 1))"))
    long_list = ((2, 1),)
    yield "S", S + S_TOKENS, S_ROWS
    yield "row 2", swapped(S, ("(rule 1 ", "(rule 01 ")) + S_TOKENS, refused(2)
    yield "row 3", swapped(S, ("(book 2 ", "(book 32 ")) + S_TOKENS, refused(3)
    yield "row 4", swapped(S, ("(rule 1 n1 t1 n2)", "(rule 1 n1 t3 n2)")) + S_TOKENS, refused(4)
    yield "row 5", swapped(S, ("(inhdef 1 2 i0 (val 1))", "(inhdef 1 2 i0 (val 2))")) + S_TOKENS, refused(5)
    yield "row 6", swapped(S, ("(syndef 2 s1 (own i0))\n", "")) + S_TOKENS, refused(6)
    yield "row 7", swapped(S, ("(kernel 1 1 1 t0)", "(kernel 1 1 0 t0)")) + S_TOKENS, refused(7)
    yield "row 8", swapped(S, ("(go 3 n2 5)\n", "")) + S_TOKENS, refused(8)
    yield "row 9", swapped(S, ("(kernel 3 3 1 t0)", "(kernel 3 3 1 t0 t2)"), ("(kernel 5 3 2 t0)", "(kernel 5 3 2 t0 t2)")) + S_TOKENS, refused(9)
    yield "row 10", split + S_TOKENS, refused(10)
    yield "row 13", S + tokens((1, 0), *(long_list * 255)), refused(13)
    yield "row 14", S + tokens((1, 0), (3, 0)), refused(14)
    yield "row 15", S, refused(15)
    yield "row 16", whole(K) + tokens(*(((1, 7),) * 171)), refused(16)
    yield "row 17", S + tokens((1, 0), *(long_list * 127)), refused(17)
    yield "row 10 with own alone", whole(TWO_FORMULAS) + tokens((1, 5), (2, 0)), "...(row 1 0 0 0 0 0 5 0 0 0)\n(accepted 5)\n"
    yield "K with 170 tokens", whole(K) + tokens(*(((1, 7),) * 170)), "...(accepted 510)\n"
    yield "S with 126 t2", S + tokens((1, 0), *(long_list * 126)), "...(row 1 0 0 0 0 0 126 0 0 0)\n(accepted 255)\n"
    yield "binary 101", whole(BINARY) + tokens((2, 0), (1, 0), (2, 0)), "...(row 5 0 0 0 0 0 5 3 0 0)\n(accepted 10)\n"
    yield "2-3+4", whole(SUMS) + tokens((1, 2), (3, 0), (1, 3), (2, 0), (1, 4)), "...(row 1 0 0 0 0 0 3 0 0 0)\n(accepted 13)\n"
    yield "misspelt token before 3", swapped(S, ("(book 2 ", "(book 32 ")) + "(tok 1  1)\n", refused(2)
    yield "no end line", swapped(S, ("(end)\n", "")) + S_TOKENS, refused(2)


def agrees(output, expected):
    """Whether an output is the expected one, or ends as it says."""
    return output.endswith(expected[3:]) if expected.startswith("...") else output == expected


def fill(rng, group):
    """The named cases; what the oracle says must be what 01 says."""
    group.base(S.encode())
    for name, given, expected in cases():
        group.add(given.encode())
        assert agrees(group.output.decode(), expected), name
