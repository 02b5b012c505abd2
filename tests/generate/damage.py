"""Damaged texts. A damage is (at, cut, put): the bytes to cut at a place, and those to put there."""

import re

BYTES = b"0123456789abcdefghijklmnopqrstuvwxyz() \n\t\r\0-+.,;[]{}ABTN\x7f\x80\xff"
NUMBERS = ("0", "1", "2", "3", "8", "9", "15", "16", "17", "31", "32", "33", "63", "64", "65", "127", "128", "129", "00", "01", "007",
           "4294967295", "4294967296", "9999999999", "10000000000", "04294967295", "-1", "")
EXPRESSIONS = ("0", "1", "(own i0)", "(own i1)", "(val 1)", "(val 2)", "(val 0)", "(val 9)", "(at 1 s0)", "(at 2 s1)", "(at 1 s2)", "(add 1 1)",
               "(sub 0 1)", "(min 1 2)", "(max (own i0) 1)", "(pick 0 1 2)", "(pick 1 2)", "(add 1)", "(add 1 2 3)", "(own s0)", "(at 1 i0)", "(val t1)",
               "(mul 1 2)", "(add (add (add 1 2) (add 3 4)) (add (add 5 6) (add 7 8)))", "(add (add (add 1 2) (add 3 4)) (add (add 5 6) (add 7 (add 8 9))))",
               "()", "(1)", "((val 1))", "own")


def one_byte(rng, text):
    """Change, cut or put one byte."""
    at = rng.randrange(len(text))
    byte = bytes([rng.choice(BYTES)])
    return rng.choice(((at, 1, byte), (at, 1, b""), (at, 0, byte)))


def another_number(rng, text):
    """Change a number, or the number of a name."""
    found = rng.choice(list(re.finditer(rb"[0-9]+", text)))
    old = int(found[0])
    number = rng.choice((str(old + 1), str(max(0, old - 1)), str(old + rng.randint(2, 5)), rng.choice(NUMBERS)))
    return found.start(), len(found[0]), number.encode()


def another_letter(rng, text):
    """Change the letter of a name."""
    found = rng.choice(list(re.finditer(rb"[tnis](?=[0-9])", text)))
    return found.start(), 1, rng.choice((b"t", b"n", b"i", b"s", b"x", b""))


def line_spans(text):
    """Start and length of each line."""
    return [(found.start(), len(found[0])) for found in re.finditer(rb"[^\n]*\n", text)]


def without_a_line(rng, text):
    """Cut a line."""
    return *rng.choice(line_spans(text)), b""


def a_line_twice(rng, text):
    """Put a line twice."""
    at, length = rng.choice(line_spans(text))
    return at, 0, text[at : at + length]


def lines_changed(rng, text):
    """Let two lines that follow each other change places."""
    spans = line_spans(text)
    place = rng.randrange(len(spans) - 1)
    (at, first), (_, second) = spans[place], spans[place + 1]
    return at, first + second, text[at + first : at + first + second] + text[at : at + first]


def another_expression(rng, text):
    """Change a definition."""
    found = rng.choice(list(re.finditer(rb"(?<=[is][0-9] )(\(.*\)|[0-9]+)(?=\)\n)", text)) or list(re.finditer(rb"book", text)))
    return found.start(), len(found[0]), rng.choice(EXPRESSIONS).encode()


def lookahead_lines(text):
    """The kernel lines, as matches up to the lookaheads, and these."""
    return list(re.finditer(rb"(\(kernel [0-9]+ [0-9]+ [0-9]+ )([t0-9 ]+)", text))


def other_lookaheads(rng, text):
    """Add or take lookaheads in order."""
    found = rng.choice(lookahead_lines(text))
    have = {int(word[1:]) for word in found[2].split()}
    have ^= {rng.randint(0, 4) for _ in range(rng.randint(1, 3))}
    names = " ".join(f"t{k}" for k in sorted(have))
    return found.start(2), len(found[2]), names.encode()


def another_kernel(rng, text):
    """Change rule or dot of a kernel line a little, or put a line in."""
    found = rng.choice(list(re.finditer(rb"\(kernel ([0-9]+) ([0-9]+) ([0-9]+) ", text)))
    state, rule, dot = int(found[1]), int(found[2]), int(found[3])
    if rng.random() < 0.5:
        return found.start(), 0, b"(kernel %d %d %d t%d)\n" % (state, rule, max(0, dot - 1), rng.randint(0, 2))
    which = rng.choice((2, 3))
    return found.start(which), len(found[which]), str(max(0, int(found[which]) + rng.choice((-1, 1)))).encode()


def another_target(rng, text):
    """Change symbol or target of a go line, or put a line in."""
    found = rng.choice(list(re.finditer(rb"\(go ([0-9]+) [tn]([0-9]+) ([0-9]+)", text)))
    if rng.random() < 0.3:
        return found.end() + 2, 0, b"(go %d n%d %d)\n" % (int(found[1]), int(found[2]) + rng.randint(0, 2), int(found[3]))
    which = rng.choice((2, 3))
    return found.start(which), len(found[which]), str(max(0, int(found[which]) + rng.choice((-1, 1, 2)))).encode()


def another_right_side(rng, text):
    """Cut or put a symbol of a rule, or many."""
    found = rng.choice(list(re.finditer(rb"\(rule [0-9]+ n[0-9]+([^)]*)", text)))
    symbols = found[1].split()
    way = rng.randrange(4)
    if way == 0 and symbols:
        del symbols[rng.randrange(len(symbols))]
    elif way == 1:
        symbols *= 5
    else:
        symbols.insert(rng.randint(0, len(symbols)), rng.choice((b"t0", b"t1", b"t2", b"t9", b"n0", b"n1", b"n2", b"n9", b"t31", b"n31")))
    return found.start(1), len(found[1]), b"".join(b" " + symbol for symbol in symbols)


WAYS = (one_byte, one_byte, another_number, another_number, another_letter, without_a_line, a_line_twice, lines_changed, another_expression,
        another_expression, other_lookaheads, other_lookaheads, another_kernel, another_target, another_right_side)


def random_damage(rng, text):
    """A damage of some kind. Texts without states or rules get bytes changed."""
    way = rng.choice(WAYS)
    try:
        return way(rng, text)
    except (IndexError, ValueError):
        return one_byte(rng, text)


def applied(text, damage):
    """The damaged text."""
    at, cut, put = damage
    return text[:at] + put + text[at + cut :]
