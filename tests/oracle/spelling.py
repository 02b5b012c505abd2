"""Spelling of a book (2): reads a text into a Book strictly as document 01 spells it, or raises Misspelt."""

import re
from dataclasses import dataclass, field

LARGEST = 4294967295
KINDS = ["book", "inh", "syn", "rule", "inhdef", "syndef", "kernel", "go", "end"]
OPERANDS = {"add": 2, "sub": 2, "min": 2, "max": 2, "pick": 3}
NUMBER = re.compile("0|[1-9][0-9]{0,9}")
PIECE = re.compile("[a-z0-9]+|.", re.DOTALL)
WORD = re.compile("[a-z0-9]+")
MAY_FOLLOW = {"(": "(w", "w": " )", " ": "(w", ")": " )"}


class Misspelt(Exception):
    """The text is no book (2)."""


@dataclass
class Book:
    """A book as it is written. A symbol is a pair: its letter, t or n, and its number. An expression is a tuple: a word, then its parts."""

    terminals: int = 0
    nonterminals: int = 0
    states: int = 0
    inh: list = field(default_factory=list)  # owner of i0, i1, ..
    syn: list = field(default_factory=list)  # owner of s0, s1, ..
    rules: list = field(default_factory=list)  # (left side's number, tuple of right symbols)
    inhdefs: dict = field(default_factory=dict)  # (P, J, K) -> expression
    syndefs: dict = field(default_factory=dict)  # (P, K) -> expression
    kernels: dict = field(default_factory=dict)  # (S, P, D) -> tuple of lookaheads
    goes: dict = field(default_factory=dict)  # (S, X) -> M
    nodes: list = field(default_factory=list)  # of each definition, in the order of the lines


def need(holds):
    """Every test of this file."""
    if not holds:
        raise Misspelt


def lines_of(text):
    """The lines of a text, each ended by a line feed."""
    need(text == "" or text.endswith("\n"))
    return text.split("\n")[:-1]


def form_of(line):
    """The bracketed form that a line is: nested lists of words. Single spaces between items, none at the edges of brackets."""
    open_forms, before, whole = [], None, None
    for piece in PIECE.findall(line):
        sort = "w" if WORD.fullmatch(piece) else piece
        need(whole is None and sort in MAY_FOLLOW)
        need(sort == "(" if before is None else sort in MAY_FOLLOW[before])
        if sort == "(":
            open_forms.append([])
        elif sort == "w":
            open_forms[-1].append(piece)
        elif sort == ")":
            closed = open_forms.pop()
            if open_forms:
                open_forms[-1].append(closed)
            else:
                whole = closed
        before = sort
    need(whole is not None)
    return whole


def number(item):
    """1 to 10 digits, at most 4,294,967,295, no leading zero."""
    need(isinstance(item, str) and NUMBER.fullmatch(item) and int(item) <= LARGEST)
    return int(item)


def name(letter, item):
    """The number of a name with that letter."""
    need(isinstance(item, str) and item[:1] == letter)
    return number(item[1:])


def symbol(item):
    """A terminal or a nonterminal."""
    need(isinstance(item, str) and item[:1] in ("t", "n"))
    return item[0], number(item[1:])


def leaf(item):
    """An expression without operands that are expressions, or None."""
    if isinstance(item, str):
        return "number", number(item)
    match item:
        case ["own", attribute]:
            return "own", name("i", attribute)
        case ["at", place, attribute]:
            return "at", number(place), name("s", attribute)
        case ["val", place]:
            return "val", number(place)
    return None


def expression(item):
    """An expression and its number of nodes. No recursion: a rightly spelled one may nest as deep as the text is long."""
    pending, done, nodes = [(item, False)], [], 0
    while pending:
        item, operands_done = pending.pop()
        if operands_done:
            count = OPERANDS[item[0]]
            operands = done[-count:]
            del done[-count:]
            done.append((item[0], *operands))
            continue
        nodes += 1
        plain = leaf(item)
        if plain:
            done.append(plain)
        else:
            need(item and isinstance(item[0], str) and len(item) == 1 + OPERANDS.get(item[0], -1))
            pending.append((item, True))
            pending.extend((operand, False) for operand in reversed(item[1:]))
    return done[0], nodes


def put(table, key, value, order=lambda key: key):
    """Add a line to a table whose keys must ascend strictly."""
    need(not table or order(next(reversed(table))) < order(key))
    table[key] = value


def go_order(key):
    """Go lines ascend by S, then terminals before nonterminals, then K."""
    state, (letter, which) = key
    return state, letter == "n", which


def define(book, table, key, item):
    """Add a definition."""
    meaning, nodes = expression(item)
    put(table, key, meaning)
    book.nodes.append(nodes)


def add_line(book, form):
    """Add one line, whose kind is known, to the book."""
    match form:
        case ["book", t, n, q]:
            book.terminals, book.nonterminals, book.states = number(t), number(n), number(q)
        case ["inh", k, a]:
            need(name("i", k) == len(book.inh))
            book.inh.append(name("n", a))
        case ["syn", k, a]:
            need(name("s", k) == len(book.syn))
            book.syn.append(name("n", a))
        case ["rule", k, a, *right]:
            need(number(k) == len(book.rules))
            book.rules.append((name("n", a), tuple(map(symbol, right))))
        case ["inhdef", p, j, k, e]:
            define(book, book.inhdefs, (number(p), number(j), name("i", k)), e)
        case ["syndef", p, k, e]:
            define(book, book.syndefs, (number(p), name("s", k)), e)
        case ["kernel", s, p, d, *lookaheads]:
            ahead = tuple(name("t", item) for item in lookaheads)
            need(ahead and all(x < y for x, y in zip(ahead, ahead[1:])))
            put(book.kernels, (number(s), number(p), number(d)), ahead)
        case ["go", s, x, m]:
            put(book.goes, (number(s), symbol(x)), number(m), go_order)
        case ["end"]:
            pass
        case _:
            raise Misspelt


def read_book(text):
    """The book that a text spells."""
    forms = [form_of(line) for line in lines_of(text)]
    kinds = [form[0] if isinstance(form[0], str) else None for form in forms]
    need(all(kind in KINDS for kind in kinds))
    places = [KINDS.index(kind) for kind in kinds]
    need(places == sorted(places) and kinds.count("book") == 1 and kinds.count("end") == 1)
    book = Book()
    for form in forms:
        add_line(book, form)
    return book


def read_tokens(text):
    """The kinds and values of `(tok kind value)` lines."""
    tokens = []
    for line in lines_of(text):
        match form_of(line):
            case ["tok", kind, value]:
                tokens.append((number(kind), number(value)))
            case _:
                raise Misspelt
    return tokens
