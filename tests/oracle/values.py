"""Values: operators modulo 2^32, expressions, the words of a row."""

WORD = 1 << 32


def operate(word, operands):
    """The value of an operator on values."""
    match word, operands:
        case "add", [x, y]:
            return (x + y) % WORD
        case "sub", [x, y]:
            return (x - y) % WORD
        case "min", [x, y]:
            return min(x, y)
        case "max", [x, y]:
            return max(x, y)
        case "pick", [condition, x, y]:
            return y if condition == 0 else x
    raise ValueError(word)


def meaning_of(expression, leaf):
    """The value of an expression; `leaf` gives those of own, at and val."""
    word, *parts = expression
    if word == "number":
        return parts[0]
    if word in ("own", "at", "val"):
        return leaf(word, *parts)
    return operate(word, [meaning_of(part, leaf) for part in parts])


def inherited_of(book, which):
    """The inherited attributes of a nonterminal, ascending."""
    return [attribute for attribute, owner in enumerate(book.inh) if owner == which]


def synthesized_of(book, which):
    """The synthesized attributes of a nonterminal, ascending."""
    return [attribute for attribute, owner in enumerate(book.syn) if owner == which]


def row_of(kind, start, inherited, synthesized):
    """The ten words of a row."""
    return [kind, start] + (inherited + [0] * 4)[:4] + (synthesized + [0] * 4)[:4]
