"""Random attributes and definitions: left to right always, and mostly with one formula in each partial state."""

from splits import Splits

OPERATORS = ("add", "sub", "min", "max", "pick")
NUMBERS = (0, 0, 1, 1, 2, 3, 7, 10, 100, 65535, 2147483648, 4294967294, 4294967295)


def give_attributes(rng, grammar, most_each):
    """Hand out attributes in random order, and take the last ones back while there would be more than 128 definitions."""
    names = [f"n{k}" for k in range(1, grammar.nonterminals + 1)]
    inh = [name for name in names for _ in range(rng.randint(0, most_each))]
    syn = [name for name in names for _ in range(rng.randint(0, most_each))]
    rng.shuffle(inh)
    rng.shuffle(syn)
    grammar.inh, grammar.syn = inh[:16], syn[:32]
    while len(inherited_targets(grammar)) + len(synthesized_targets(grammar)) > 128:
        (grammar.syn if len(grammar.syn) > len(grammar.inh) else grammar.inh).pop()


def inherited_targets(grammar):
    """All (P, J, K) that need a definition."""
    return [
        (rule, place, k)
        for rule, (_, right) in enumerate(grammar.rules)
        for place, symbol in enumerate(right, 1)
        for k in grammar.attributes(symbol)
    ]


def synthesized_targets(grammar):
    """All (P, K) that need a definition."""
    return [(rule, k) for rule, (left, _) in enumerate(grammar.rules) for k, owner in enumerate(grammar.syn) if owner == left]


def leaves(grammar, rule, before):
    """What a definition may read: own, and what stands left of a place."""
    left, right = grammar.rules[rule]
    found = [["own", f"i{k}"] for k in grammar.attributes(left)]
    for place, symbol in enumerate(right[: before - 1], 1):
        if symbol[0] == "t":
            found.append(["val", str(place)])
        found += [["at", str(place), f"s{k}"] for k, owner in enumerate(grammar.syn) if owner == symbol]
    return found


def random_expression(rng, choice, nodes):
    """An expression with about that many nodes over the leaves given."""
    if nodes < 3:
        return rng.choice(choice) if choice and rng.random() < 0.85 else str(rng.choice(NUMBERS))
    word = rng.choice(OPERATORS if nodes >= 4 else OPERATORS[:-1])
    count = 3 if word == "pick" else 2
    sizes = [1] * count
    for _ in range(nodes - 1 - count):
        sizes[rng.randrange(count)] += 1
    return [word] + [random_expression(rng, choice, size) for size in sizes]


def random_nodes(rng):
    """A number of nodes from 1 to 15, mostly small."""
    return rng.choice((1, 1, 1, 2, 3, 3, 3, 4, 5, 7, 15))


def define(rng, grammar):
    """Definitions for all that need one. Inherited ones are mostly copies."""
    grammar.inhdefs, grammar.syndefs = {}, {}
    for rule, place, k in inherited_targets(grammar):
        choice = leaves(grammar, rule, place)
        copies = [leaf for leaf in choice if leaf[0] == "own"]
        if copies and rng.random() < 0.5:
            grammar.inhdefs[rule, place, k] = rng.choice(copies)
        else:
            grammar.inhdefs[rule, place, k] = random_expression(rng, choice, random_nodes(rng))
    for rule, k in synthesized_targets(grammar):
        grammar.syndefs[rule, k] = random_expression(rng, leaves(grammar, rule, 9), random_nodes(rng))


def mend(rng, grammar, automaton, rounds=12):
    """Change definitions where a partial state has two formulas, until there is one; whether it came out well."""
    constants = {k: str(rng.choice(NUMBERS)) for k in range(len(grammar.inh))}
    for turn in range(rounds):
        found = Splits(automaton).all()
        if not found:
            return True
        for split in found:
            k = split.attribute
            for chain in split.chains:
                rule, dot = chain[-1]
                left = grammar.rules[rule][0]
                if left == grammar.inh[k] and dot == 0 and turn < 4:
                    grammar.inhdefs[rule, dot + 1, k] = ["own", f"i{k}"]
                elif turn >= 2:
                    grammar.inhdefs[rule, dot + 1, k] = constants[k]
    for target in inherited_targets(grammar):
        grammar.inhdefs[target] = constants[target[2]]
    return not Splits(automaton).all()
