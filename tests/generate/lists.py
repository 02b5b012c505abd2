"""Token lists: derivations of a wanted length with their size and need, and mutated ones."""

from .grammars import productive

VALUES = (0, 1, 2, 5, 9, 100, 65536, 2147483647, 2147483648, 4294967295)


class Derivations:
    """Random derivations of a grammar that has messages."""

    def __init__(self, grammar):
        self.grammar = grammar
        self.least = productive(grammar)
        self.rules = {}
        for rule, (left, right) in enumerate(grammar.rules):
            if all(symbol[0] == "t" or symbol in self.least for symbol in right):
                self.rules.setdefault(left, []).append(rule)
        self.start = grammar.rules[0][1][0]
        self.growing = self.without_bound()

    def without_bound(self):
        """The nonterminals with trees of any size: those that lead to one which is below itself."""
        below = {left: {part for rule in rules for part in self.grammar.rules[rule][1] if part[0] == "n"} for left, rules in self.rules.items()}
        changed = True
        while changed:
            changed = False
            for left in below:
                more = below[left].union(*(below[part] for part in below[left]))
                changed = changed or len(more) > len(below[left])
                below[left] = more
        inside = {left for left in below if left in below[left]}
        return {left for left in below if left in inside or below[left] & inside}

    def exists(self):
        """Whether there is any message."""
        return self.start in self.least

    def cost(self, rule):
        """The least number of nodes with that rule on top."""
        return 1 + sum(1 if symbol[0] == "t" else self.least[symbol] for symbol in self.grammar.rules[rule][1])

    def choice(self, rng, symbol, size, nodes):
        """The rules to choose from: growing ones while more nodes are wanted, the smallest afterwards."""
        rules = self.rules[symbol]
        if size > nodes:
            return [min(rules, key=self.cost)]
        growing = [rule for rule in rules if self.growing.intersection(self.grammar.rules[rule][1])]
        return growing if growing and rng.random() < 0.95 else rules

    def random(self, rng, nodes):
        """A derivation that grows while it has fewer nodes than wanted: its kinds, its size and its need, or None if it grows beyond all use.

        The nonterminal to expand next is the first one, the last one or any, so that trees grow to the left, to the right or everywhere."""
        parts = [[self.start, None]]  # a symbol, and the places of its children
        waiting, least = [0], self.least[self.start]
        pick = rng.choice((lambda: 0, lambda: -1, lambda: rng.randrange(len(waiting))))
        while waiting:
            part = parts[waiting.pop(pick())]
            rule = rng.choice(self.choice(rng, part[0], least, nodes))
            right = self.grammar.rules[rule][1]
            least += self.cost(rule) - self.least[part[0]]
            part[1] = list(range(len(parts), len(parts) + len(right)))
            waiting += [len(parts) + place for place, symbol in enumerate(right) if symbol[0] == "n"]
            parts += [[symbol, []] for symbol in right]
            if least > 3000:
                return None
        return measured(parts)


def measured(parts):
    """The kinds of a derivation's tokens from left to right, its size and its need. Children have higher places than their parent."""
    needs = {}
    for place in reversed(range(len(parts))):
        needs[place] = max([1] + [before + needs[child] for before, child in enumerate(parts[place][1])])
    kinds, pending = [], [0]
    while pending:
        symbol, children = parts[pending.pop()]
        if symbol[0] == "t":
            kinds.append(int(symbol[1:]))
        pending += reversed(children)
    return kinds, len(parts), needs[0]


def with_values(rng, kinds):
    """Tokens with values."""
    return [(kind, rng.choice(VALUES) if rng.random() < 0.5 else rng.randint(0, 50)) for kind in kinds]


def mutated(rng, terminals, kinds):
    """A list that is changed in one or two places."""
    kinds = list(kinds)
    for _ in range(rng.randint(1, 2)):
        way = rng.randrange(5)
        at = rng.randrange(len(kinds) + 1)
        if way == 0 and kinds:
            del kinds[min(at, len(kinds) - 1)]
        elif way == 1 and kinds:
            kinds[min(at, len(kinds) - 1)] = rng.randint(1, terminals)
        elif way == 2 and len(kinds) > 1:
            one, two = rng.randrange(len(kinds)), rng.randrange(len(kinds))
            kinds[one], kinds[two] = kinds[two], kinds[one]
        elif way == 3:
            kinds = kinds[:at]
        else:
            kinds.insert(at, rng.randint(1, terminals))
    return kinds


def spelled(tokens):
    """Token lines."""
    return "".join(f"(tok {kind} {value})\n" for kind, value in tokens)
