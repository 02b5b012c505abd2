"""Parse trees of a token list, found without LR states: none, just one, or many. The one tree's size, need, walk and rows.

A part is (nonterminal, i, j): that nonterminal over the tokens from i to j - 1. The one tree may be far too large to be written out (empty nodes
can double at every level), so it is kept as one way to build each part; size and need are worked out once for each part.
"""

from functools import cache

from .chart import Chart
from .values import inherited_of, meaning_of, row_of, synthesized_of

NONE, ONE, MANY = "none", "one", "many"


class Forest:
    """All trees of a list."""

    def __init__(self, book, tokens):
        self.book, self.tokens = book, tokens
        self.kinds = [kind for kind, _ in tokens]
        self.chart = Chart(book, self.kinds)
        self.ways = cache(self.ways_to_cover)
        self.root = book.rules[0][1][0][1], 0, len(tokens)
        self.built = {}  # part -> (rule, children); a child is a part or the number of a token
        self.order = []  # parts, children before parents
        self.count = self.build()

    def ways_to_cover(self, rule, place, i, j):
        """Up to two ways to cover tokens i to j - 1 by the right symbols from a place on."""
        right = self.book.rules[rule][1]
        if place == len(right):
            return [()] if i == j else []
        letter, which = right[place]
        if letter == "t":
            fits = i < j and self.kinds[i] == which
            return [(i, *rest) for rest in self.ways(rule, place + 1, i + 1, j)] if fits else []
        found = []
        for end in sorted(self.chart.ends.get((which, i), ())):
            if end <= j and len(found) < 2:
                found += [((which, i, end), *rest) for rest in self.ways(rule, place + 1, end, j)]
        return found[:2]

    def build(self):
        """Walk down from the root. A part with two ways, or one inside itself, makes many trees, since every part has a tree."""
        which, start, end = self.root
        if end not in self.chart.ends.get((which, start), ()):
            return NONE
        pending, inside = [(self.root, False)], set()
        while pending:
            part, children_done = pending.pop()
            if children_done:
                inside.discard(part)
                self.order.append(part)
                continue
            if part in inside:
                return MANY
            if part in self.built:
                continue
            which, i, j = part
            ways = [(rule, way) for rule in self.chart.by_left[which] for way in self.ways(rule, 0, i, j)]
            if len(ways) != 1:
                return MANY
            self.built[part] = ways[0]
            inside.add(part)
            pending.append((part, True))
            pending.extend((child, False) for child in ways[0][1] if isinstance(child, tuple))
        return ONE

    def size_and_need(self):
        """The number of nodes of the one tree, and its need."""
        size, need = {}, {}
        for part in self.order:
            children = self.built[part][1]
            size[part] = 1 + sum(size.get(child, 1) for child in children)
            need[part] = max([1] + [place + need.get(child, 1) for place, child in enumerate(children)])
        return size[self.root], need[self.root]

    def postorder(self):
        """The nodes of the one tree: (rule or None, number of children)."""
        pending = [(self.root, False)]
        while pending:
            child, children_done = pending.pop()
            if isinstance(child, int):
                yield None, 0
            elif children_done:
                rule, children = self.built[child]
                yield rule, len(children)
            else:
                pending.append((child, True))
                pending.extend((below, False) for below in reversed(self.built[child][1]))

    def first_limit(self):
        """16 or 17, whichever a walk in postorder meets first, or 0. A node's children stand on a pile until it takes their place."""
        pile = 0
        for rows, (_, children) in enumerate(self.postorder()):
            if rows == 512:
                return 16
            if children == 0 and pile == 128:
                return 17
            pile += 1 - children
        return 0

    def rows(self):
        """The rows of the one tree, which must be small enough to be written out."""
        root = Node(self.book, None, 1, self.root, self)
        return [node.row() for node in root.postorder()]


class Node:
    """A node of a finished tree that is written out. Its values are worked out when they are asked for."""

    def __init__(self, book, parent, place, child, forest):
        self.book, self.parent, self.place = book, parent, place
        self.known = {}
        if isinstance(child, int):
            self.kind, self.value = forest.tokens[child]
            self.rule, self.start, self.children = None, child, []
        else:
            self.rule, below = forest.built[child]
            self.start = child[1]
            self.children = [Node(book, self, place, part, forest) for place, part in enumerate(below, 1)]

    def postorder(self):
        """Children, left to right, before their node."""
        for child in self.children:
            yield from child.postorder()
        yield self

    def inherited(self, which):
        """By the parent's rule; the root's by rule 0."""
        if ("i", which) not in self.known:
            rule = self.parent.rule if self.parent else 0
            leaf = self.parent.leaf if self.parent else None
            self.known["i", which] = meaning_of(self.book.inhdefs[rule, self.place, which], leaf)
        return self.known["i", which]

    def synthesized(self, which):
        """By the node's own rule."""
        if ("s", which) not in self.known:
            self.known["s", which] = meaning_of(self.book.syndefs[self.rule, which], self.leaf)
        return self.known["s", which]

    def leaf(self, word, *parts):
        """What own, at and val read in this node's rule."""
        if word == "own":
            return self.inherited(parts[0])
        child = self.children[parts[0] - 1]
        return child.synthesized(parts[1]) if word == "at" else child.value

    def row(self):
        """The node's ten words."""
        if self.rule is None:
            return row_of(64 + self.kind, self.start, [], [self.value])
        left = self.book.rules[self.rule][0]
        inherited = [self.inherited(which) for which in inherited_of(self.book, left)]
        return row_of(self.rule, self.start, inherited, [self.synthesized(which) for which in synthesized_of(self.book, left)])
