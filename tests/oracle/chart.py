"""Which symbols derive which parts of a token list: Earley's method, for any grammar, without LR states."""


class Chart:
    """All (nonterminal, i, j) that some derivation from the start needs, with nonterminal deriving tokens i to j - 1."""

    def __init__(self, book, kinds):
        self.book, self.kinds = book, kinds
        self.by_left = {}
        for rule, (left, _) in enumerate(book.rules):
            self.by_left.setdefault(left, []).append(rule)
        self.ends = {}  # (nonterminal, i) -> set of j
        self.waiting = [{} for _ in range(len(kinds) + 1)]  # nonterminal -> items before it
        items = [(0, 0, 0)]
        for at in range(len(kinds) + 1):
            items = self.column(at, items)

    def column(self, at, items):
        """All items (rule, dot, origin) at one place of the list; gives those of the next place that a token leads to."""
        seen, pending, onward = set(items), list(items), []

        def add(item):
            if item not in seen:
                seen.add(item)
                pending.append(item)

        while pending:
            rule, dot, origin = item = pending.pop()
            left, right = self.book.rules[rule]
            if dot == len(right):
                self.ends.setdefault((left, origin), set()).add(at)
                for other, place, start in list(self.waiting[origin].get(left, ())):
                    add((other, place + 1, start))
                continue
            letter, which = right[dot]
            if letter == "t":
                if at < len(self.kinds) and self.kinds[at] == which:
                    onward.append((rule, dot + 1, origin))
                continue
            self.waiting[at].setdefault(which, []).append(item)
            for below in self.by_left.get(which, ()):
                add((below, 0, at))
            if at in self.ends.get((which, at), ()):
                add((rule, dot + 1, origin))
        return onward
