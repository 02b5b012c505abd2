"""LR(1) items one by one: FIRST, closures, kernel rules (7), go rules (8), actions and conflicts (9)."""

from functools import cache


def breaks_kernel_rules(book):
    """7, on a book that 3 to 6 do not turn back."""
    kernels = {state: {} for state in range(book.states)}
    for (state, rule, dot), ahead in book.kernels.items():
        kernels[state][rule, dot] = ahead
    if kernels.pop(0) != {(0, 0): (0,)}:
        return True
    for kernel in kernels.values():
        if not kernel or any(dot == 0 for _, dot in kernel):
            return True
        if len({book.rules[rule][1][dot - 1] for rule, dot in kernel}) != 1:
            return True
        if any(rule == 0 and ahead != (0,) for (rule, _), ahead in kernel.items()):
            return True
    return False


def first_sets(book):
    """For each nonterminal the terminals that can begin what it derives; and the nonterminals that derive the empty string."""
    nullable, first = set(), {which: set() for which in range(book.nonterminals + 1)}
    changed = True
    while changed:
        changed = False
        for left, right in book.rules:
            before = len(first[left]), len(nullable)
            for letter, which in right:
                first[left] |= {which} if letter == "t" else first[which]
                if letter == "t" or which not in nullable:
                    break
            else:
                nullable.add(left)
            changed = changed or before != (len(first[left]), len(nullable))
    return first, nullable


class States:
    """The closures of a book's states. An item is (rule, dot, lookahead)."""

    def __init__(self, book):
        self.book = book
        self.first, self.nullable = first_sets(book)
        self.derives = cache(self.direct)
        self.actions = cache(self.acting)
        self.kernels = [set() for _ in range(book.states)]
        for (state, rule, dot), ahead in book.kernels.items():
            self.kernels[state] |= {(rule, dot, b) for b in ahead}
        self.closures = [self.closure(kernel) for kernel in self.kernels]
        self.reach = self.reached_terminals()

    def next_symbol(self, item):
        """The symbol after the dot, or None."""
        rule, dot, _ = item
        right = self.book.rules[rule][1]
        return right[dot] if dot < len(right) else None

    def first_of(self, symbols, b):
        """FIRST of a string of symbols followed by b."""
        found = set()
        for letter, which in symbols:
            found |= {which} if letter == "t" else self.first[which]
            if letter == "t" or which not in self.nullable:
                return found
        return found | {b}

    def direct(self, item):
        """The items that an item directly derives."""
        symbol = self.next_symbol(item)
        if symbol is None or symbol[0] == "t":
            return ()
        rule, dot, b = item
        ahead = self.first_of(self.book.rules[rule][1][dot + 1 :], b)
        below = [other for other, (left, _) in enumerate(self.book.rules) if left == symbol[1]]
        return tuple((other, 0, c) for other in below for c in sorted(ahead))

    def closure(self, kernel):
        """The smallest set with the kernel's items and what its items directly derive."""
        found, pending = set(kernel), list(kernel)
        while pending:
            for item in self.derives(pending.pop()):
                if item not in found:
                    found.add(item)
                    pending.append(item)
        return found

    def break_go_rules(self):
        """8: go lines exactly on the symbols after dots, targets with exactly the advanced pairs and at least their lookaheads."""
        for state, closure in enumerate(self.closures):
            wanted = {}
            for item in closure:
                symbol = self.next_symbol(item)
                if symbol is not None:
                    rule, dot, b = item
                    wanted.setdefault(symbol, set()).add((rule, dot + 1, b))
            lines = {symbol: target for (source, symbol), target in self.book.goes.items() if source == state}
            if lines.keys() != wanted.keys():
                return True
            for symbol, target in lines.items():
                have = self.kernels[target]
                if {item[:2] for item in have} != {item[:2] for item in wanted[symbol]} or not wanted[symbol] <= have:
                    return True
        return False

    def own_terminal(self, item):
        """The terminal under which an item itself acts: the one after its dot, or the lookahead of a complete item; or None."""
        symbol = self.next_symbol(item)
        if symbol is None:
            return item[2]
        return symbol[1] if symbol[0] == "t" else None

    def acting(self, state, a):
        """The set of actions at a state and a terminal."""
        found = set()
        for item in self.closures[state]:
            if self.own_terminal(item) == a:
                complete = self.next_symbol(item) is None
                found.add(("shift",) if not complete else ("accept",) if item[0] == 0 else ("reduce", item[0]))
        return found

    def conflict(self):
        """9: two different actions at some state and terminal."""
        return any(len(self.actions(state, a)) > 1 for state in range(self.book.states) for a in range(self.book.terminals + 1))

    def reached_terminals(self):
        """For each closure item the terminals a for which it is in the partial state (S, a)."""
        everything = set().union(*self.closures)
        reach = {item: {self.own_terminal(item)} - {None} for item in everything}
        above = {item: [] for item in everything}
        for item in everything:
            for below in self.derives(item):
                above[below].append(item)
        pending = list(everything)
        while pending:
            item = pending.pop()
            for higher in above[item]:
                if not reach[item] <= reach[higher]:
                    reach[higher] |= reach[item]
                    pending.append(higher)
        return reach

    def partial_state(self, state, a):
        """The closure items that reach an item which acts under a."""
        return frozenset(item for item in self.closures[state] if a in self.reach[item])
