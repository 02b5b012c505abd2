"""Chains of partial states and their formulas (10). Formulas are interned: equal ones, and only these, have the same number."""


class Formulas:
    """The formulas of each partial state of a book that 3 to 9 do not turn back."""

    def __init__(self, states):
        self.states, self.book = states, states.book
        self.nodes, self.numbers = [], {}
        self.owned = {
            which: [attribute for attribute, owner in enumerate(self.book.inh) if owner == which]
            for which in range(self.book.nonterminals + 1)
        }

    def intern(self, *node):
        """The number of a formula given its word and parts; parts that are formulas are numbers of earlier ones."""
        if node not in self.numbers:
            self.numbers[node] = len(self.nodes)
            self.nodes.append(node)
        return self.numbers[node]

    def replaced(self, meaning, dot, own):
        """A definition with its leaves replaced, in an item with that dot. `own` gives the formulas of the shorter chain, None if there is none."""
        match meaning:
            case ("own", which):
                return self.intern("inherited", -dot, which) if own is None else own[which]
            case ("at", place, which):
                return self.intern("synthesized", place - dot, which)
            case ("val", place):
                return self.intern("synthesized", place - dot, "value")
            case ("number", value):
                return self.intern("number", value)
        return self.intern(meaning[0], *(self.replaced(operand, dot, own) for operand in meaning[1:]))

    def at_end_of(self, item, own):
        """The formulas of a chain that ends in the item: attribute of its next symbol -> formula."""
        rule, dot, _ = item
        which = self.states.next_symbol(item)[1]
        return {k: self.replaced(self.book.inhdefs[rule, dot + 1, k], dot, own) for k in self.owned[which]}

    def of_items(self, kernel, held):
        """The formulas of all chains in a set of items, attribute -> formula; None if some attribute has two."""
        before = {item for item in held if (self.states.next_symbol(item) or "t")[0] == "n"}
        found, seen, pending = {}, set(), []

        def arrive(item, own):
            formulas = self.at_end_of(item, own)
            if any(found.setdefault(k, formula) != formula for k, formula in formulas.items()):
                return False
            step = item, tuple(formulas.items())
            if step not in seen:
                seen.add(step)
                pending.append((item, formulas))
            return True

        if not all(arrive(item, None) for item in sorted(before & kernel)):
            return None
        while pending:
            item, formulas = pending.pop()
            if not all(arrive(below, formulas) for below in self.states.derives(item) if below in before):
                return None
        return found

    def split(self):
        """10: whether some partial state has two formulas. Otherwise `table` then holds the formulas of each."""
        self.table = {}
        for state, kernel in enumerate(self.states.kernels):
            known = {}
            for a in range(self.book.terminals + 1):
                held = self.states.partial_state(state, a)
                if held not in known:
                    known[held] = self.of_items(kernel, held)
                self.table[state, a] = known[held]
                if known[held] is None:
                    return True
        return False
