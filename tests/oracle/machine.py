"""The stack evaluator of document 01, move by move, with its states and two stacks."""

from .values import inherited_of, meaning_of, operate, row_of, synthesized_of


class Machine:
    """The stacks and the rows so far. A cell is what stands with one symbol of the stack; cell 0 has no symbol."""

    def __init__(self, states, formulas, tokens):
        self.book, self.states, self.formulas, self.tokens = states.book, states, formulas, tokens
        self.stack, self.inherited, self.synthesized, self.starts = [0], [{}], [{}], [0]
        self.rows, self.at = [], 0

    def run(self):
        """The answer: a refusal number and no rows, or 0 and the rows."""
        while True:
            a = self.next_kind()
            action = next(iter(self.states.actions(self.stack[-1], a)), None)
            if action is None:
                return 15, []
            if action[0] == "accept":
                return 0, self.rows
            length = 0 if action[0] == "shift" else len(self.book.rules[action[1]][1])
            if len(self.rows) == 512:
                return 16, []
            if length == 0 and len(self.stack) - 1 == 128:
                return 17, []
            self.set_top(a)
            if action[0] == "shift":
                self.shift(a)
            else:
                self.reduce(action[1], len(self.stack) - 1 - length)

    def next_kind(self):
        """The next token's terminal, after the last one t0."""
        return self.tokens[self.at][0] if self.at < len(self.tokens) else 0

    def set_top(self, a):
        """Set the top cell's inherited values by the partial state's formulas."""
        known = {}

        def value(number):
            if number not in known:
                match self.formulas.nodes[number]:
                    case ("number", constant):
                        known[number] = constant
                    case ("inherited", offset, which):
                        known[number] = self.inherited[offset - 1].get(which, 0)
                    case ("synthesized", offset, which):
                        known[number] = self.synthesized[offset - 1].get(which, 0)
                    case (word, *operands):
                        known[number] = operate(word, [value(operand) for operand in operands])
            return known[number]

        wanted = self.formulas.table[self.stack[-1], a]
        self.inherited[-1] = {which: value(number) for which, number in wanted.items()}

    def push(self, symbol, made, start):
        """A symbol with its synthesized values, and the state that go gives."""
        self.stack.append(self.book.goes[self.stack[-1], symbol])
        self.inherited.append({})
        self.synthesized.append(made)
        self.starts.append(start)

    def shift(self, a):
        """Take the next token."""
        value = self.tokens[self.at][1]
        self.rows.append(row_of(64 + a, self.at, [], [value]))
        self.push(("t", a), {"value": value}, self.at)
        self.at += 1

    def reduce(self, rule, below):
        """Put a rule's left side in the place of its right symbols, which stand above the cell with that number."""
        left = self.book.rules[rule][0]
        own, parts = self.inherited[below], self.synthesized[below + 1 :]
        start = self.starts[below + 1] if parts else self.at

        def leaf(word, *rest):
            if word == "own":
                return own.get(rest[0], 0)
            return parts[rest[0] - 1].get(rest[1] if word == "at" else "value", 0)

        made = {which: meaning_of(self.book.syndefs[rule, which], leaf) for which in synthesized_of(self.book, left)}
        inherited = [own.get(which, 0) for which in inherited_of(self.book, left)]
        self.rows.append(row_of(rule, start, inherited, list(made.values())))
        for pile in (self.stack, self.inherited, self.synthesized, self.starts):
            del pile[below + 1 :]
        self.push(("n", left), made, start)
