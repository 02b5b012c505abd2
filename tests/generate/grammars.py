"""Random grammars that have LR(1) states within the limits."""

import lr
from grammar import Grammar

MOST_STATES = 128


def fits(automaton):
    """Whether the states keep to 01's limits."""
    sizes = [len(kernel) for kernel in automaton.kernels]
    return len(sizes) <= MOST_STATES and sum(sizes) <= 512 and max(sizes) <= 16 and sum(map(len, automaton.go)) <= 1024


def states_of(grammar, merged):
    """States without conflicts and within the limits, or None."""
    try:
        automaton = (lr.lalr if merged else lr.canonical)(grammar, MOST_STATES)
    except lr.TooMany:
        return None
    return automaton if fits(automaton) and not automaton.conflicts() else None


def random_right(rng, grammar, known, longest):
    """A right side over the terminals and the nonterminals up to the first unknown one."""
    length = min(rng.choice((0, 1, 1, 2, 2, 2, 3, 3, 4, 5, 8)), longest)
    right = []
    for _ in range(length):
        if rng.random() < 0.55:
            right.append(f"t{rng.randint(1, grammar.terminals)}")
        else:
            right.append(f"n{rng.randint(1, min(known + 1, grammar.nonterminals))}")
    return right


def empty_grammar(terminals, nonterminals):
    """Rule 0 alone."""
    grammar = Grammar(terminals, nonterminals)
    grammar.rules.append(("n0", ["n1"]))
    return grammar


def tiny(rng):
    """Few symbols, all at random; most have no LR(1) states and are thrown away."""
    while True:
        grammar = empty_grammar(rng.randint(1, 3), rng.randint(1, 4))
        grammar.rules[0] = ("n0", [f"n{rng.randint(1, grammar.nonterminals)}"])
        for _ in range(rng.randint(1, 7)):
            left = f"n{rng.randint(1, grammar.nonterminals)}"
            grammar.rules.append((left, random_right(rng, grammar, grammar.nonterminals, 4)))
        if states_of(grammar, rng.random() < 0.5):
            return grammar


def grown(rng, terminals, nonterminals, rules, tries, merged):
    """Rule by rule, each kept if there are still states without conflicts."""
    grammar = empty_grammar(terminals, nonterminals)
    known = 1
    for _ in range(tries):
        if len(grammar.rules) == rules:
            break
        left = rng.randint(1, known)
        right = random_right(rng, grammar, known, 8)
        grammar.rules.append((f"n{left}", right))
        if states_of(grammar, merged):
            known = max([known] + [int(symbol[1:]) for symbol in right if symbol[0] == "n"])
        else:
            grammar.rules.pop()
    return grammar


def keyed(rng, terminals, nonterminals, rules):
    """Each nonterminal's rules start with terminals of their own, so that any size has states; some are empty."""
    while True:
        grammar = empty_grammar(terminals, nonterminals)
        free = {which: rng.sample(range(1, terminals + 1), terminals) for which in range(1, nonterminals + 1)}
        for place in range(rules - 1):
            which = place % nonterminals + 1
            if free[which]:
                right = [f"t{free[which].pop()}"] + random_right(rng, grammar, nonterminals, 4)
                grammar.rules.append((f"n{which}", [] if rng.random() < 0.15 else right))
        if states_of(grammar, False):
            return grammar
        rules = max(2, rules - 1)


def productive(grammar):
    """The smallest number of nodes of a tree of each nonterminal that has one."""
    least = {}
    changed = True
    while changed:
        changed = False
        for left, right in grammar.rules:
            if all(symbol[0] == "t" or symbol in least for symbol in right):
                size = 1 + sum(1 if symbol[0] == "t" else least[symbol] for symbol in right)
                if size < least.get(left, size + 1):
                    least[left] = size
                    changed = True
    return least


def random_grammar(rng):
    """A grammar of some style; mostly one that has messages."""
    while True:
        style = rng.random()
        if style < 0.4:
            grammar = tiny(rng)
        elif style < 0.85:
            grammar = grown(rng, rng.randint(1, 5), rng.randint(1, 6), rng.randint(3, 12), 60, rng.random() < 0.5)
        else:
            grammar = keyed(rng, rng.randint(2, 6), rng.randint(2, 5), rng.randint(4, 12))
        if "n0" in productive(grammar) or rng.random() < 0.03:
            return grammar
