"""The advisers' tools: the state maker and the picture. Run: python3 tests/test_tools.py"""

import random
import subprocess
import sys
import unittest
from xml.etree import ElementTree

from cases import TESTS, named
from generate import lists
from generate.books import random_book
from oracle.answer import answer, compiled, desk
import grammar as grammars
import lr
import picture
import splits

TOOLS = TESTS.parent / "tools"


def without_states(text):
    """A book's text without kernel, go and end lines."""
    return "".join(line for line in text.splitlines(True) if not line.startswith(("(kernel", "(go", "(end")))


def run(tool, *options, given=""):
    """A tool's exit code, output and messages."""
    done = subprocess.run([sys.executable, TOOLS / tool, *options], input=given, capture_output=True, text=True, check=False)
    return done.returncode, done.stdout, done.stderr


class States(unittest.TestCase):
    """tools/states.py"""

    def test_states_of_s(self):
        for option in ([], ["--lalr"]):
            self.assertEqual(run("states.py", *option, "-", given=without_states(named.S)), (0, named.S, ""))

    def test_without_q(self):
        given = without_states(named.S).replace("(book 2 2 6)", "(book 2 2)")
        self.assertEqual(run("states.py", "-", given=given)[1], named.S)

    def test_two_formulas(self):
        code, book, words = run("states.py", "-", given=named.TWO_FORMULAS.replace("1 i0 (own i0)", "1 i0 (add (own i0) 1)"))
        self.assertEqual((code, book), (1, ""))
        self.assertIn("two formulas in state 1 before t2 for i0 of n2", words)
        self.assertIn("(add (synthesized 0 value) 1)", words)

    def test_conflict(self):
        code, book, words = run("states.py", "-", given="(book 1 1)\n(rule 0 n0 n1)\n(rule 1 n1 n1 n1)\n(rule 2 n1 t1)\n")
        self.assertEqual((code, book), (1, ""))
        self.assertIn("conflict in state 3 before t1", words)
        self.assertIn("n1 -> n1 n1 .", words)

    def test_fault(self):
        self.assertEqual(run("states.py", "-", given="(book 1 1)\n(rule 0 n0 n2)\n")[0], 1)

    def test_splits_agree_with_the_oracle(self):
        rng = random.Random(5)
        for _ in range(40):
            _, automaton, text = random_book(rng, most_each=2, mended=rng.random() < 0.5)
            self.assertEqual(compiled(text.encode())[0], 10 if splits.Splits(automaton).all() else 0)

    def test_merged_states_take_the_same_messages(self):
        rng = random.Random(6)
        for _ in range(15):
            grammar, _, _ = random_book(rng, most_each=0)
            many, few = (named.whole("\n".join(grammars.heading(grammar, 0)), build).encode() for build in (lr.canonical, lr.lalr))
            if compiled(many)[0] == 0 and compiled(few)[0] == 0 and lists.Derivations(grammar).exists():
                for _ in range(5):
                    found = lists.Derivations(grammar).random(rng, 12)
                    tokens = lists.spelled(lists.with_values(rng, lists.mutated(rng, grammar.terminals, found[0] if found else [])))
                    self.assertEqual(answer(many + tokens.encode()), answer(few + tokens.encode()))


class Picture(unittest.TestCase):
    """tools/picture.py"""

    def tree(self):
        book = named.whole(named.SUMS)
        rows = picture.rows_of(desk((book + named.tokens((1, 2), (3, 0), (1, 3), (2, 0), (1, 4))).encode()).decode())
        return grammars.read(book), rows

    def test_places(self):
        root = picture.tree_of(*self.tree())
        picture.lay_out(root)
        levels = {}
        for node in picture.in_postorder(root):
            levels.setdefault(node.depth, []).append(node)
            if node.children:
                self.assertAlmostEqual(node.at, sum(child.at for child in node.children) / len(node.children))
        for nodes in levels.values():
            nodes.sort(key=lambda node: node.at)
            for one, two in zip(nodes, nodes[1:]):
                self.assertLess(one.at + one.width() / 2, two.at - two.width() / 2)

    def test_drawing(self):
        found = ElementTree.fromstring(picture.picture(*self.tree()))
        words = [element.text for element in found if element.tag.endswith("text")]
        self.assertEqual(words.count("n3"), 3)
        self.assertIn("i0 4294967295", words)
        self.assertIn("s0 3", words)


if __name__ == "__main__":
    unittest.main()
