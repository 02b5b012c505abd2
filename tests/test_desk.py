"""The desk program where its input is long, comes piece by piece, or cannot be read; answers written by hand. Run: python3 tests/test_desk.py [PROGRAM]"""

import subprocess
import sys
import unittest

from cases import named

PROGRAM = "crates/desk/out/desk"
TOKEN = b"(tok 2 4294967295)\n"
BOOK = named.S.encode()


def run(*pieces):
    """What the program writes: to standard output and to standard error."""
    with subprocess.Popen([PROGRAM], stdin=subprocess.PIPE, stdout=subprocess.PIPE, stderr=subprocess.PIPE) as program:
        for piece in pieces:
            program.stdin.write(piece)
            program.stdin.flush()
        return program.communicate()


class Long(unittest.TestCase):
    """Input of any length is answered right."""

    def answers(self, number, *pieces):
        self.assertEqual(run(*pieces), (b"(refused %d)\n" % number, b""))

    def test_many_tokens(self):
        self.answers(13, BOOK, TOKEN * 256)
        self.answers(13, BOOK, TOKEN * 1000000)
        self.answers(3, BOOK.replace(b"(book 2 ", b"(book 32 "), TOKEN * 1000000)

    def test_misspelt_after_many_tokens(self):
        for line in (b"(tok 2 01)\n", b"(tok 2 1)", b"\n", b"(end)\n", b"(tok 2 " + b"1" * 1000000 + b")\n"):
            self.answers(2, BOOK, TOKEN * 100000, line)
            self.answers(2, BOOK, TOKEN * 100000, line, TOKEN * 100000)

    def test_longest_token_line(self):
        self.answers(14, BOOK, b"(tok 4294967295 4294967295)\n")
        self.answers(2, BOOK, b"(tok 4294967295 04294967295)\n")

    def test_long_books(self):
        for size, number in ((65536, 2), (65537, 1), (10000000, 1)):
            self.answers(number, b"x" * size)
            self.answers(number, b"\n" * (size - 6), b"(end)\n")
        self.answers(1, b"\n" * 65531, b"(end)\n(tok)\n")


class Pieces(unittest.TestCase):
    """The system may hand the input over in any pieces."""

    def test_byte_by_byte(self):
        whole = BOOK + b"(tok 1 100)\n(tok 2 5)\n(tok 2 7)\n"
        self.assertEqual(run(*(whole[i : i + 1] for i in range(len(whole)))), run(whole))


class Unreadable(unittest.TestCase):
    """Without input there is no answer."""

    def test_folder(self):
        with open("/dev/null", "rb") as nothing:
            self.assertEqual(subprocess.run([PROGRAM], stdin=nothing, capture_output=True, check=False).stdout, b"(refused 2)\n")
        said = subprocess.run([PROGRAM + " < ."], shell=True, capture_output=True, check=False)
        self.assertEqual((said.stdout, said.stderr), (b"", b"standard input cannot be read\n"))


if __name__ == "__main__":
    if len(sys.argv) > 1:
        PROGRAM = sys.argv.pop()
    unittest.main()
