"""A file of stored cases while it is made (the format is told in tests/vectors/README.md), and reading such files."""

import re
from collections import Counter

from oracle.answer import desk

HEAD = re.compile(rb"\((base|case)((?: [0-9]+)+)\)\n")


def alike(one, two):
    """How many bytes at the beginning of two texts are the same."""
    length = min(len(one), len(two))
    return next((at for at in range(length) if one[at] != two[at]), length)


class Group:
    """Cases, each an input that differs from the base before it in one place."""

    def __init__(self):
        self.pieces, self.text, self.output, self.bytes = [], None, None, 0
        self.tally = Counter()

    def write(self, piece):
        """Add bytes to the file."""
        self.pieces.append(piece)
        self.bytes += len(piece)

    def base(self, text):
        """The text that the cases to come are made from."""
        if text != self.text:
            self.text = text
            self.write(b"(base %d)\n" % len(text) + text)

    def add(self, whole):
        """A case with the oracle's answer, written as a change in one place."""
        at = alike(whole, self.text)
        tail = alike(whole[at:][::-1], self.text[at:][::-1])
        put = whole[at : len(whole) - tail]
        self.output = desk(whole)
        self.write(b"(case %d %d %d %d)\n" % (at, len(self.text) - tail - at, len(put), len(self.output)) + put + self.output)
        self.tally["accepted" if b"accepted" in self.output else self.output.split()[1][:-1].decode()] += 1

    def add_all(self, wholes):
        """Several cases, each once."""
        for whole in dict.fromkeys(wholes):
            self.add(whole)

    def data(self):
        """The whole file."""
        return b"".join(self.pieces)


def read(data):
    """The cases of a file: (input, output)."""
    at, base = 0, b""
    while at < len(data):
        head = HEAD.match(data, at)
        numbers = list(map(int, head[2].split()))
        at = head.end()
        if head[1] == b"base":
            base = data[at : at + numbers[0]]
            at += numbers[0]
        else:
            place, cut, put, out = numbers
            yield base[:place] + data[at : at + put] + base[place + cut :], data[at + put : at + put + out]
            at += put + out
