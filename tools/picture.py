#!/usr/bin/env python3
"""A tool for advisers, no part of the engine: draws a message's tree with its values as an SVG picture.

It reads a book and the rows that the desk program prints for a message:

    crates/desk/out/desk < INPUT | python3 tools/picture.py BOOK > PICTURE.svg

Left of a node stand its inherited values, right of it its synthesized ones, each on a line of its own.
"""

import argparse
import re
import sys
from pathlib import Path

sys.path.insert(0, str(Path(__file__).resolve().parent))
import grammar as grammars  # noqa: E402

INHERITED, SYNTHESIZED, LINES = "#a04000", "#005f87", "#777777"
LETTER, LINE, GAP, LEVEL = 7, 14, 18, 96


class Node:
    """A node of the picture: its name, the values left and right of it, its children."""

    def __init__(self, name, left, right, children):
        self.name, self.left, self.right, self.children = name, left, right, children
        self.at, self.depth = 0, 0

    def side(self, lines):
        """The width of the values on one side."""
        return LETTER * max(map(len, lines), default=0)

    def width(self):
        """The node's own width, the same on both sides of its middle."""
        return 2 * max(self.side(self.left), self.side(self.right)) + LETTER * (len(self.name) + 4)


def named_values(symbol, words, letter, owners):
    """Lines like `i0 5` for the attributes of a nonterminal."""
    which = [k for k, owner in enumerate(owners) if owner == symbol]
    return [f"{letter}{k} {word}" for k, word in zip(which, words)]


def tree_of(grammar, rows):
    """The tree whose nodes in postorder are the rows."""
    done = []
    for row in rows:
        if row[0] >= 64:
            done.append(Node(f"t{row[0] - 64}", [], [str(row[6])], []))
            continue
        left, right = grammar.rules[row[0]]
        first = len(done) - len(right)
        children = done[first:]
        del done[first:]
        inherited, synthesized = named_values(left, row[2:6], "i", grammar.inh), named_values(left, row[6:10], "s", grammar.syn)
        done.append(Node(left, inherited, synthesized, children))
    if len(done) != 1:
        raise grammars.Fault("the rows are not those of one tree of this book")
    return done[0]


def in_postorder(root):
    """All nodes, children before their node."""
    pending, found = [root], []
    while pending:
        node = pending.pop()
        found.append(node)
        pending += node.children
    return found[::-1]


def lay_out(root):
    """Give each node a place: above the middle of its children, beside what stands left of it on the same level."""
    nodes = in_postorder(root)
    for node in reversed(nodes):
        for child in node.children:
            child.depth = node.depth + 1
    edge = {}  # level -> the first free place
    for node in nodes:
        least = edge.get(node.depth, GAP) + node.width() / 2
        middle = sum(child.at for child in node.children) / len(node.children) if node.children else least
        node.at = max(middle, least)
        edge[node.depth] = node.at + node.width() / 2 + GAP
        move(node.children, node.at - middle, edge)


def move(nodes, by, edge):
    """Move subtrees, which are the last ones on their levels, to the right."""
    pending = list(nodes)
    while pending:
        node = pending.pop()
        node.at += by
        edge[node.depth] = max(edge[node.depth], node.at + node.width() / 2 + GAP)
        pending += node.children


def text(x, y, words, colour, anchor):
    """A line of text."""
    return f'<text x="{x:.0f}" y="{y:.0f}" fill="{colour}" text-anchor="{anchor}">{words}</text>'


def drawn(node):
    """A node and the lines to its children."""
    y = 30 + node.depth * LEVEL
    below = y + 8 + LINE * (max(len(node.left), len(node.right), 1) - 1)
    lines = [
        f'<line x1="{node.at:.0f}" y1="{below}" x2="{child.at:.0f}" y2="{30 + child.depth * LEVEL - 16}" stroke="{LINES}"/>' for child in node.children
    ]
    half = LETTER * (len(node.name) + 2) / 2
    lines.append(text(node.at, y, node.name, "#000000", "middle"))
    lines += [text(node.at - half, y + LINE * k, words, INHERITED, "end") for k, words in enumerate(node.left)]
    lines += [text(node.at + half, y + LINE * k, words, SYNTHESIZED, "start") for k, words in enumerate(node.right)]
    return lines


def picture(grammar, rows):
    """The SVG text."""
    root = tree_of(grammar, rows)
    lay_out(root)
    nodes = in_postorder(root)
    width = max(node.at + node.width() / 2 for node in nodes) + GAP
    height = 30 + max(node.depth for node in nodes) * LEVEL + 4 * LINE + GAP
    head = f'<svg xmlns="http://www.w3.org/2000/svg" width="{width:.0f}" height="{height:.0f}" font-family="monospace" font-size="12">'
    back = '<rect width="100%" height="100%" fill="#ffffff"/>'
    return "\n".join([head, back] + [line for node in nodes for line in drawn(node)] + ["</svg>"]) + "\n"


def rows_of(text_of_rows):
    """The rows that the desk program printed."""
    if "(accepted" not in text_of_rows:
        raise grammars.Fault("the message was refused: " + text_of_rows.strip())
    return [list(map(int, words.split())) for words in re.findall(r"\(row ([0-9 ]+)\)", text_of_rows)]


def main():
    """The command."""
    parser = argparse.ArgumentParser(description="Draw a message's tree from the desk program's rows.")
    parser.add_argument("book", type=argparse.FileType("r"))
    parser.add_argument("rows", type=argparse.FileType("r"), nargs="?", default=sys.stdin)
    options = parser.parse_args()
    book = options.book.read().split("(end)\n")[0]
    try:
        sys.stdout.write(picture(grammars.read(book), rows_of(options.rows.read())))
    except grammars.Fault as fault:
        sys.exit(str(fault))


if __name__ == "__main__":
    main()
