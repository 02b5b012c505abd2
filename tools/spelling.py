#!/usr/bin/env python3
"""Spells the repository's own definitions, fields and lemmas as the library spells its own.

usage: python3 tools/spelling.py          at the top of the repository, once: rewrites the files below crates/ in place
       python3 tools/spelling.py --list   prints the names that it would change, and writes nothing

A name that begins small and has capitals inside gets underscores (isBefore: is_before), so does a bound (MAX-RULES: MAX_RULES); a field or a constructor
has no dash (has-kernel: has_kernel). Type names and what follows their capital stay (All-append). A field keeps its dash where a definition takes the spelling without; two definitions that would
fall together stop the script.
Strings of .rt files stay, and so do the names of src/, which have no such spelling.
"""

import os
import re
import sys

TOKEN = re.compile(r"(?<![\w'·-])[^\W\d][\w'₀-₉-]*")
LITERAL = re.compile(r'b?"(?:\\.|[^"\\])*"|b?\'(?:\\.|[^\'\\])\'')
DECLARED = re.compile(r"^\s*(?:unfoldable |abbrev |pub |private |opaque )*([^\s:(){}]+(?: [^\s:(){}]+)*) *:(?=\s|$)")
BLOCK = re.compile(r"^(\s*)(?:pub )?(record|data)\s+\S+.*\bwhere\s*$")


def files(root, ends):
    for folder, dirs, names in os.walk(os.path.join(root, "crates")):
        dirs[:] = sorted(d for d in dirs if d != "out")
        for name in sorted(names):
            if name.endswith(ends):
                yield os.path.join(folder, name)


def read(path):
    with open(path, encoding="utf-8") as f:
        return f.read()


def snake(part):
    """One part of a name, between dashes."""
    if part == "getD":
        return "get_or"
    if not part[:1].islower() or part == part.lower():
        return part
    part = re.sub(r"(?<=[a-z0-9])([A-Z]+)(?=[A-Z][a-z]|$|_)", lambda m: "_" + m.group(1).lower(), part)
    return re.sub(r"(?<=[a-z0-9])([A-Z])", lambda m: "_" + m.group(1).lower(), part).lower()


def spelled(name, member):
    if re.fullmatch(r"[A-Z]+(-[A-Z]+)+", name):
        return name.replace("-", "_")
    if name.startswith("LR-"):
        name = "lr_" + name[3:]
    name = "-".join(snake(p) for p in name.split("-"))
    return name.replace("-", "_") if member else name


def declared(text):
    """The names that a file declares: (name, whether it is a field or a constructor)."""
    block = None
    for line in text.split("\n"):
        if not line.strip() or line.lstrip().startswith("--"):
            continue
        indent = len(line) - len(line.lstrip())
        if block is not None and indent <= block:
            block = None
        m = BLOCK.match(line)
        if m:
            block = len(m.group(1))
            continue
        m = DECLARED.match(line)
        if m:
            for name in m.group(1).split():
                if TOKEN.fullmatch(name):
                    yield name, block is not None


def respell(text, names):
    return TOKEN.sub(lambda m: names.get(m.group(0), m.group(0)), text)


def respell_source(text, names):
    out, at = [], 0
    for m in LITERAL.finditer(text):
        out.append(respell(text[at : m.start()], names))
        out.append(m.group(0))
        at = m.end()
    out.append(respell(text[at:], names))
    return "".join(out)


def main(argv):
    root = os.getcwd()
    names, own = {}, {}
    for path in files(root, (".antt",)):
        if os.sep + "proofs" + os.sep in path:
            continue
        for name, member in declared(read(path)):
            own[name] = own.get(name, False) or member
        own |= {name: False for name in re.findall(r"(?<![\w'-])[a-z]{2,}(?:[A-Z][a-z]+)+(?![\w'-])", read(path)) if name not in own}
    for name, member in own.items():
        new = spelled(name, member)
        if new != name:
            names[name] = new
    # a member keeps its dash where a definition gets the other spelling, or has it
    capital = {new for name, new in names.items() if name != name.lower()}
    names = {name: new for name, new in names.items() if name != name.lower() or (new not in capital and new not in own)}
    clash = {}
    for name, new in names.items():
        clash.setdefault(new, []).append(name)
    bad = [(new, old) for new, old in clash.items() if len(old) > 1]
    if "--list" in argv:
        for name in sorted(names):
            print(name, names[name])
        for new, old in sorted(bad):
            print("clash:", new, *old)
        return 0
    if bad:
        for new, old in sorted(bad):
            print("clash:", new, *old)
        return 1
    for path in files(root, (".antt", ".edit", ".rt")):
        text = read(path)
        turned = respell_source(text, names) if path.endswith(".rt") else respell(text, names)
        if turned != text:
            with open(path, "w", encoding="utf-8") as f:
                f.write(turned)
    print(f"{len(names)} names")
    return 0


if __name__ == "__main__":
    raise SystemExit(main(sys.argv[1:]))
