#!/usr/bin/env python3
"""Whether every function of a library or program makes its stack frame before anything else. Run: python3 tests/check_prologues.py FILE..

A frame of several pages is made by a loop that touches each page and counts in %r11. LLVM 22 may move the making of a frame behind the first tests of a
function, and then uses %r11 though it holds a value: the function goes on with a wrong one. Nothing that is proved speaks of this.
"""

import re
import subprocess
import sys

FUNCTION = re.compile(r"^[0-9a-f]+ <(.*)>:$")
INSTRUCTION = re.compile(r"^\s+[0-9a-f]+:\s+(\S.*)$")
LOOP = re.compile(r"mov\s+%rsp,%r11\b")
FRAME = re.compile(r"(?:push|endbr64)\b|mov\s+%rsp,%rbp\b")


def functions(disassembly):
    """The name and the instructions of each function."""
    name, body = None, []
    for line in disassembly.splitlines():
        head, instruction = FUNCTION.match(line), INSTRUCTION.match(line)
        if head:
            if name is not None:
                yield name, body
            name, body = head[1], []
        elif instruction:
            body.append(instruction[1].strip())
    if name is not None:
        yield name, body


def loops(body):
    """Where the loops begin that make a frame."""
    return [at for at, instruction in enumerate(body) if LOOP.match(instruction)]


def faults(disassembly):
    """The functions in which such a loop is not the first thing that happens."""
    return [name for name, body in functions(disassembly) if any(not all(map(FRAME.match, body[:at])) for at in loops(body))]


def check(path):
    """Says what is wrong with a file, or how many frames were looked at; whether nothing is."""
    disassembly = subprocess.run(["objdump", "-d", "--no-show-raw-insn", path], check=True, capture_output=True, text=True).stdout
    count, wrong = sum(len(loops(body)) for _, body in functions(disassembly)), faults(disassembly)
    for name in wrong:
        print(f"{path}, {name}: the frame is made after other instructions, which may have set %r11")
    print(f"{path}: {count} large frames, {len(wrong)} not made first")
    return count > 0 and not wrong


def main():
    """The command."""
    if len(sys.argv) < 2:
        sys.exit(__doc__)
    sys.exit(not all([check(path) for path in sys.argv[1:]]))


if __name__ == "__main__":
    main()
