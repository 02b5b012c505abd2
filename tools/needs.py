#!/usr/bin/env python3
"""What a function's proof is asked and from where: the places that `c` passes, and the needs.

    rt check --start FUNCTION --generated DIR     in the crate's folder
    tools/needs.py DIR MODULE FUNCTION            as: tools/needs.py /tmp/out step step; a function of the crate's root: tools/needs.py /tmp/out . FUNCTION

A place is printed with how many places lead from it to the start, the place before it, and what is known there besides, which `c` names at once; a need with
its place. These are all the needs, also those that the check answers by itself; `rt check --start FUNCTION --allow-holes` prints the goals that are left.
"""

import pathlib
import re
import sys

PLACE = re.compile(r"\s*(?:pub )?record (?:pub )?([A-Z][\w-]*)(?: |$)")
FIELD = re.compile(r"\s+pub ([\w-]+) :\s*(\S*)")
NEED = re.compile(r"\s*abbrev pub (Need-[\w-]+)")
ASKED = re.compile(r"\(c : ([A-Z][\w-]*)")


def read(lines):
    """The place before each place with what is known there, and the place of each need."""
    before, known, needs = {}, {}, {}
    place = need = None
    for line in lines:
        if match := PLACE.match(line):
            place, need = match[1], None
            before[place], known[place] = None, []
        elif match := NEED.match(line):
            place, need = None, match[1]
        elif re.match(r"\s*(abbrev|unfoldable) ", line):
            place = None
        elif place and (match := FIELD.match(line)):
            if match[1] == "before":
                before[place] = match[2]
            else:
                known[place].append(match[1])
        elif need and (match := ASKED.search(line)):
            needs[need] = match[1]
            need = None
    return before, known, needs


def steps(before, place):
    """How many places lead from a place to the start."""
    count = 0
    while before.get(place):
        place, count = before[place], count + 1
    return count


def main():
    folder, module, function = sys.argv[1:]
    (path,) = pathlib.Path(folder).glob(f"*-proofs/{module}/{function}/Lts.antt")
    before, known, needs = read(path.read_text().splitlines())
    for place, last in before.items():
        if last:
            print(f"{steps(before, place):3} {place} after {last}: {' '.join(known[place])}")
    for need, place in needs.items():
        print(f"{need} at {place}, {steps(before, place)} from the start")


if __name__ == "__main__":
    main()
