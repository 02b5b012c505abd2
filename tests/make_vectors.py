#!/usr/bin/env python3
"""Makes the stored cases in tests/vectors; the same seed gives the same bytes. Run: python3 tests/make_vectors.py [--seed N]"""

import argparse
import random
from collections import Counter

from cases import TESTS, alike, damaged, limits, messages, named, neighbours, readings, sizes, slips
from cases.group import Group

DATA = TESTS / "vectors"
GROUPS = {
    "named": named,
    "readings": readings,
    "messages": messages,
    "slips": slips,
    "alike": alike,
    "damaged": damaged,
    "neighbours": neighbours,
    "sizes": sizes,
    "limits": limits,
}


def main():
    """The command."""
    parser = argparse.ArgumentParser(description="Make the stored cases.")
    parser.add_argument("--seed", type=int, default=1)
    options = parser.parse_args()
    DATA.mkdir(parents=True, exist_ok=True)
    tally = Counter()
    for name, module in GROUPS.items():
        group = Group()
        module.fill(random.Random(f"{options.seed} {name}"), group)
        (DATA / f"{name}.txt").write_bytes(group.data())
        print(f"{name}: {group.tally.total()} cases, {group.bytes} bytes", flush=True)
        tally += group.tally
    print(f"{tally.total()} cases:", ", ".join(f"{answer} {count}" for answer, count in sorted(tally.items())))


if __name__ == "__main__":
    main()
