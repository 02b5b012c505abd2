#!/usr/bin/env python3
"""Runs the oracle over the stored cases, or an engine if one is named.

    python3 tests/check_vectors.py [--desk PROGRAM | --library FILE --prefix NAME]
"""

import argparse
import sys

from cases.group import read
from engines import add_options, engine_of
from make_vectors import DATA
from oracle.answer import desk


def main():
    """Prints each case that fails, and the counts."""
    parser = argparse.ArgumentParser(description="Run the stored cases.")
    add_options(parser)
    engine = engine_of(parser.parse_args())
    answer = engine.desk if engine else desk
    passed, failed = 0, 0
    for path in sorted(DATA.glob("*.txt")):
        for place, (whole, expected) in enumerate(read(path.read_bytes()), 1):
            if answer(whole) == expected:
                passed += 1
            else:
                failed += 1
                print(f"{path.name}, case {place}: another answer")
    print(f"stored cases: {passed} passed, {failed} failed")
    sys.exit(failed > 0 or passed == 0)


if __name__ == "__main__":
    main()
