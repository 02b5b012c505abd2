"""The stored cases by group. Each module has `fill(rng, group)`, which adds cases to a group; a seed gives the same cases again."""

import sys
from pathlib import Path

TESTS = Path(__file__).resolve().parent.parent
for place in (TESTS, TESTS.parent / "tools"):
    if str(place) not in sys.path:
        sys.path.insert(0, str(place))
