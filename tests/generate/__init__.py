"""A generator of books, token lists and damaged texts. All that is random comes from the generator handed in, so a seed gives the same again."""

import sys
from pathlib import Path

sys.path.insert(0, str(Path(__file__).resolve().parent.parent.parent / "tools"))
