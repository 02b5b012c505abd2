#!/usr/bin/env python3
"""Whether every must-fail edit still stands, and tests/EDITS.md names every one and no other. Run: python3 tests/check_edits.py

The gate applies an edit after all proofs, and would tell only then that its line is gone.
"""

import pathlib
import re
import sys

ROOT = pathlib.Path(__file__).resolve().parent.parent
PAGE = ROOT / "tests" / "EDITS.md"
NAME = re.compile(r"`([a-z_]+/[a-z_]+)`")


def pairs(text):
    """The edit's triples of a file, an old text and the new one."""
    file, old = None, None
    for line in text.splitlines():
        name, _, value = line.partition(": ")
        if name == "file":
            file = value
        elif name == "old":
            old = value
        elif name == "new":
            yield file, old, value


def fault(edit):
    """What is wrong with an edit, or nothing: each of its old texts must stand once in its file, as the pairs before left that."""
    texts = {}
    for file, old, new in pairs(edit.read_text()):
        path = edit.parent.parent / file
        if not path.is_file():
            return f"no file {file}"
        text = texts.get(file) or path.read_text()
        if text.count(old) != 1:
            return f"stands {text.count(old)} times in {file}: {old.strip()}"
        texts[file] = text.replace(old, new)
    return None if texts else "changes nothing"


def unlike(edits):
    """Where the page and the edits differ."""
    named = set(NAME.findall(PAGE.read_text()))
    yield from (f"{name}: not named on {PAGE.name}" for name in sorted(edits - named))
    yield from (f"{name}: named on {PAGE.name}, but there is no such edit" for name in sorted(named - edits))


def main():
    edits = {f"{path.parent.parent.name}/{path.stem}": path for path in sorted(ROOT.glob("crates/*/must-fail/*.edit"))}
    faults = [f"{name}: {what}" for name, what in ((name, fault(path)) for name, path in edits.items()) if what]
    faults += unlike(set(edits))
    print("\n".join(faults + [f"edits: {len(edits)}, faults: {len(faults)}"]))
    return 1 if faults or not edits else 0


if __name__ == "__main__":
    sys.exit(main())
