"""The check of stack frames. Run: python3 tests/test_prologues.py"""

import unittest

from check_prologues import faults

HEAD = "\n0000000000000000 <one>:\n   0:\tpush   %rbp\n"
LOOP = "   1:\tmov    %rsp,%r11\n   4:\tsub    $0x4000,%r11\n   b:\tsub    $0x1000,%rsp\n  12:\tmovq   $0x0,(%rsp)\n  1a:\tcmp    %r11,%rsp\n  1d:\tjne    b <one+0xb>\n"
TEST = "   1:\tmov    0x10(%rdi),%r11d\n   5:\tcmp    $0x20,%r11d\n"
TAIL = "  1f:\tret\n\n0000000000000020 <two>:\n  20:\tmov    %rdi,%r11\n  23:\tret\n"


class Frames(unittest.TestCase):
    """Frames made first, and behind a test."""

    def test_made_first(self):
        self.assertEqual(faults(HEAD + LOOP + TEST + TAIL), [])

    def test_made_behind_a_test(self):
        self.assertEqual(faults(HEAD + TEST + LOOP + TAIL), ["one"])


if __name__ == "__main__":
    unittest.main()
