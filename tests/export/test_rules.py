"""The rules of a copy on cases told by hand.

    python3 -B tests/export/test_rules.py
"""

import sys
import unittest

sys.dont_write_bytecode = True

from rules import afterwards, mark, refusal  # noqa: E402

FIXED = (64, 32768, 4096, 6)


class Rules(unittest.TestCase):
    def told(self, extents, sizes, strides, starts, to, from_, record=FIXED):
        return refusal(extents, sizes, strides, record, starts, to, from_)

    def test_a_transpose(self):
        self.assertEqual(self.told((2, 3), (1, 1), (1, 2, 3, 1), (0, 0), 6, 6), 0)
        self.assertEqual(afterwards((2, 3), (1, 1), (1, 2, 3, 1), (0, 0), b"------", b"abcdef"), b"adbecf")

    def test_cells_of_two_bytes_backwards(self):
        self.assertEqual(self.told((3,), (2, 2), (-1, 1), (2, 0), 6, 6), 0)
        self.assertEqual(afterwards((3,), (2, 2), (-1, 1), (2, 0), b"------", b"aabbcc"), b"ccbbaa")

    def test_buffers(self):
        for number, starts, to, from_ in ((0, (0, 0), 6, 6), (17, (0, 0), 5, 6), (17, (0, 0), 6, 5), (17, (-1, 0), 6, 6), (17, (1, 0), 7, 6), (0, (1, 0), 8, 6)):
            self.assertEqual(self.told((3,), (2, 2), (1, 1), starts, to, from_), number)

    def test_marks(self):
        self.assertEqual(mark((3, 3), (1, 1)), "yes")
        self.assertEqual(mark((3, 3), (1, 3)), "no")
        self.assertEqual(mark((64, 64), (3, 5)), "yes")
        self.assertEqual(mark((65, 64), (3, 5)), "undecided")
        self.assertEqual(mark((65, 64), (0, 5)), "yes")
        self.assertEqual(mark((0, 9), (0, 0)), "no")

    def test_order(self):
        self.assertEqual(self.told((3, 3), (2, 3), (1, 1, 1, 3), (0, 0), 0, 0), 16)
        self.assertEqual(self.told((3, 3), (2, 2), (1, 1, 1, 3), (0, 0), 0, 18), 17)
        self.assertEqual(self.told((3, 3), (2, 2), (1, 1, 1, 3), (0, 0), 18, 18), 18)
        self.assertEqual(self.told((0, 3), (2, 2), (1, 1, 1, 3), (9, 9), 0, 0), 0)
        self.assertEqual(self.told((0, 3), (17, 17), (1, 1, 1, 3), (9, 9), 0, 0), 16)
        self.assertEqual(self.told((0, 3), (2, 2), (1, 1, 1, 3), (9, 9), 0, 0, (48, 32768, 4080, 6)), 24)


if __name__ == "__main__":
    unittest.main()
