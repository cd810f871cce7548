"""Tests of the rules for judging, on lists worked out by hand."""

import sys
import unittest
from math import prod

sys.dont_write_bytecode = True

from rules import ACCEPTED, DOUBLE, OUTSIDE, SHORT, judge  # noqa: E402


class Judging(unittest.TestCase):
    def test_by_hand(self):
        for extents, text, due in (
            ((3, 2), "V,0,3,0,1\nV,0,3,0,0\n", (ACCEPTED, "111111")),
            ((3, 2), "V,1,2,2,0\nV,0,2,0,0\nV,0,2,0,1\n", (ACCEPTED, "111111")),
            ((3, 2), "V,1,2,1,0\n", (SHORT, "010010")),
            ((3, 2), "", (SHORT, "000000")),
            ((3, 2), "V,0,3,0,0\nV,1,2,1,0\n", (DOUBLE, "111010")),
            ((3, 2), "V,0,3,0,0\nV,0,3,0,0\nV,0,2,2,1\n", (OUTSIDE, "000000")),
            ((3, 2), "V,1,1,0,2\n", (OUTSIDE, "000000")),
            ((3,), f"V,0,{2**64 - 1},{2**64 - 1}\n", (OUTSIDE, "000")),
            ((3,), f"V,0,{2**64},0\n", 23),
            ((3, 0), "", (ACCEPTED, "")),
            ((3, 0), "V,0,1,0,0\n", (OUTSIDE, "")),
            ((3,), "V,0,0,0\n", 23),
            ((3,), "V,1,1,0\n", 23),
            ((3,), "V,0,1,0", 23),
            ((3,), "V,0,1,00\n", 23),
            ((3,), "V,0,1,-1\n", 23),
            ((3,), "V,0,1,0,0\n", 23),
            ((3,), "\n", 23),
            ((3,), "v,0,1,0\n", 23),
            ((3,), "V,0,1,0\r\n", 23),
            ((), "", 23),
            ((65537,), "x", 13),
            ((2**32, 2**32), "", 5),
            ((0, 2**64 - 1), "", (ACCEPTED, "")),
            ((1,) * 65, "", 1),
        ):
            told = judge(extents, text.encode(), min(prod(extents), 65_537))
            self.assertEqual(told, due if isinstance(due, int) else (due[0], bytes(map(int, due[1]))), (extents, text))

    def test_the_buffer(self):
        for room, due in ((2, 23), (3, (SHORT, bytes(3))), (4, 23)):
            self.assertEqual(judge((3,), b"", room), due)


if __name__ == "__main__":
    unittest.main()
