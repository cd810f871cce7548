"""Tests of the rules for windows, on windows worked out by hand."""

import sys
import unittest

sys.dont_write_bytecode = True

from rules import window  # noqa: E402


class Windows(unittest.TestCase):
    def test_by_hand(self):
        for given, due in (
            (((4, 5), (8,), (1, 4), (3, 0), (2, 3), (-2, 2)), ([-2, 8], [3])),
            # one index keeps the stride, whatever the step
            (((4, 5), (8,), (1, 4), (2, 4), (1, 5), (7, -1)), ([1, -4], [18])),
            # nothing on axis 1: no shift on axis 0 either
            (((4, 5), (8,), (1, 4), (2, 5), (2, 0), (3, 1)), 15),
            (((4, 5), (8,), (1, 4), (0, 5), (2, 0), (3, 1)), ([3, 4], [0])),
            (((4, 5), (8,), (1, 4), (0, 6), (2, 0), (3, 1)), 15),
            (((4,), (8,), (1,), (0,), (3,), (2,)), 15),
            (((4,), (8,), (1,), (1,), (3,), (-1,)), 15),
            (((4,), (8,), (1,), (1,), (1,), (0,)), 15),
            (((3,), (8,), (2**62,), (9,), (1,), (1,)), 6),
            (((3,), (8,), (1,), (0, 0), (1,), (1,)), 15),
            # beside a zero extent a new stride can be too long
            (((0, 2**63 + 1), (8,), (1, -1), (0, 2**63), (0, 2), (1, -(2**63))), 15),
            (((0, 2**63 + 1), (8,), (1, 1), (0, 2**63), (0, 2), (1, -(2**63))), ([1, -(2**63)], [0])),
            (((), (8, 8), (), (), (), ()), ([], [0, 0])),
        ):
            self.assertEqual(window(*given), due, given)


if __name__ == "__main__":
    unittest.main()
