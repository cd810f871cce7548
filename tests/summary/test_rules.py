"""Tests of the rules for summaries, worked out by hand."""

import sys
import unittest
from math import copysign, inf, isnan, nan

sys.dont_write_bytecode = True

from rules import exact, refusal, summary  # noqa: E402

FIXED = (64, 32768, 4096, 6)


class Summaries(unittest.TestCase):
    def test_by_hand(self):
        self.assertEqual(summary([]), (0.0, 0.0, 0.0, 0, 0, 0))
        self.assertEqual(summary([1.5, -2.0, 4.0]), (3.5, -2.0, 4.0, 3, 0, 1))
        self.assertEqual(summary([1e16, 1.0, -1e16]), (0.0, -1e16, 1e16, 3, 0, 1))
        self.assertEqual(summary([0.1] * 10)[0], 0.9999999999999999)
        told = summary([nan, 2.0, nan])
        self.assertTrue(isnan(told[0]))
        self.assertEqual(told[1:], (2.0, 2.0, 3, 2, 1))
        told = summary([-inf, inf])
        self.assertTrue(isnan(told[0]))
        self.assertEqual(told[1:], (-inf, inf, 2, 0, 1))

    def test_zeros(self):
        signs = [copysign(1, number) for number in summary([-0.0])[:3]]
        self.assertEqual(signs, [1, -1, -1])
        signs = [copysign(1, number) for number in summary([0.0, -0.0])[:3]]
        self.assertEqual(signs, [1, 1, 1])

    def test_exact(self):
        self.assertEqual(exact([2.0**52, -(2.0**52)]), 0.0)
        self.assertIsNone(exact([2.0**53, 1.0]))
        self.assertIsNone(exact([0.5]))
        self.assertIsNone(exact([inf]))

    def test_refusals(self):
        for extents, strides, record, start, count, due in (
            ((1,) * 65, (), (1, 1, 1, 1), 0, 0, 1),
            ((2, 2), (1,), (1, 1, 1, 1), 0, 0, 3),
            ((2, 0), (1, 1), (64, 32768, 4096, 17), 0, 0, 24),
            ((2**32, 2**32), (2**62, 1), FIXED, 0, 0, 5),
            ((3,), (2**62,), FIXED, 0, 0, 6),
            ((2,), (1,), FIXED, 2**63 - 1, 0, 9),
            ((2,), (-1,), FIXED, -(2**63), 0, 9),
            ((5,), (1,), FIXED, 0, 4, 22),
            ((5,), (-1,), FIXED, 3, 9, 22),
            ((5,), (1,), FIXED, 0, 5, None),
            ((), (), FIXED, 0, 0, 22),
            ((2**64 - 1, 0), (2**62, 2**62), FIXED, -5, 0, None),
        ):
            self.assertEqual(refusal(extents, strides, record, start, count), due, (extents, strides, start, count))


if __name__ == "__main__":
    unittest.main()
