"""Tests of this folder's own rules, on descriptions worked out by hand.

    python3 -B tests/descriptions/test_rules.py
"""

import unittest

from rules import from_numpy, packed, packed_fits, to_numpy


class From(unittest.TestCase):
    def test_what_is_said(self):
        for text, due in (
            (b"N,8,2\nS,3,4\nT,32,8\n", (8, [4, 3], [1, 4])),
            (b"N,8,2\nS,3,4\n", (8, [4, 3], [1, 4])),
            (b"N,8,2\nS,3,2\nT,-32,16\n", (8, [2, 3], [2, -4])),
            (b"N,4,3\nS,2,0,3\n", (4, [3, 0, 2], [1, 3, 0])),
            (b"N,16,0\nS\nT\n", (16, [], [])),
            (b"N,16,0\nS\n", (16, [], [])),
            (b"N,1,1\nS,1\nT,-9223372036854775808\n", (1, [1], [-(2**63)])),
        ):
            self.assertEqual(from_numpy(text), due, text)

    def test_what_is_refused(self):
        for text, due in (
            (b"N,8,1\nS,3", 12),
            (b"N,8,1\nS,3\nT,8\nT,8\n", 12),
            (b"N,8,2\nS,3\n", 12),
            (b"N,8,1\nS,3,\n", 12),
            (b"N,8,1\nS,03\n", 12),
            (b"N,8,1\nS,-3\n", 12),
            (b"N,8,1\nS,3\nT,-0\n", 12),
            (b"N,8,1\nS,3\nT,9223372036854775808\n", 12),
            (b"N,8,0\nS,\n", 12),
            (b"S,3\nN,8,1\n", 12),
            (b"N,8,1\r\nS,3\n", 12),
            (b"", 12),
            (b"N,0,1\nS,3\n", 19),
            (b"N,8,1\nS,3\nT,12\n", 19),
            (b"N,1,2\nS,1,9223372036854775808\n", 19),
            (b"N,1,65\nS" + b",1" * 65 + b"\n", 1),
            (b"N,2,65\nS" + b",1" * 65 + b"\nT" + b",1" * 65 + b"\n", 19),
        ):
            self.assertEqual(from_numpy(text), due, text)

    def test_packed(self):
        self.assertEqual(packed(4, [2, 0, 3]), [0, 12, 4])
        for size, shape in ((1, [9, 2**63 - 1]), (1, [2**64 - 1, 1]), (1, [5, 2**63, 0]), (1, [5, 0, 2**63 - 1]), (2**64 - 1, [])):
            self.assertTrue(packed_fits(size, shape))
            self.assertTrue(all(stride < 2**63 for stride in packed(size, shape)))
        for size, shape in ((1, [1, 2**63]), (1, [5, 0, 2**63]), (2**63, [1])):
            self.assertFalse(packed_fits(size, shape))


class Back(unittest.TestCase):
    def test_the_way_back(self):
        text = b"N,8,2\nS,3,4\nT,-32,8\n"
        for room, due in ((len(text), text), (100, text), (len(text) - 1, 14)):
            self.assertEqual(to_numpy(8, [4, 3], [1, -4], room), due)
        for given, due in (
            ((0, [], [], 0), 19),
            ((2, [1] * 65, [2**62], 0), 19),
            ((2, [1] * 65, [-(2**62)], 0), 1),
            ((2, [1], [], 0), 3),
            ((16, [], [], 11), b"N,16,0\nS\nT\n"),
        ):
            self.assertEqual(to_numpy(*given), due)


if __name__ == "__main__":
    unittest.main()
