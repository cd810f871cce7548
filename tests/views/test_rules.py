"""Tests of the rules for visits, on blocks and states worked out by hand."""

import sys
import unittest

sys.dont_write_bytecode = True

from rules import blocks, layout_refusal, reached  # noqa: E402


class Blocks(unittest.TestCase):
    def test_document_01(self):
        """Extents 3,3, blocks 2,2, strides 1,10: offsets 0,10,2,12,20,22; with seven axes of 1 behind 0,2,10,12,20,22."""
        ones = [1] * 7
        for extents, sizes, offsets in (
            ([3, 3], [2, 2], [0, 10, 2, 12, 20, 22]),
            ([3, 3, *ones], [2, 2, *ones], [0, 2, 10, 12, 20, 22]),
            ([5], [2], [0, 2, 4]),
            ([3], [0], [0, 1, 2]),
            ([3], [9], [0]),
        ):
            with self.subTest(extents=extents):
                self.assertEqual([c[0] + (10 * c[1] if len(c) > 1 else 0) for c, _ in blocks(extents, sizes)], offsets)
        self.assertEqual([length for _, length in blocks([5], [2])], [2, 2, 1])
        self.assertEqual(blocks([], []), [((), 1)])
        self.assertEqual(blocks([2, 0], [1, 1]), [])


class Refusals(unittest.TestCase):
    def test_rows(self):
        for given, due in (
            (([2], [8], [1], 0, 9, 1, 1), 0),
            (([1] * 65, [], [], 0, 0, 1, 9), 1),
            (([2], [], [], 0, 0, 65, 9), 1),
            (([2], [8], [], 0, 0, 1, 9), 2),
            (([2], [8], [], 1, 7, 1, 1), 3),
            (([2], [8], [1], 5, 1, 1, 1), 4),
            (([2**32, 2**32], [8], [1, 1], 0, 0, 1, 1), 5),
            (([2**32, 2**32, 0], [8], [1, 1, 2**62], 0, 0, 1, 1), 0),
            (([3], [8], [2**62], 0, 0, 1, 1), 6),
        ):
            with self.subTest(due=due):
                self.assertEqual(layout_refusal(*given), due)

    def test_states(self):
        counters, offsets = [0] * 64, [0] * 8
        for changed, ended, due in (({}, False, True), ({0: 2}, False, True), ({0: 1}, False, False), ({0: 5}, False, False), ({1: 1}, False, False), ({}, True, True), ({0: 2}, True, False)):
            here = [changed.get(i, 0) for i in range(64)]
            self.assertEqual(reached([5], [2], [[3]], ended, here, [3 * here[0], *offsets[1:]]), due)
        self.assertFalse(reached([2], [1], [[1]], False, counters, [2**63 - 1, *offsets[1:]]))
        self.assertTrue(reached([2], [1], [[1]], False, [1, *counters[1:]], [2**63 - 1, *offsets[1:]]))


if __name__ == "__main__":
    unittest.main()
