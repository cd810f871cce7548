"""Tests of the judge and of what it rests on: refusal table, small plans, walk. Right answers pass, each kind of wrong one is turned down.

    python3 -B tests/texts/test_judge.py
"""

import unittest
from collections import Counter
from itertools import product

from form import read_text
from judge import Wrong, due, judge
from limits import layout, text
from plan import may_be_long, same_cells, small_plan
from rows import applying
from walk import Axis, NotAPlan, listing, offsets, read_axes, runs

WORKED = b"L,P,2,2,-\nE,2,3\nO,8,1,2\nO,8,3,1\n"
LISTED = b"K,2\nA,0,2,2,1,3\nA,1,3,3,2,1\nB,0,2,0,0\nB,1,2,2,1\nB,2,2,4,2\nZ,3,6\n"
LARGE = text([40, 40], (8, [1, 100]), (8, [100, 1]))
PLAN = [Axis(40, 40, (1, 100)), Axis(40, 32, (100, 1))]


class Walk(unittest.TestCase):
    def starts(self, axes):
        return [offsets(axes, 1, index)[0] for index, _ in runs(axes)]

    def test_figures_of_document_01(self):
        axes = [Axis(5, 2, (3,))]
        self.assertEqual(self.starts(axes), [0, 6, 12])
        self.assertEqual([length for _, length in runs(axes)], [2, 2, 1])
        axes = [Axis(3, 2, (1,)), Axis(3, 2, (10,))]
        self.assertEqual(self.starts(axes), [0, 10, 2, 12, 20, 22])
        self.assertEqual(self.starts(axes + [Axis(1, 1, (0,))] * 7), [0, 2, 10, 12, 20, 22])

    def test_no_axis_and_no_cell(self):
        self.assertEqual(list(runs([])), [((), 1)])
        self.assertEqual(list(runs([Axis(2**64 - 1, 1, (1,)), Axis(0, 0, (1,))])), [])

    def test_each_cell_is_in_one_block(self):
        for extents, blocks in (((3, 4, 5), (2, 3, 2)), ((5, 1, 3), (5, 1, 1)), ((2,) * 8, (1, 2) * 4), ((2,) * 9, (1, 2, 1) * 3), ((3, 3), (0, 9))):
            axes = [Axis(extent, block, (1,)) for extent, block in zip(extents, blocks)]
            cells = Counter((index[0] + k, *index[1:]) for index, length in runs(axes) for k in range(length))
            self.assertEqual(cells, Counter(product(*map(range, extents))))

    def test_the_room(self):
        axes = read_axes(LISTED, 2)
        self.assertEqual(listing(axes, 2), LISTED)
        self.assertEqual(listing(axes, 2, len(LISTED)), LISTED)
        self.assertIsNone(listing(axes, 2, len(LISTED) - 1))

    def test_lines_that_tell_no_plan(self):
        for output in (b"", b"R,14\n", b"K\n", b"K,1\n", b"K,1\nA,1,2,2,1\n", b"K,1\nA,0,2,2\n", b"K,1\nA,0,2,2,1,1\n", b"K,1\nA,0,2,2,01\n"):
            with self.assertRaises(NotAPlan):
                read_axes(output, 1)


class Plans(unittest.TestCase):
    def test_figures_of_document_01(self):
        self.assertEqual(small_plan(layout([2, 3, 4], (8, [1, 2, 6]))), [Axis(24, 24, (1,))])
        self.assertEqual(small_plan(layout([3, 2], (8, [-1, -3]))), [Axis(6, 6, (-1,))])
        self.assertEqual(small_plan(layout([1, 1], (8, [5, 7]))), [Axis(1, 1, (5,))])
        self.assertEqual(small_plan(layout([32, 32], (8, [32, 1]))), [Axis(32, 32, (32,)), Axis(32, 32, (1,))])
        self.assertEqual(small_plan(layout([], (8, []))), [])

    def test_products_beyond_64_bits_join_nothing(self):
        self.assertEqual(len(small_plan(layout([2**63, 0], (8, [1, 2**63 - 1])))), 2)
        self.assertEqual(len(small_plan(layout([2**63, 0], (8, [0, 0])))), 1)
        self.assertEqual(len(small_plan(layout([2**63, 2, 0], (8, [0, 0, 0])))), 1)
        self.assertEqual(len(small_plan(layout([2**63, 2, 0], (8, [0, 0, 5])))), 3)

    def test_the_same_cells(self):
        for extents, strides, plan in (
            ([6, 7], [1, 10], [(7, 10), (6, 1)]),
            ([6, 7], [1, 6], [(42, 1)]),
            ([60, 70, 80], [1, 60, 9], [(80, 9), (4200, 1)]),
        ):
            given = layout(extents, (8, strides))
            axes = [Axis(extent, extent, (stride,)) for extent, stride in plan]
            self.assertTrue(same_cells(given, axes))
            self.assertFalse(same_cells(given, axes + [Axis(2, 2, (0,))]))
            self.assertFalse(same_cells(given, [Axis(extent, extent, (stride + 1,)) for extent, stride in plan]))
        self.assertFalse(same_cells(layout([6, 7], (8, [1, 10])), [Axis(6, 6, (10,)), Axis(7, 7, (1,))]))
        self.assertFalse(same_cells(layout([60, 70], (8, [1, 100])), [Axis(60, 60, (100,)), Axis(70, 70, (1,))]))

    def test_lengths(self):
        self.assertFalse(may_be_long(read_text(WORKED)))
        self.assertTrue(may_be_long(layout([2, 524_288], (8, [1, 3]))))


class Rows(unittest.TestCase):
    def test_rows_that_apply(self):
        self.assertEqual(list(applying(layout([2, 3], (8, [1, 2])))), [])
        self.assertEqual(list(applying(layout([2] * 65, chosen=0))), [1, 2, 4, 5, 13])
        self.assertEqual(list(applying(layout([2**32, 2**32], (8, [2**62, 1])))), [5, 6, 13])
        self.assertEqual(list(applying(layout([2**32, 2**32, 0], (2**64 - 1, [2**62, 1, 1])))), [])
        self.assertEqual(due(b"")[0], 12)


class Judge(unittest.TestCase):
    def turned_down(self, given, *answers):
        for answer in answers:
            with self.subTest(answer=answer[:60]), self.assertRaises(Wrong):
                judge(given, answer)

    def test_a_right_answer(self):
        self.assertEqual(judge(WORKED, LISTED), "listed, up to 1,024 cells")
        self.assertEqual(judge(LARGE, listing(PLAN, 2)), "listed, above 1,024 cells")
        self.assertEqual(judge(b"", b"R,12\n"), "R,12")

    def test_wrong_refusals(self):
        self.turned_down(WORKED, b"R,12\n", b"R,14\n", b"", b"R,1\n" + LISTED)
        self.turned_down(LARGE, b"R,12\n", b"R,13\n", b"R,14\n")
        self.turned_down(b"L\n", b"R,1\n", b"R,12", b"R,12\n\n", b"R,012\n", b"", LISTED)
        self.turned_down(text([2, 524_289], (8, [1, 3])), b"R,14\n")

    def test_wrong_lines_of_a_small_layout(self):
        self.turned_down(WORKED, LISTED[:-1], LISTED + b"\n", LISTED.replace(b"\n", b"\r\n"))
        for old, new in ((b"B,1,2,2,1\n", b""), (b"B,1", b"B,2"), (b"Z,3", b"Z,4"), (b"3,6", b"3,7"), (b"K,2", b"K,3"), (b"A,1,3,3", b"A,1,3,2"),
                         (b"B,1,2,2,1\nB,2,2,4,2\n", b"B,1,2,4,2\nB,2,2,2,1\n")):
            self.assertEqual(LISTED.count(old), 1)
            self.turned_down(WORKED, LISTED.replace(old, new))

    def test_wrong_lines_of_a_large_layout(self):
        good = listing(PLAN, 2)
        block = b"B,3,40,300,3\n"
        self.turned_down(LARGE, good[:-1])
        for old, new in ((block, b""), (block, block + block), (block, b"B,3,40,200,2\n"), (block, b"B,3,39,300,3\n"), (b"Z,40,", b"Z,41,"),
                         (b"1600\n", b"1601\n")):
            self.assertEqual(good.count(old), 1)
            self.turned_down(LARGE, good.replace(old, new))

    def test_wrong_plans_of_a_large_layout(self):
        whole, half = Axis(40, 40, (1, 100)), Axis(40, 20, (100, 1))
        self.assertEqual(judge(LARGE, listing([half, whole], 2)), "listed, above 1,024 cells")
        for axes in ([whole], [whole, whole], [whole, Axis(40, 41, (100, 1))], [whole, Axis(40, 0, (100, 1))], [Axis(1600, 1600, (1, 100))],
                     [whole, Axis(20, 20, (100, 1)), Axis(2, 2, (0, 0))]):
            self.turned_down(LARGE, listing(axes, 2))


if __name__ == "__main__":
    unittest.main()
