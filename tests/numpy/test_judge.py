"""Tests of the judge: a right answer passes, and each kind of wrong one is turned down.

    /usr/bin/python3 -B tests/numpy/test_judge.py
"""

import unittest

import numpy as np

from judge import Wrong, judge
from views import Case, case


def cell_by_cell(made):
    """A right answer that has a block of length 1 for each cell."""
    blocks = []
    if made.view.size:
        start = int(made.twin.flat[0])
        blocks = [[1, number, int(offset) - start] for number, offset in enumerate(made.twin.ravel(order=made.order))]
    return blocks


def written(blocks, count=None, cells=None):
    lines = ["K,1", f"A,0,{len(blocks)},1,1,1"] + [f"B,{n},{','.join(map(str, block))}" for n, block in enumerate(blocks)]
    count = len(blocks) if count is None else count
    cells = sum(block[0] for block in blocks) if cells is None else cells
    return "\n".join([*lines, f"Z,{count},{cells}", ""])


class Judge(unittest.TestCase):
    def setUp(self):
        buffer = np.arange(48, dtype=np.uint64).view("V8")
        self.made = Case("a transposed slice", 8, buffer, buffer.reshape(6, 8)[::-2, 1:].T, np.arange(48).reshape(6, 8)[::-2, 1:].T, "C", "P", "0")
        self.blocks = cell_by_cell(self.made)

    def turned_down(self, blocks, words, **counts):
        with self.assertRaises(Wrong) as wrong:
            judge(self.made, written(blocks, **counts))
        self.assertIn(words, str(wrong.exception))

    def test_a_right_answer(self):
        judge(self.made, written(self.blocks))
        judge(self.made, written(self.blocks[::-1]))

    def test_right_answers_to_random_views(self):
        rng = np.random.default_rng(7)
        for _ in range(20):
            made = case(rng)
            judge(made, written(cell_by_cell(made)))

    def test_cells_left_out_or_repeated(self):
        self.turned_down(self.blocks[:-1], "exactly once")
        self.turned_down(self.blocks[:1] * len(self.blocks), "exactly once")
        self.turned_down([], "exactly once")

    def test_wrong_offsets(self):
        first, second, *others = self.blocks
        self.turned_down([[*first[:2], second[2]], [*second[:2], first[2]], *others], "another index")
        self.turned_down([[*first[:2], second[2]], second, *others], "not those of the view")
        self.turned_down([[1, 0, 10**9], second, *others], "leaves its operand")
        self.turned_down([[1, -1, 0], second, *others], "leaves its operand")

    def test_wrong_counts(self):
        self.turned_down(self.blocks, "Z", count=3)
        self.turned_down(self.blocks, "Z", cells=3)
        self.turned_down([[0, 0, 0], *self.blocks], "empty")

    def test_no_answer(self):
        for text, words in (("", "K"), ("R,14\n", "refused with 14"), ("panic\n", "panic"), (written(self.blocks).replace("B,1,", "B,2,"), "B,1")):
            with self.assertRaises(Wrong) as wrong:
                judge(self.made, text)
            self.assertIn(words, str(wrong.exception))


if __name__ == "__main__":
    unittest.main()
