"""Tests of the Python module with NumPy: docs/NUMPY.md and docs/TOUR.md as they are written, and random views copied by their blocks.

    /usr/bin/python3 -B tests/python/test_numpy.py         (Debian's package python3-numpy)
"""

import doctest
import sys
import unittest

import numpy as np
from seeded import ROOT

import gougelily as g

sys.path.insert(0, str(ROOT / "tests" / "numpy"))

from views import case  # noqa: E402


class Pages(unittest.TestCase):
    def test_the_pages(self):
        for page, least in (("docs/NUMPY.md", 20), ("docs/TOUR.md", 5)):
            outcome = doctest.testfile(str(ROOT / page), module_relative=False)
            self.assertEqual(outcome.failed, 0)
            self.assertGreaterEqual(outcome.attempted, least)


class Views(unittest.TestCase):
    def test_copies_of_random_views(self):
        rng = np.random.default_rng(3)
        for _ in range(150):
            made = case(rng)
            target = np.empty(made.view.shape, made.view.dtype, order=made.order)
            chosen = None if made.chosen == "-" else int(made.chosen)
            plan = g.plan(target, made.view, purpose=made.purpose, chosen=chosen)
            to = target.reshape(-1, order=made.order)
            self.assertTrue(np.shares_memory(to, target) or not to.size)
            start = int(made.twin[(0,) * made.twin.ndim]) if made.view.size else 0
            met = 0
            for length, (there, here) in g.blocks(plan, (0, start), room=50):
                k = np.arange(length)
                to[there + k * plan.steps[0]] = made.buffer[here + k * plan.steps[1]]
                met += length
            self.assertEqual(met, made.view.size)
            self.assertEqual(target.tobytes(), made.view.tobytes(), made.how)
            if 1 <= made.view.itemsize <= 16:
                again = np.empty_like(target)
                g.copy(again, made.view)
                self.assertEqual(again.tobytes(), made.view.tobytes(), made.how)

    def test_sums_of_random_views(self):
        rng = np.random.default_rng(5)
        for _ in range(150):
            view = case(rng).view
            cells = rng.standard_normal(view.shape) * 1000
            # the view's own strides, over doubles
            step = view.dtype.itemsize
            if all(stride % step == 0 for stride in view.strides):
                below = sum((n - 1) * -s // step for n, s in zip(view.shape, view.strides) if s < 0 and n)
                above = sum((n - 1) * s // step for n, s in zip(view.shape, view.strides) if s > 0 and n)
                memory = rng.standard_normal(below + above + 1) * 1000
                cells = np.lib.stride_tricks.as_strided(memory[below:], view.shape, [s // step * 8 for s in view.strides])
            told, plan = g.summary(cells), g.plan(cells, purpose="F", chosen=0)
            stride = plan.steps[0]
            at = cells.__array_interface__["data"][0] // 8
            base = cells if cells.base is None else memory
            start = at - base.__array_interface__["data"][0] // 8
            total = 0.0
            for length, (offset,) in g.blocks(plan, (start,)):
                for cell in base.reshape(-1)[offset + np.arange(length) * stride]:
                    total += float(cell)
            self.assertEqual((told.sum, told.count), (total, cells.size))
            if cells.size:
                self.assertEqual((told.least, told.greatest), (cells.min(), cells.max()))

    def test_numbers_of_numpy(self):
        told = g.Layout(np.array([2, 3]), np.array([8]), np.array([[1, 2]]))
        self.assertEqual(told, g.Layout((2, 3), (8,), ((1, 2),)))
        self.assertEqual(g.original_index(told, np.array([3], dtype=np.uint8)), (1, 1))

    def test_strides_that_are_no_elements(self):
        field = np.zeros(4, dtype=[("tag", "u1"), ("value", "<f4")])["value"]
        with self.assertRaises(ValueError) as raised:
            g.plan(field)
        self.assertIn("5 bytes", str(raised.exception))
        self.assertEqual(g.Layout.of(np.zeros(4, dtype=[("a", "<f8"), ("b", "<f8")])["b"]).strides, ((2,),))

    def test_the_mark_of_a_broadcast(self):
        wide = g.Layout.of(np.broadcast_to(np.arange(3), (2, 3)))
        self.assertEqual(g.repeat_mark(wide.extents, wide.strides[0]), "yes")


if __name__ == "__main__":
    unittest.main()
