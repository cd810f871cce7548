"""Tests of the rules for sessions, on small ones worked out by hand.

    python3 -B tests/sessions/test_rules.py
"""

import sys
import unittest
from copy import deepcopy

sys.dont_write_bytecode = True

from rules import PLACES, Layout, Machine, Operand, begin, join, leave, reached  # noqa: E402

FIXED = Machine(64, 32_768, 4_096, 6)


def of(extents, *operands, purpose="P", chosen=None):
    return Layout(purpose, chosen, tuple(extents), tuple(Operand(size, tuple(strides)) for size, strides in operands))


def begun(*told, **more):
    return begin(of(*told, **more), FIXED, set())


class Kept(unittest.TestCase):
    def test_document_01(self):
        """Two operands of 4 x 4 cells, one by rows, one by columns: weights 33, 12. The plan of 16 cells is that of the axes as given."""
        session = begun([4, 4], (8, [1, 4]), (8, [4, 1]))
        self.assertEqual({name: len(words) for name, words in session.items()}, PLACES)
        self.assertEqual((session["ranks"][:3], session["ranks"][64:67], session["weights"][:3]), ([1, 2, 0], [2, 1, 0], [33, 12, 0]))
        self.assertEqual((session["costs"][:3], session["plan_counts"], session["blocks"][:3]), ([2, 2, 0], [2, 2], [4, 4, 0]))
        self.assertEqual(session["strides"][:5], [1, 4, 4, 1, 0])
        self.assertEqual(session["plan_strides"][:3] + session["plan_strides"][64:67], [1, 4, 0, 4, 1, 0])

    def test_an_axis_without_a_cost(self):
        session = begun([2, 3], (8, [1, 0]), (8, [3, 0]))
        self.assertEqual((session["plan_counts"], session["costs"][:2]), ([2, 2], [2, 0]))

    def test_an_operand_joins_and_leaves(self):
        before = begun([4, 4], (8, [1, 4]), (8, [4, 1]), purpose="P", chosen=1)
        more = join(before, 4, [0, 3], set())
        self.assertEqual((more["operands"], more["sizes"][:4], more["chosen"]), ([3], [8, 8, 4, 0], [1]))
        self.assertEqual(more["ranks"][:128], before["ranks"][:128])
        self.assertEqual(leave(more, 2, set()), before)
        less = leave(more, 0, set())
        self.assertEqual((less["purpose"], less["chosen"], less["sizes"][:3], less["strides"][:5]), ([1], [0], [8, 4, 0], [4, 1, 0, 3, 0]))
        self.assertEqual(less["ranks"][:128], more["ranks"][64:192])
        gone = leave(more, 1, set())
        self.assertEqual((gone["purpose"], gone["chosen"], gone["sizes"][:3]), ([0], [0], [8, 4, 0]))

    def test_a_fold_whose_chosen_operand_leaves(self):
        fold = begun([4], (8, [1]), (4, [2]), (2, [3]), purpose="F", chosen=1)
        self.assertEqual([(left["purpose"], left["chosen"]) for left in (leave(fold, k, set()) for k in range(3))], [([2], [0])] * 2 + [([2], [1])])


class Refusals(unittest.TestCase):
    def test_rows(self):
        full, one, none = begun([3], *[(8, [1])] * 8), begun([3], (8, [1])), begun([3, 0], (8, [1, 1]))
        broken = deepcopy(full)
        broken["weights"][63] = 1
        for due, call, *given in (
            (10, join, broken, 8, [1, 1]),
            (20, join, full, 8, [1, 1]),
            (3, join, one, 8, [2**62, 2**62]),
            (6, join, one, 8, [2**62]),
            (10, leave, broken, 8),
            (21, leave, full, 8),
            (21, leave, one, 0),
        ):
            self.assertEqual(call(*given, set()), due)
        self.assertEqual(join(one, 8, [2**62 - 1], set())["operands"], [2])
        self.assertEqual(join(none, 8, [2**62, 2**62], set())["operands"], [2])
        self.assertEqual(begun([3], (8, [2**62])), 6)

    def test_what_is_reached(self):
        session = begun([4, 4], (8, [1, 4]), (8, [4, 1]))
        for name in PLACES:
            changed = deepcopy(session)
            changed[name][-1] += 1
            # with a live line more, or with operand 0 chosen, this small layout gives the same
            self.assertEqual(reached(changed), name in ("machine", "purpose"), name)
        session["purpose"] = [3]
        self.assertFalse(reached(session))


if __name__ == "__main__":
    unittest.main()
