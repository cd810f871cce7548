"""Tests of the reference: the figures of document 01, the recorded answers of the original Rust for the fixed four, and where records differ.

    python3 -B tests/machines/test_reference.py
"""

import random
import unittest
from dataclasses import replace

from layouts import large
from library import PATTERN, PLACES, axes_of, first_difference, memory_of
from machine import FIXED, Machine, faults, limits_of, only_difference
from neighbours import SMALL, Axis, cutting, limits, load, planning, products, read_axes, read_cases, read_text, small_plan, total
from records import allowed, bounds, one_other, refused
from reference import for_axes, for_blocks, plan

layout = limits.layout
TRANSPOSE = (8, [1, 64]), (8, [64, 1])
SETS = (8, [1, 64]), (8, [512, 1])


def blocks(told, machine=FIXED, met=None):
    return [axis.block for axis in plan(told, machine, set() if met is None else met)]


def numbers(word, *values):
    return ",".join(map(str, (word, *values))).encode() + b"\n"


class Figures(unittest.TestCase):
    """Document 01, "Figures to check"."""

    def test_ranks_and_weights(self):
        self.assertEqual(planning.ranks([0, 4, -2, 4]), [1, 2, 1, 2])
        self.assertEqual(planning.weights(for_axes(layout([4, 4], (8, [1, 4]), (8, [4, 1])))), [33, 12])

    def test_fused_axes(self):
        for extents, strides, axis in (
            ([2, 3, 4], [1, 2, 6], Axis(24, 24, (1,))),
            ([3, 2], [-1, -3], Axis(6, 6, (-1,))),
            ([1, 1], [5, 7], Axis(1, 1, (5,))),
            ([33, 32], [32, 1], Axis(1056, 1056, (1,))),
        ):
            self.assertEqual(plan(layout(extents, (8, strides), purpose="F", chosen=0), FIXED, set()), [axis])
        stay = [Axis(32, 32, (32,)), Axis(32, 32, (1,))]
        self.assertEqual(plan(layout([32, 32], (8, [32, 1]), purpose="F", chosen=0), FIXED, set()), stay)

    def test_regions(self):
        self.assertEqual(cutting.region([64, 64], [[8, 512]], 64), 32_768)
        self.assertEqual(cutting.region([64, 65], [[8, 512]], 64), 33_280)

    def test_blocks(self):
        self.assertEqual(blocks(layout([64, 64], *TRANSPOSE, chosen=0)), [64, 32])
        self.assertEqual(blocks(layout([64, 64], *SETS, chosen=0)), [6, 32])
        self.assertEqual(blocks(layout([64, 64], *SETS, purpose="F", chosen=0)), [64, 32])


class Recorded(unittest.TestCase):
    """Where the Rust decides: every line that it answered on the recorded layouts but the walks."""

    def test_recorded_answers(self):
        plans = 0
        for case in read_cases():
            with self.subTest(case=case.name):
                told = read_text(case.text)
                answer = plan(told, FIXED, set())
                if isinstance(answer, int):
                    self.assertEqual(case.lines(b"R"), numbers("R", answer))
                    continue
                view, axes = for_axes(told), for_blocks(told)
                self.assertEqual(case.lines(b"ranks"), b"".join(numbers("ranks", k, *planning.ranks(row)) for k, row in enumerate(view.strides)))
                self.assertEqual(case.lines(b"weights"), numbers("weights", *planning.weights(view)))
                self.assertEqual(case.lines(b"order"), numbers("order", *planning.loop_order(view)))
                self.assertEqual(case.lines(b"fused"), numbers("fused", *(axis.extent for axis in planning.fused_axes(view))))
                # in arrays 0 says that an axis has no cost
                self.assertEqual(case.lines(b"costs"), numbers("costs", *(cost or 0 for cost in cutting.costs(axes.strides))))
                if 0 not in told.extents:
                    self.assertEqual(case.lines(b"region"), numbers("region", cutting.region(axes.extents, axes.bytes, 64)))
                if b"cap" not in case.answer:
                    self.assertEqual(read_axes(case.lines(b"K", b"A"), len(told.operands)), answer)
                    plans += 1
        self.assertGreater(plans, 300)

    def test_small_plans_are_those_of_the_texts(self):
        for case in read_cases():
            told = read_text(case.text)
            answer = plan(told, FIXED, set())
            if not isinstance(answer, int) and total(told) <= SMALL:
                self.assertEqual(answer, small_plan(told))


class Cutting(unittest.TestCase):
    def test_a_jump_is_single_steps(self):
        rng = random.Random(5)
        jumps = 0
        for _ in range(600):
            count = rng.randint(1, 4)
            tail = [rng.randint(1, 60) for _ in range(count)]
            rows = [[rng.choice((0, 1, 8, 40, 64, 100, 4_096)) for _ in tail] for _ in range(rng.randint(1, 3))]
            cost = [rng.choice((1, 1, 2, 2, 6, 16, 1_000)) if any(column) else rng.choice((1, None)) for column in zip(*rows)]
            machine = replace(FIXED, cache=rng.randint(4_096, 20_000), line=rng.choice((32, 64, 128)))

            def measure(tried):
                return cutting.region(tried, rows, machine.line)

            single, jumped = list(tail), list(tail)
            steps = len(list(cutting.lessen(single, cost, measure, machine.cache)))
            if not steps:
                continue
            cutting.jump(jumped, cost, measure, machine.cache)
            left = len(list(cutting.lessen(jumped, cost, measure, machine.cache)))
            self.assertEqual(jumped, single)
            self.assertLessEqual(left, count)
            jumps += steps > count
        self.assertGreater(jumps, 100)

    def test_ties_go_to_the_last(self):
        self.assertEqual(cutting.greatest([3, 5, 5, 1], [2, 1, 1, 1_000]), 2)

    def test_an_axis_that_nobody_moves_along_is_passed_over(self):
        self.assertEqual(cutting.greatest([3, 9, 5, 900], [2, 1, 1, None]), 1)
        # as in the oracle's tests, there by the changed Rust; beside it an operand that moves along the axis, of size 1 and of size 0
        rows = (64, [0, 512, 1]), (64, [0, 1, 64])
        self.assertEqual(blocks(layout([33, 16, 17], *rows, purpose="F", chosen=0)), [16, 16, 33])
        self.assertEqual(blocks(layout([33, 16, 17], *rows, chosen=0)), [5, 1, 33])
        for size in (1, 0):
            self.assertNotIn(33, blocks(layout([33, 16, 17], *rows, (size, [1, 0, 0]))))

    def test_ranks_are_not_taken_afresh(self):
        # afresh the second axis would be kept as well, and the third would fit
        self.assertEqual(blocks(layout([64, 64, 64], (8, [1, 100, 10_000]), (8, [5, 0, 7_000]))), [64, 64, 7])
        self.assertEqual(cutting.plan_ranks([[0, 2, 1], [5, 5, 9]], [8, 0]), [[1, 2, 1], [1, 1, 1]])

    def test_costs(self):
        rows = [[0, 0, -3, 2**62, -(2**63)], [0, 5, 7, 2**62 + 1, 2**63 - 1]]
        self.assertEqual(cutting.costs(rows), [None, 1, 6, 2**63 - 1, 2**63 - 1])

    def test_twice_the_cache(self):
        # the region of the whole is 65,536; worked out by hand
        told = layout([64, 64], *TRANSPOSE)
        for cache, due in ((65_536, [64, 64]), (65_535, [64, 63]), (32_769, [43, 42]), (32_768, [64, 32]), (16_384, [32, 32])):
            with self.subTest(cache=cache):
                self.assertEqual(blocks(told, replace(FIXED, cache=cache)), due)

    def test_a_tail_to_1(self):
        told = layout([40, 40], (8, [513, 20_521]), (8, [20_521, 513]))
        self.assertEqual(blocks(told, replace(FIXED, cache=4_103)), [1, 1])
        self.assertNotEqual(blocks(told, replace(FIXED, cache=4_104)), [1, 1])


class Fit(unittest.TestCase):
    def test_each_number(self):
        told = layout([64, 64], *SETS, chosen=0)
        for machine, due in (
            (FIXED, [6, 32]),
            (replace(FIXED, live=5), [5, 32]),
            (replace(FIXED, way=2_048), [6, 32]),
            (replace(FIXED, way=8_192), [64, 32]),
            (replace(FIXED, cache=65_536), [64, 64]),
        ):
            with self.subTest(machine=machine):
                self.assertEqual(blocks(told, machine), due)
        # worked out by hand: with lines of 256 bytes the second operand counts
        told = layout([64, 64], (8, [1, 64]), (8, [512, 16]), chosen=0)
        self.assertEqual(blocks(told), [64, 7])
        self.assertEqual(blocks(told, replace(FIXED, line=256)), [6, 4])

    def test_products(self):
        axes = for_blocks(layout([64, 64], *SETS, chosen=0))
        entering = products(axes, FIXED, set())
        self.assertEqual(entering, [[0]])
        self.assertEqual(load([64, 32], entering), 64)
        self.assertEqual(load([6, 32], entering + [[]]), 7)


class Records(unittest.TestCase):
    def test_bounds(self):
        self.assertEqual(list(faults(FIXED)), [])
        for machine, fault in (
            (replace(FIXED, line=48, way=4_080), "line no power of two"),
            (replace(FIXED, line=16), "line below 32"),
            (replace(FIXED, line=512), "line above 256"),
            (replace(FIXED, cache=4_095, way=64), "cache below 4,096"),
            (replace(FIXED, cache=1_048_577), "cache above 1,048,576"),
            (replace(FIXED, way=4_097), "way no multiple of the line"),
            (replace(FIXED, way=0), "way below the line"),
            (replace(FIXED, way=32_832), "way above the cache"),
            (replace(FIXED, live=0), "live below 1"),
            (replace(FIXED, live=17), "live above 16"),
        ):
            self.assertEqual(list(faults(machine)), [fault])
        self.assertEqual(set(faults(Machine(0, 0, 0, 0))), {"line no power of two", "line below 32", "cache below 4,096", "live below 1"})
        self.assertEqual(list(limits_of(Machine(32, 4_096, 32, 1))), ["line 32", "cache 4,096", "way equal to the line", "live 1"])

    def test_drawn_records(self):
        rng = random.Random(3)
        for _ in range(2_000):
            machine = allowed(rng)
            self.assertEqual(list(faults(machine)), [], machine)
            self.assertIn(only_difference(one_other(rng)), (None, "line", "cache", "way", "live"))
        self.assertGreater(sum(bool(list(faults(refused(rng, allowed(rng))))) for _ in range(1_000)), 900)
        self.assertEqual({bool(list(faults(machine))) for machine in bounds()}, {False, True})

    def test_the_order_of_rows(self):
        bad = replace(FIXED, live=17)
        for told, row, without in (
            (layout([1] * 65, (8, [1] * 65)), 1, 1),
            (layout([2]), 2, 2),
            (layout([2, 2], (8, [1])), 3, 3),
            (layout([2], (8, [1]), chosen=1), 4, 4),
            (layout([2**32, 2**32], (8, [0, 0])), 24, 5),
            (layout([3], (8, [2**62])), 24, 6),
            (layout([2], (8, [2**60])), 24, []),
            (layout([0], (8, [2**60])), 24, []),
        ):
            self.assertEqual(plan(told, bad, set()), row)
            answer = plan(told, FIXED, set())
            self.assertEqual(answer if isinstance(answer, int) else [], without)


class Memory(unittest.TestCase):
    def test_a_plan_and_a_refusal(self):
        axes = [Axis(64, 6, (1, -512)), Axis(2**64 - 1, 32, (-(2**63), 1))]
        memory = memory_of(axes, 2)
        self.assertEqual(axes_of(memory), axes)
        self.assertEqual(memory_of(7, 2), PATTERN)
        self.assertNotIn(0, PATTERN)
        self.assertEqual(memory[PLACES["extents"]][16:], bytes(62 * 8))
        self.assertEqual(memory[: PLACES["rank"].start], PATTERN[: PLACES["rank"].start])
        other = bytearray(memory)
        other[PLACES["strides"].start + 8 * 65] ^= 1
        self.assertEqual(first_difference(bytes(other), memory), "strides, place 65")
        other = bytearray(memory)
        other[PLACES["blocks"].stop] ^= 1
        self.assertIn("between two arrays", first_difference(bytes(other), memory))


class Draws(unittest.TestCase):
    def test_layouts_fit_the_call(self):
        rng = random.Random(9)
        for _ in range(500):
            told = large(rng, allowed(rng))
            self.assertTrue(all(len(operand.strides) == len(told.extents) for operand in told.operands))
            self.assertTrue(all(-(2**63) <= stride < 2**63 for operand in told.operands for stride in operand.strides))


if __name__ == "__main__":
    unittest.main()
