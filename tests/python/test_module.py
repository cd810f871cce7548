"""Tests of the Python module on the library, without NumPy: the example texts, refusals, walks, index finding, the machine record.

    python3 -B tests/python/test_module.py
"""

import doctest
import importlib
import os
import pkgutil
import random
import subprocess
import sys
import tempfile
import unittest
from array import array
from pathlib import Path

from seeded import LAYOUTS, MACHINES, ROOT, layout

import gougelily as g
from gougelily.texts import NotInForm

ALPHABET = b"LEOPF,-0123456789\n\r x"


def refused(case, number, call, *arguments):
    with case.assertRaises(g.Refused) as raised:
        call(*arguments)
    case.assertEqual(raised.exception.number, number)


class Documented(unittest.TestCase):
    def test_examples_in_docstrings(self):
        attempted = 0
        for found in pkgutil.walk_packages(g.__path__, "gougelily."):
            if not found.name.endswith("__main__"):
                outcome = doctest.testmod(importlib.import_module(found.name))
                self.assertEqual(outcome.failed, 0, found.name)
                attempted += outcome.attempted
        self.assertEqual(doctest.testmod(g).failed, 0)
        self.assertGreater(attempted, 20)


class Texts(unittest.TestCase):
    def test_the_examples(self):
        for path in sorted(LAYOUTS.glob("*.txt")):
            text, due = path.read_bytes(), path.with_suffix(".out").read_text()
            with self.subTest(path.stem):
                if due.startswith("R,"):
                    refused(self, int(due[2:]), g.walklist, text)
                    continue
                self.assertEqual(g.walklist(text), due)
                told = g.read_layout(text)
                self.assertEqual(g.write_layout(told).encode(), text)
                plan = g.plan_layout(told)
                self.assertEqual(str(plan).splitlines(), [line for line in due.splitlines() if line[0] in "KA"])
                blocks = [f"B,{n},{length},{','.join(map(str, offsets))}" for n, (length, offsets) in enumerate(g.blocks(plan, room=7))]
                self.assertEqual(blocks, [line for line in due.splitlines() if line[0] == "B"])

    def test_what_is_not_in_the_form(self):
        """The module's reader and the library's refuse the same texts."""
        rng, outside = random.Random(1), 0
        texts = [path.read_bytes() for path in sorted(LAYOUTS.glob("*.txt")) if path.stat().st_size < 200]
        for _ in range(6_000):
            text = bytearray(rng.choice(texts))
            for _ in range(rng.randint(1, 2)):
                at = rng.randrange(len(text) + 1)
                text[at : at + rng.randint(0, 1)] = bytes(rng.choices(ALPHABET, k=rng.randint(0, 2)))
            try:
                g.read_layout(bytes(text))
                form = True
            except NotInForm as reason:
                self.assertGreater(len(reason.reason), 5)
                form, outside = False, outside + 1
            try:
                g.walklist(bytes(text))
                told = 0
            except g.Refused as refusal:
                told = refusal.number
            self.assertEqual(form, told != 12, bytes(text))
        self.assertGreater(outside, 1_000)

    def test_the_line_and_the_reason(self):
        for text, line, word in (
            ("", 1, "LF"),
            ("L,P,1,1,-\nE,4\nO,8,1", 3, "LF"),
            ("L,Q,1,1,-\nE,4\nO,8,1\n", 1, "'Q'"),
            ("L,P,2,1,-\nE,4\nO,8,1\n", 2, "2 are due"),
            ("L,P,1,2,-\nE,4\nO,8,1\n", 4, "ends"),
            ("L,P,1,1,-\nE,4\nO,8,1\nO,8,1\n", 4, "too many"),
            ("L,P,1,1,-\nE,4\nO,8,-0\n", 3, "'-0'"),
            ("L,P,1,1,-\nE,18446744073709551616\nO,8,1\n", 2, "outside"),
            ("x" * 16_385, 0, "16,384"),
        ):
            with self.assertRaises(NotInForm) as raised:
                g.read_layout(text)
            self.assertEqual(raised.exception.line, line)
            self.assertIn(word, str(raised.exception))


class Refusals(unittest.TestCase):
    def test_each_row(self):
        one = g.Layout((5,), (8,), ((1,),))
        plan = g.plan_layout(one)
        for number, call, *arguments in (
            (1, g.plan_layout, g.Layout((1,) * 65, (8,), ((1,) * 65,))),
            (1, g.Walk, g.Plan((1,) * 65, (1,) * 65, ((1,) * 65,))),
            (2, g.plan_layout, g.Layout((5,), (), ())),
            (2, g.Walk, g.Plan((5,), (5,), ((1,),) * 9)),
            (3, g.repeat_mark, (5,), (1, 2)),
            (5, g.repeat_mark, (2**32, 2**32), (0, 0)),
            (6, g.repeat_mark, (3,), (2**62,)),
            (4, g.plan_layout, g.Layout((5,), (8,), ((1,),), "F", 1)),
            (5, g.plan_layout, g.Layout((2**32, 2**32), (8,), ((0, 0),))),
            (6, g.plan_layout, g.Layout((3,), (8,), ((2**62,),))),
            (8, g.Walk, plan, (0, 0)),
            (9, g.blocks, plan, (2**63 - 1,)),
            (11, g.original_index, one, (5,)),
            (11, g.plan_index, one, (0, 0)),
            (12, g.walklist, "x"),
            (14, g.walklist, "L,P,1,1,-\nE,4\nO,8,1\n", 10),
            (6, g.window, g.Layout((3,), (8,), ((2**62,),)), (9,), (1,), (1,)),
            (15, g.window, one, (0, 0), (1,), (1,)),
            (15, g.window, one, (0,), (1,), (0,)),
            (15, g.window, one, (4,), (3,), (-3,)),
            (1, g.summary_of, (1,) * 65, (0,) * 65, [1.0]),
            (3, g.summary_of, (2, 2), (1,), [1.0]),
            (24, g.summary_of, (0,), (1,), [], 0, g.Machine(48, 32768, 4096, 6)),
            (5, g.summary_of, (2**32, 2**32), (0, 0), [1.0]),
            (6, g.summary_of, (3,), (2**62,), [1.0]),
            (9, g.summary_of, (2,), (1,), [1.0], 2**63 - 1),
            (22, g.summary_of, (2,), (1,), [1.0]),
            (22, g.summary_of, (), (), []),
            (1, g.judge, (1,) * 65, ""),
            (5, g.judge, (2**32, 2**32), ""),
            (13, g.judge, (65_537,), "x"),
            (23, g.judge, (), ""),
            (23, g.judge, (5,), "V,0,0,0\n"),
            (23, g.judge, (5,), "V,0,1,0"),
            (12, g.from_numpy, "N,8,1\nS,3"),
            (19, g.from_numpy, "N,8,1\nS,3\nT,12\n"),
            (1, g.from_numpy, f"N,8,65\nS{',1' * 65}\n"),
            (19, g.to_numpy, 2, (1,) * 65, (2**62,)),
            (1, g.to_numpy, 2, (1,) * 65, (1,)),
            (3, g.to_numpy, 2, (1,), ()),
            (24, g.plan_layout, one, g.Machine(48, 32_768, 4_080, 6)),
            (24, g.Session, one, g.Machine(48, 32_768, 4_080, 6)),
            (6, g.Session, g.Layout((3,), (8,), ((2**62,),))),
            (24, g.copy, bytearray(2), bytes(2), g.Machine(48, 32_768, 4_080, 6)),
            (16, g.copy, memoryview(bytearray(8)).cast("Q"), bytes(1)),
            (16, g.copy_layout, g.Layout((2,), (17, 17), ((1,), (1,))), (0, 0), bytearray(34), bytes(34)),
            (8, g.copy_layout, g.Layout((2,), (1, 1), ((1,), (1,))), (0,), bytearray(2), bytes(2)),
            (9, g.copy_layout, g.Layout((2,), (1, 1), ((1,), (1,))), (0, 2**63 - 1), bytearray(2), bytes(2)),
            (17, g.copy_layout, g.Layout((2,), (1, 1), ((1,), (1,))), (0, 0), bytearray(1), bytes(2)),
            (18, g.copy_layout, g.Layout((2,), (1, 1), ((0,), (1,))), (0, 0), bytearray(2), bytes(2)),
        ):
            with self.subTest(number=number, call=call.__name__):
                refused(self, number, call, *arguments)

    def test_a_state_that_no_walk_comes_to(self):
        walk = g.Walk(g.Plan((5,), (5,), ((1,),)))
        walk.state.counters[0] = 5
        refused(self, 10, walk.step)

    def test_numbers_outside_64_bits_are_not_cut(self):
        for call, *arguments in (
            (g.plan_layout, g.Layout((2**64 + 2,), (8,), ((1,),))),
            (g.plan_layout, g.Layout((2,), (8,), ((2**63,),))),
            (g.plan_layout, g.Layout((2,), (8,), ((1,),), "P", 2**64)),
            (g.plan_layout, g.Layout((2,), (8,), ((1,),)), g.Machine(2**64 + 64, 32_768, 4_096, 6)),
            (g.Walk, g.Plan((2,), (2,), ((2**64 + 1,),))),
            (g.Layout((-1,), (8,), ((1,),)).check,),
        ):
            self.assertRaises(OverflowError, call, *arguments)

    def test_arguments_that_are_no_layout(self):
        for arguments in (((2,), (8,), ((1, 2),)), ((2,), (8, 8), ((1,),)), ((2,), (8,), ((1,),), "Q"), ((2,), (8,), ((1,),), "F")):
            self.assertRaises(ValueError, g.Layout, *arguments)
        rows = memoryview(bytes(48))
        self.assertRaises(ValueError, g.plan, rows, rows[1:])
        self.assertRaises(ValueError, g.plan)


class Walks(unittest.TestCase):
    def test_seeded_walks(self):
        """Every index once, at its offsets; single steps and many are the same blocks; index finding there and back."""
        rng = random.Random(2)
        for _ in range(120):
            told, machine = layout(rng, 600), rng.choice(MACHINES)
            starts = [rng.randint(-9, 9) for _ in told.sizes]
            plan = g.plan_layout(told, machine)
            single, walk, seen = [], g.Walk(plan, starts), set()
            while (block := walk.step()) is not None:
                single.append((block.length, block.offsets))
                self.assertEqual(block.strides, plan.steps)
                for k in range(block.length):
                    counters = (block.counters[0] + k, *block.counters[1:])
                    index = g.original_index(told, counters)
                    self.assertEqual(g.plan_index(told, index), counters)
                    seen.add(index)
                    for start, row, offset, step in zip(starts, told.strides, block.offsets, block.strides):
                        self.assertEqual(start + sum(i * s for i, s in zip(index, row)), offset + k * step)
            self.assertIsNone(walk.step())
            self.assertEqual(single, list(g.blocks(plan, starts, room=rng.choice((1, 3, 1_000)))))
            total = sum(length for length, _ in single)
            self.assertEqual(len(seen), total)

    def test_rank_0_and_no_cells(self):
        point = g.plan_layout(g.Layout((), (8, 8), ((), ())))
        self.assertEqual(list(g.blocks(point, (4, 5))), [(1, (4, 5))])
        self.assertEqual(list(g.blocks(g.plan_layout(g.Layout((3, 0), (8,), ((1, 3),))))), [])

    def test_arrays_without_numpy(self):
        rows = memoryview(bytearray(range(24))).cast("B", (2, 3, 4))
        self.assertEqual(g.Layout.of(rows), g.Layout((4, 3, 2), (1,), ((1, 4, 12),)))
        self.assertEqual(str(g.plan(rows)), "K,1\nA,0,24,24,1")


class Windows(unittest.TestCase):
    def test_slices_of_a_memoryview(self):
        held = memoryview(bytes(range(40)))
        told = g.Layout.of(held)
        for cut in (slice(3, 30, 4), slice(None, None, -3), slice(39, 2, -7), slice(5, 6), slice(9, 9)):
            picked = range(*cut.indices(40))
            made = g.window(told, (picked.start,), (len(picked),), (picked.step,))
            plan = g.plan_layout(made.layout)
            read = [offset + k * plan.steps[0] for length, (offset,) in g.blocks(plan, made.starts()) for k in range(length)]
            self.assertEqual(read, list(picked))
        self.assertRaises(ValueError, made.starts, (1, 2))

    def test_a_window_of_a_window(self):
        told = g.Layout((12, 9), (8, 4), ((1, 12), (9, -1)), "F", 1)
        outer = g.window(told, (10, 1), (5, 4), (-2, 2))
        inner = g.window(outer.layout, (4, 0), (2, 2), (-3, 3))
        both = g.window(told, (2, 1), (2, 2), (6, 6))
        self.assertEqual(inner.layout, both.layout)
        self.assertEqual(inner.starts(outer.shifts), both.shifts)


class Descriptions(unittest.TestCase):
    def test_both_ways(self):
        for text, due in (
            ("N,8,2\nS,3,4\nT,32,8\n", (8, (4, 3), (1, 4))),
            ("N,4,3\nS,2,0,3\nT,0,-12,4\n", (4, (3, 0, 2), (1, -3, 0))),
            ("N,16,0\nS\nT\n", (16, (), ())),
            (f"N,{2**63},64\nS{f',{2**64 - 1}' * 64}\nT{f',-{2**63}' * 64}\n", (2**63, (2**64 - 1,) * 64, (-1,) * 64)),
        ):
            self.assertEqual(g.from_numpy(text), due)
            self.assertEqual(g.to_numpy(*due), text)
        self.assertEqual(g.from_numpy(b"N,4,3\nS,2,0,3\n"), (4, (3, 0, 2), (1, 3, 0)))
        for given in ((2**64, (), ()), (-1, (), ()), (1, (-1,), (1,)), (1, (1,), (2**63,))):
            with self.assertRaises(OverflowError):
                g.to_numpy(*given)

    def test_what_an_array_tells(self):
        class Array:
            def __init__(self, **told):
                self.__array_interface__ = told

        self.assertEqual(g.describe(Array(shape=(3, 4), typestr="<f8", strides=(-32, 8))), "N,8,2\nS,3,4\nT,-32,8\n")
        self.assertEqual(g.describe(Array(shape=(3,), typestr="<U5")), "N,20,1\nS,3\n")
        self.assertEqual(g.describe(Array(shape=(), typestr="|V12", strides=())), "N,12,0\nS\nT\n")


class Judging(unittest.TestCase):
    def test_verdicts(self):
        for text, verdict, marks in (
            ("V,0,3,0,1\nV,0,3,0,0\n", "accepted", [1, 1, 1, 1, 1, 1]),
            ("V,1,2,1,0\n", "short", [0, 1, 0, 0, 1, 0]),
            ("V,0,3,0,0\nV,1,2,1,0\n", "double", [1, 1, 1, 0, 1, 0]),
            ("V,0,3,0,0\nV,0,2,2,1\n", "outside", [0] * 6),
            (b"", "short", [0] * 6),
        ):
            told = g.judge((3, 2), text)
            self.assertEqual((told.verdict, list(told.marks)), (verdict, marks))
        self.assertEqual(g.judge((3, 2), "V,1,2,0,0\nV,1,2,2,0\n").first_missing((3, 2)), (1, 0))
        self.assertIsNone(g.judge((3,), "V,0,3,0\n").first_missing((3,)))
        self.assertEqual(g.judge((3, 0), ""), ("accepted", b""))

    def test_a_walk_of_our_own(self):
        told = g.Layout((30, 20), (8, 8), ((1, 30), (20, 1)))
        walk, visits = g.Walk(g.plan_layout(told)), []
        while block := walk.step():
            cells = ((block.counters[0] + k, *block.counters[1:]) for k in range(block.length))
            visits += [g.Visit(0, 1, g.original_index(told, cell)) for cell in cells]
        self.assertEqual(g.judge((30, 20), g.write_visits(visits)).verdict, "accepted")
        self.assertEqual(g.judge((30, 20), g.write_visits(visits + visits[:1])).verdict, "double")
        self.assertEqual(g.judge((30, 20), g.write_visits(visits[1:])).verdict, "short")


class Copies(unittest.TestCase):
    def test_views(self):
        room = bytearray(b"-" * 8)
        g.copy(memoryview(room)[7:1:-2], b"abc")
        self.assertEqual(room, b"---c-b-a")
        g.copy(memoryview(bytearray()), b"")

    def test_what_is_turned_down(self):
        held = bytearray(b"abcdef")
        for wrong, destination, source in (
            (ValueError, memoryview(held)[:3], memoryview(held)[2:5]),
            (ValueError, bytearray(2), b"abc"),
            (BufferError, b"abc", b"abc"),
            (TypeError, [1, 2], b"ab"),
        ):
            with self.subTest(wrong=wrong), self.assertRaises(wrong):
                g.copy(destination, source)
        self.assertEqual(held, b"abcdef")

    def test_layouts(self):
        turned, room = g.Layout((4, 3), (2, 2), ((3, 1), (1, 4))), bytearray(24)
        g.copy_layout(turned, (0, 0), room, b"a1b1c1d1a2b2c2d2a3b3c3d3")
        self.assertEqual(room, b"a1a2a3b1b2b3c1c2c3d1d2d3")
        with self.assertRaises(g.Refused):
            g.copy_layout(turned, (0, 1), room, bytes(24))
        self.assertEqual(room, b"a1a2a3b1b2b3c1c2c3d1d2d3")


class Summaries(unittest.TestCase):
    def test_views_of_doubles(self):
        held = array("d", [0.5, -1.0, 2.0, 4.0, float("nan"), 8.0])
        whole = memoryview(held)
        self.assertEqual(g.summary(whole[:4]), g.Summary(5.5, -1.0, 4.0, 4, 0, True))
        self.assertEqual(g.summary(whole[3::-2]), g.Summary(3.0, -1.0, 4.0, 2, 0, True))
        self.assertEqual(g.summary(whole[:0]), g.Summary(0.0, 0.0, 0.0, 0, 0, False))
        self.assertEqual(g.summary(whole[4:5])[1:], (0.0, 0.0, 1, 1, False))
        self.assertEqual(g.summary(whole[5:].cast("B").cast("d", ())).sum, 8.0)
        self.assertEqual(g.summary(whole.toreadonly()[:2]).sum, -0.5)
        # released: the array may grow again
        whole.release()
        held.append(1.0)

    def test_what_is_no_double(self):
        for cells in (array("f", [1.0]), array("q", [1]), b"12345678"):
            with self.assertRaises(ValueError):
                g.summary(memoryview(cells))
        with self.assertRaises(ValueError):
            g.summary(memoryview(bytearray(17))[1:].cast("d"))

    def test_each_visit_counts(self):
        self.assertEqual(g.summary_of((3, 4), (1, 0), [1.0, 2.0, 3.0]), g.Summary(24.0, 1.0, 3.0, 12, 0, True))
        self.assertEqual(g.summary_of((3,), (-1,), [9.0, 1.0, 2.0, 3.0], 3), g.Summary(6.0, 1.0, 3.0, 3, 0, True))


class Readers(unittest.TestCase):
    def test_two_laboratories(self):
        layout = g.Layout((4, 3), (8, 8), ((1, 4), (3, 1)), "P", 0)
        plan = g.Plan((4, 3), (2, 2), ((1, 4), (3, 1)))
        here, there = (list(g.visits(layout, plan, starts)) for starts in ((0, 0), (5000, 900)))
        self.assertEqual([views.student for views in here], [views.student for views in there])
        self.assertEqual(here[2].student, (2, 2, (2, 0)))
        self.assertEqual(there[2].engineer.offsets, (5002, 906))
        walk = g.Walk(plan, (5000, 900))
        self.assertEqual([views.engineer for views in there], [walk.step() for _ in there])
        self.assertEqual([views.student.number for views in here], list(range(6)))

    def test_numbers_are_those_of_b_lines(self):
        told = g.read_layout("L,P,2,2,0\nE,40,40\nO,8,1,40\nO,8,40,1\n")
        lines = [line.split(",")[1:3] for line in g.walklist(g.write_layout(told)).splitlines() if line.startswith("B")]
        seen = [[str(student.number), str(student.length)] for _, student in g.visits(told, g.plan_layout(told))]
        self.assertEqual(seen, lines)

    def test_fused_and_none(self):
        layout = g.Layout((2, 3, 4), (8,), ((1, 2, 6),))
        self.assertEqual([views.student for views in g.visits(layout, g.Plan((24,), (10,), ((1,),)))], [(0, 10, (0, 0, 0)), (1, 10, (0, 2, 1)), (2, 4, (0, 1, 3))])
        self.assertEqual(list(g.visits(g.Layout((), (8,), ((),)), g.Plan((), (), ((),)))), [(((), 1, (0,), (0,)), (0, 1, ()))])
        self.assertEqual(list(g.visits(g.Layout((0, 2), (8,), ((1, 1),)), g.Plan((0, 2), (1, 1), ((1, 1),)))), [])

    def test_another_layouts_plan(self):
        walk = g.visits(g.Layout((3, 2), (8,), ((1, 10),)), g.Plan((3, 3), (3, 3), ((1, 10),)))
        self.assertEqual([next(walk).student.first for _ in range(2)], [(0, 0), (0, 1)])
        with self.assertRaises(g.Refused) as told:
            next(walk)
        self.assertEqual(told.exception.number, 11)


class Sessions(unittest.TestCase):
    def test_seeded_calls(self):
        """After each call the session is one begun with its present layout, whose plan is that of planning; the ranks of those that stay are kept."""
        rng = random.Random(8)
        for _ in range(150):
            machine = rng.choice(MACHINES)
            session = g.Session(layout(rng), machine)
            for _ in range(5):
                before, told = session.ranks, session.layout
                if told.operands == 1 or told.operands < 8 and rng.random() < 0.5:
                    row = [rng.choice((0, 1, -1, 7, 512)) for _ in told.extents]
                    session.join(8, row)
                    self.assertEqual(session.layout, g.Layout(told.extents, (*told.sizes, 8), (*told.strides, row), told.purpose, told.chosen))
                    self.assertEqual(session.ranks[:-1], before)
                else:
                    operand = rng.randrange(told.operands)
                    session.leave(operand)
                    self.assertEqual(session.layout.strides, told.strides[:operand] + told.strides[operand + 1 :])
                    self.assertEqual(session.ranks, before[:operand] + before[operand + 1 :])
                    if told.chosen not in (None, operand):
                        self.assertEqual(session.layout.chosen, told.chosen - (operand < told.chosen))
                self.assertEqual(bytes(session.memory), bytes(g.Session(session.layout, machine).memory))
                self.assertEqual((session.plan, session.machine), (g.plan_layout(session.layout, machine), machine))

    def test_refusals(self):
        session = g.Session(g.Layout((3,), (8,), ((1,),)))
        refused(self, 21, session.leave, 0)
        refused(self, 3, session.join, 8, ())
        refused(self, 6, session.join, 8, (2**62,))
        for _ in range(7):
            session.join(8, (1,))
        refused(self, 20, session.join, 8, ())
        refused(self, 21, session.leave, 8)
        self.assertRaises(OverflowError, session.leave, -1)
        self.assertRaises(OverflowError, session.join, 2**64, (1,))
        session.memory.weights[0] += 1
        refused(self, 10, session.join, 8, ())
        refused(self, 10, session.leave, 8)

    def test_arrays(self):
        rows, bits = memoryview(bytes(48)).cast("Q", (2, 3)), memoryview(bytes(6)).cast("B", (2, 3))
        session = g.Session.of(rows, bits, purpose="F", chosen=1)
        session.join_array(rows)
        self.assertEqual(session.layout, g.Layout.of(rows, bits, rows, purpose="F", chosen=1))
        self.assertRaises(ValueError, session.join_array, memoryview(bytes(6)).cast("B", (3, 2)))

    def test_no_cost(self):
        self.assertEqual(g.Session(g.Layout((2, 3), (8, 8), ((1, 0), (3, 0)))).costs, (2, None))


class Machines(unittest.TestCase):
    def record(self, **files):
        with tempfile.TemporaryDirectory() as name:
            for index, kind in (("index0", "Instruction"), ("index1", "Data")):
                folder = Path(name) / index
                folder.mkdir()
                held = {"level": "1", "type": kind, "size": "48K", "coherency_line_size": "64", "ways_of_associativity": "12", **files}
                for file, text in held.items():
                    (folder / file).write_text(text + "\n")
            return g.machine(Path(name))

    def test_the_record_of_a_processor(self):
        self.assertEqual(self.record(), g.Machine(64, 49_152, 4_096, 9))
        self.assertEqual(self.record(size="32K", ways_of_associativity="8"), g.FIXED)
        self.assertEqual(self.record(size="64K", ways_of_associativity="4"), g.Machine(64, 65_536, 16_384, 3))

    def test_what_falls_back(self):
        for files in ({"ways_of_associativity": "0"}, {"size": "much"}, {"coherency_line_size": "48"}, {"size": "2M"}, {"level": "2"}):
            self.assertEqual(self.record(**files), g.FIXED)
        self.assertEqual(g.machine(Path("/nowhere")), g.FIXED)
        self.assertTrue(g.machine().allowed())

    def test_no_library(self):
        environment = {**os.environ, "GOUGELILY_LIBRARY": "/nowhere.so", "PYTHONPATH": str(ROOT / "python")}
        command = [sys.executable, "-B", "-c", "import gougelily; gougelily.version()"]
        self.assertIn("make lib", subprocess.run(command, env=environment, capture_output=True, text=True, check=False).stderr)


if __name__ == "__main__":
    unittest.main()
