"""Tests of the planner in C: its answers are those of the planner in Python, on cases that either draws; and jumps are single steps.

    python3 -B tests/machines/test_planner.py
"""

import random
import subprocess
import unittest
from pathlib import Path

import cases
from library import PURPOSES
from machine import Machine
from neighbours import Layout, Operand
from reference import plan

HERE = Path(__file__).resolve().parent
COUNT = 4_000
SEED = 77


def made(program):
    """A program of the Makefile, built."""
    subprocess.run(["make", "-s", "-C", str(HERE), program], check=True)
    return str(HERE / program)


def lines_of(*command, given=None):
    return subprocess.run(command, input=given, stdout=subprocess.PIPE, check=True, text=True).stdout.splitlines()


def answers(program, told):
    """The planner's answers to cases, each a line of numbers."""
    return lines_of(program, "answer", given="".join(line + "\n" for line in told))


def line_of(layout, machine):
    """A case as a line of numbers."""
    strides = [stride for operand in layout.operands for stride in operand.strides]
    parts = layout.extents, [operand.size for operand in layout.operands], strides
    head = PURPOSES[layout.purpose, layout.chosen is not None], layout.chosen or 0, *machine.numbers()
    return " ".join(map(str, [*head, *(number for part in parts for number in (len(part), *part))]))


def case_of(line):
    """A line of numbers as a case. Strides that are too many are the last operand's."""
    purpose, chosen, *numbers = map(int, line.split())
    machine, numbers, parts = Machine(*numbers[:4]), numbers[4:], []
    while numbers:
        parts.append(numbers[1 : 1 + numbers[0]])
        numbers = numbers[1 + numbers[0] :]
    extents, sizes, strides = parts
    rank, last = len(extents), len(sizes) - 1
    operands = (Operand(size, tuple(strides[k * rank : None if k == last else (k + 1) * rank])) for k, size in enumerate(sizes))
    return Layout("P" if purpose < 2 else "F", chosen if purpose else None, tuple(extents), tuple(operands)), machine


def answer_of(layout, machine):
    """The answer of the planner in Python as a line of numbers."""
    axes = plan(layout, machine, set())
    if isinstance(axes, int):
        return str(axes)
    operands = len(layout.operands)
    strides = (axis.strides[k] for k in range(operands) for axis in axes)
    return " ".join(map(str, [0, len(axes), operands, *(axis.extent for axis in axes), *(axis.block for axis in axes), *strides]))


class Planners(unittest.TestCase):
    def compare(self, told, drawn):
        got = answers(self.program, told)
        self.assertEqual(len(got), len(told))
        for line, answer, case in zip(told, got, drawn):
            self.assertEqual(answer, answer_of(*case), line)

    @classmethod
    def setUpClass(cls):
        cls.program = made("checked")

    def test_on_cases_drawn_in_c(self):
        told = lines_of(self.program, "draw", str(COUNT), str(SEED))
        self.compare(told, map(case_of, told))

    def test_on_cases_drawn_in_python(self):
        drawn = [case for _, subject in cases.subjects(random.Random(SEED), COUNT) for case in subject]
        self.compare([line_of(*case) for case in drawn], drawn)

    def test_lines(self):
        for line in lines_of(self.program, "draw", "300", str(SEED)):
            layout, machine = case_of(line)
            purpose, rest = line.split(" ", 1)
            if layout.operands and purpose in ("1", "2"):
                self.assertEqual(line_of(layout, machine), f"{purpose} {rest}")

    def test_a_line_not_in_the_form(self):
        self.assertEqual(subprocess.run([self.program, "answer"], input=b"1 0 64", check=False).returncode, 1)


class Steps(unittest.TestCase):
    def test_jumps_are_single_steps(self):
        told = lines_of(made("single"), "draw", str(3 * COUNT), str(SEED))
        self.assertEqual(answers(made("single"), told), answers(made("jumping"), told))


if __name__ == "__main__":
    unittest.main()
