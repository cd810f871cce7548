"""Tests of explain: its numbers are those of the papers' rules and of the library, on the examples and on seeded layouts; its words on refusals.

    python3 -B tests/python/test_explain.py
"""

import random
import re
import subprocess
import sys
import unittest
from collections import Counter

from seeded import LAYOUTS, MACHINES, ROOT, layout

import gougelily as g
from gougelily.explain import explain, explain_layout
from gougelily.parts import parts_of

sys.path.insert(0, str(ROOT / "tools" / "draw"))

import planning  # noqa: E402
import reading  # noqa: E402

TITLES = ("Loop order: by", "Blocks: full", "no cut.", "No cut.", "Cutting", "halved", "1 off", "kept whole", "become 1", "the rest stays whole",
          "Tiles are declined", "Tiles are not declined", "L1 fit: not due", "fitted", "the blocks stay", "joined", "gone")


def run(*words, text=b""):
    ran = subprocess.run([sys.executable, "-B", "-m", "gougelily", *words], input=text, capture_output=True, cwd=ROOT / "python", check=False)
    return ran.returncode, ran.stdout.decode(), ran.stderr.decode()


class Numbers(unittest.TestCase):
    def test_parts_are_those_of_the_rules(self):
        """Ranks, weights, order and fused extents, against the planner of tools/draw."""
        rng = random.Random(4)
        for _ in range(400):
            told = layout(rng)
            drawn = reading.Layout(told.purpose, told.chosen, list(told.extents), list(told.sizes), [list(row) for row in told.strides])
            parts = parts_of(told)
            self.assertEqual(parts.ranks, [planning.ranks(row) for row in told.strides])
            self.assertEqual(parts.weights, planning.weights(drawn))
            self.assertEqual(parts.order, planning.loop_order(drawn))
            self.assertEqual(parts.fused, [axis.extent for axis in planning.fused_axes(drawn)])

    def test_the_steps_lead_to_the_plan(self):
        """explain_layout raises if its blocks are not the library's. Every kind of line is met."""
        rng, met = random.Random(5), Counter()
        for _ in range(700):
            told = explain_layout(layout(rng), rng.choice(MACHINES))
            met.update(title for title in TITLES if title in told)
        for path in sorted(LAYOUTS.glob("*.txt")):
            told, listed = explain(path.read_bytes()), path.with_suffix(".out").read_text().splitlines()[-1]
            met.update(title for title in TITLES if title in told)
            if listed.startswith("Z,"):
                blocks, cells = map(int, listed[2:].split(","))
                self.assertIn(f"  blocks of a walk: {blocks:,}, cells: {cells:,}\n", told)
        self.assertEqual([title for title in TITLES if not met[title]], [])

    def test_long_axes(self):
        """Steps beyond counting are worked out in a jump."""
        far = g.Layout((20_000, 3), (1, 1), ((1, 20_000), (3, 1)))
        self.assertIn("1 off, 4,560 times", explain_layout(far))


class Words(unittest.TestCase):
    def test_refused_texts(self):
        for path in sorted(LAYOUTS.glob("*.out")):
            answer = path.read_text()
            if answer.startswith("R,") and answer not in ("R,13\n", "R,14\n"):
                told = explain(path.with_suffix(".txt").read_bytes())
                with self.subTest(path.stem):
                    self.assertTrue(told.startswith(f"Refused with {int(answer[2:])}: "))
                    self.assertRegex(told.splitlines()[1], r"^  line [0-9]+: ")

    def test_the_tour(self):
        """docs/TOUR.md shows parts of an explanation."""
        shown = (ROOT / "docs" / "TOUR.md").read_text().split("Of this layout it says", 1)[1].split("After the first halving", 1)[0]
        told = explain((LAYOUTS / "cut.txt").read_bytes()).splitlines()
        lines = [line[4:] for line in shown.splitlines() if line.startswith("    ")]
        self.assertGreater(len(lines), 10)
        self.assertEqual([line for line in lines if line not in told], [])

    def test_the_plan_worked_by_hand(self):
        """The parts that docs/WORKED.md shows are the layout and, put together, its whole explanation; and every equation on the page holds."""
        page, text = (ROOT / "docs" / "WORKED.md").read_text(), (LAYOUTS / "by_hand.txt").read_text()
        given, *parts = re.findall(r"^```text\n(.*?)^```$", page, re.M | re.S)
        self.assertEqual(given, text)
        self.assertEqual("\n".join(parts), explain(text))
        for signs in ("×*", "−-", "⌊(", "⌋)"):
            page = page.replace(*signs)
        words = re.sub(r"^```.*?^```$", "", page, flags=re.M | re.S)
        equations = re.findall(r"([(\d][\d,()^]*(?: [*/+-] [(\d][\d,()^]*)*) = (\d+(?:,\d{3})*)", words)
        self.assertEqual(len(equations), words.count(" = "))
        for sides in equations:
            left, right = (side.replace(",", "").replace("^", "**").replace("/", "//") for side in sides)
            self.assertEqual(eval(left), int(right), sides)

    def test_the_terminal(self):
        worked = (LAYOUTS / "worked.txt").read_bytes()
        self.assertEqual(run("explain", text=worked), (0, explain(worked), ""))
        self.assertEqual(run("explain", str(LAYOUTS / "worked.txt"))[1], explain(worked))
        self.assertIn("A,0,36,9,1,128", run("explain", "--machine", "64,49152,4096,9", str(LAYOUTS / "fit_copy.txt"))[1])
        self.assertEqual(run("explain", "--machine", "64", text=worked)[0], 2)
        self.assertEqual(run("walklist", text=worked)[1], (LAYOUTS / "worked.out").read_text())
        self.assertEqual(run("walklist", text=b"x")[1], "R,12\n")
        self.assertEqual(run("refusal", "6")[1].splitlines()[0], "6: an operand's reach is above 2^63 - 1")
        self.assertEqual(run("refusal", "-6"), run("refusal", "6"))
        self.assertEqual(len(run("refusal")[1].splitlines()), len(g.REFUSALS))
        self.assertEqual(run("machine")[1], ",".join(map(str, g.machine())) + "\n")
        self.assertEqual(run("explain", "/nowhere")[0], 1)


if __name__ == "__main__":
    unittest.main()
