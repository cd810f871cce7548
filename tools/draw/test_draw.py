"""Tests of draw, sets, growth and layers. They read the layouts and recorded listings of examples/layouts, so that no other program is run.

    python3 -B tools/draw/test_draw.py
"""

import subprocess
import sys
import tempfile
import unittest
import xml.etree.ElementTree as ElementTree
from itertools import product
from math import prod
from pathlib import Path

HERE = Path(__file__).resolve().parent
sys.path.insert(0, str(HERE))

from grid import edges, rectangles, straightened  # noqa: E402
from live import LIVE, counted, lines_by_set, load  # noqa: E402
from planning import PlanAxis, fuse, original_index, plan_axes, ranks, weights  # noqa: E402
from reading import ListedAxis, Malformed, read_layout, read_listing  # noqa: E402
from walking import MOST_CELLS, cells, walk_blocks  # noqa: E402

LAYOUTS = HERE.parents[1] / "examples" / "layouts"
WORKED = b"L,P,2,2,-\nE,2,3\nO,8,1,2\nO,8,3,1\n"
LISTED = b"K,2\nA,0,2,2,1,3\nA,1,3,3,2,1\nB,0,2,0,0\nB,1,2,2,1\nB,2,2,4,2\nZ,3,6\n"


def layout_of(*lines):
    return read_layout("".join(line + "\n" for line in lines).encode())


def served():
    """The example layouts that are answered, with their listings."""
    for path in sorted(LAYOUTS.glob("*.txt")):
        listing = path.with_suffix(".out").read_bytes()
        if not listing.startswith(b"R"):
            layout = read_layout(path.read_bytes(), path.name)
            yield path.stem, layout, read_listing(listing, len(layout.sizes), path.stem)


def run_draw(*options, text=None, program="draw"):
    ran = subprocess.run([sys.executable, "-B", str(HERE / program), *options], input=text, capture_output=True, check=False)
    return ran.returncode, ran.stdout.decode(), ran.stderr.decode()


class Reading(unittest.TestCase):
    def test_the_worked_example(self):
        layout = read_layout(WORKED)
        self.assertEqual((layout.purpose, layout.chosen, layout.extents, layout.sizes), ("P", None, [2, 3], [8, 8]))
        self.assertEqual(layout.strides, [[1, 2], [3, 1]])
        listing = read_listing(LISTED, 2)
        self.assertEqual([block.offsets for block in listing.blocks], [[0, 0], [2, 1], [4, 2]])

    def test_texts_that_are_not_in_the_form(self):
        for text in (b"", b"L,P,2,2,-", b"\n", WORKED[:-1], WORKED + b"\n", WORKED.replace(b"\n", b"\r\n"), WORKED.replace(b"2,3", b"02,3"),
                     WORKED.replace(b"3,1", b"-0,1"), WORKED.replace(b"E,2,3", b"E,2"), WORKED.replace(b"E,2,3", b"E, 2,3"),
                     WORKED.replace(b"P", b"F"), WORKED.replace(b"P", b"Q"), WORKED.replace(b"O,8,3,1\n", b"O\n"),
                     WORKED.replace(b"E,2,3", b"E,2,18446744073709551616"), WORKED.replace(b"3,1", b"3,9223372036854775808"),
                     WORKED.replace(b"3,1", b"3," + b"9" * 6000), WORKED.replace(b"E", "\u00c9".encode()), b"L" * 20000):
            with self.subTest(text=text[:40]):
                self.assertRaises(Malformed, read_layout, text)

    def test_the_limits_of_numbers(self):
        layout = layout_of("L,P,1,1,-", "E,18446744073709551615", "O,18446744073709551615,-9223372036854775808")
        self.assertEqual(layout.strides, [[-(2**63)]])

    def test_rank_0(self):
        self.assertEqual(layout_of("L,P,0,1,-", "E", "O,8").strides, [[]])

    def test_refused_texts_here_are_refused_there(self):
        for path in sorted(LAYOUTS.glob("*.out")):
            if path.read_bytes() == b"R,12\n":
                with self.subTest(path.stem):
                    self.assertRaises(Malformed, read_layout, path.with_suffix(".txt").read_bytes())

    def test_listings_that_are_wrong(self):
        for text in (b"R,5\n", b"R,99\n", b"K,2\n", LISTED[:-1], LISTED + b"Z,3,6\n", LISTED.replace(b"Z,3,6", b"Z,3,7"),
                     LISTED.replace(b"B,1", b"B,2"), LISTED.replace(b"K,2", b"K,3"), LISTED.replace(b"B,0,2,0,0", b"B,0,2,0"), b"\xff\n"):
            with self.subTest(text=text[:40]):
                self.assertRaises(Malformed, read_listing, text, 2)


class Planning(unittest.TestCase):
    def test_figures_of_document_01(self):
        self.assertEqual(ranks([0, 4, -2, 4]), [1, 2, 1, 2])
        self.assertEqual(weights(layout_of("L,P,2,2,-", "E,4,4", "O,8,1,4", "O,8,4,1")), [33, 12])
        for text, due in ((("L,P,3,1,-", "E,2,3,4", "O,8,1,2,6"), [(24, [1])]), (("L,P,2,1,-", "E,3,2", "O,8,-1,-3"), [(6, [-1])]),
                          (("L,P,2,1,-", "E,1,1", "O,8,5,7"), [(1, [5])]), (("L,F,2,1,0", "E,32,32", "O,8,32,1"), [(32, [32]), (32, [1])]),
                          (("L,F,2,1,0", "E,33,32", "O,8,32,1"), [(1056, [1])])):
            self.assertEqual([(axis.extent, axis.strides) for axis in plan_axes(layout_of(*text))], due)

    def test_equal_weights(self):
        for text, due in ((("L,P,4,1,-", "E,3,9,5,9", "O,8,2,2,1,-2"), [(5, [1]), (9, [2]), (9, [-2]), (3, [2])]),
                          (("L,F,2,3,2", "E,4,257", "O,8,1,4", "O,8,257,1", "O,8,0,0"), [(257, [4, 1, 0]), (4, [1, 257, 0])]),
                          (("L,F,2,3,2", "E,4,256", "O,8,1,4", "O,8,256,1", "O,8,0,0"), [(4, [1, 256, 0]), (256, [4, 1, 0])])):
            self.assertEqual([(axis.extent, axis.strides) for axis in plan_axes(layout_of(*text))], due)
        layout = layout_of("L,P,3,1,-", "E,2,1,600", "O,8,0,5,0")
        self.assertEqual(original_index(layout, plan_axes(layout), [700]), (1, 0, 100))

    def test_an_extent_beyond_isize_joins_only_beside_zeros(self):
        wide = [PlanAxis(2**63, [1], [0]), PlanAxis(1, [-(2**63)], [1])]
        self.assertEqual([axis.extent for axis in fuse(wide)], [2**63, 1])
        still = [PlanAxis(2**63, [0], [0]), PlanAxis(1, [0], [1])]
        self.assertEqual(fuse(still)[0].joined, [0, 1])

    def test_a_product_beyond_64_bits_leaves_both(self):
        self.assertEqual([axis.extent for axis in fuse([PlanAxis(2**32, [0], [0]), PlanAxis(2**32, [0], [1])])], [2**32, 2**32])

    def test_the_index_of_a_fused_axis(self):
        layout = layout_of("L,P,3,1,-", "E,2,3,4", "O,8,1,2,6")
        self.assertEqual(original_index(layout, plan_axes(layout), [17]), (1, 2, 2))


class Walking(unittest.TestCase):
    def test_tiles_and_rank_9(self):
        square = [ListedAxis(3, 2, [1]), ListedAxis(3, 2, [10])]
        due = {2: [0, 10, 2, 12, 20, 22], 9: [0, 2, 10, 12, 20, 22]}
        for rank, offsets in due.items():
            axes = square + [ListedAxis(1, 1, [0])] * (rank - 2)
            self.assertEqual([c[0] + 10 * c[1] for _, c, _ in walk_blocks(axes)], offsets)

    def test_every_example_meets_each_index_once(self):
        seen = 0
        for name, layout, listing in served():
            if prod(layout.extents) > MOST_CELLS:
                continue
            with self.subTest(name):
                met = cells(layout, listing)
                self.assertEqual(sorted(cell.index for cell in met), sorted(product(*map(range, layout.extents))))
                for cell in met:
                    self.assertEqual(cell.offsets, [sum(i * s for i, s in zip(cell.index, row)) for row in layout.strides])
                seen += 1
        self.assertGreater(seen, 12)

    def test_another_layout_s_listing(self):
        layout = read_layout(WORKED)
        for wrong in (LISTED.replace(b"B,1,2,2,1", b"B,1,2,3,1"), LISTED.replace(b"A,0,2,2", b"A,0,2,1"), LISTED.replace(b"A,1,3,3,2", b"A,1,3,3,5"),
                      b"K,1\nA,0,6,6,1,1\nB,0,6,0,0\nZ,1,6\n", b"K,2\nA,0,2,2,1,3\nA,1,3,3,2,1\nB,0,2,0,0\nZ,1,2\n"):
            with self.subTest(wrong):
                self.assertRaises(Malformed, cells, layout, read_listing(wrong, 2))

    def test_more_cells_than_can_be_drawn(self):
        layout = read_layout((LAYOUTS / "most_cells.txt").read_bytes())
        self.assertRaises(Malformed, cells, layout, read_listing((LAYOUTS / "most_cells.out").read_bytes(), 2))


class Pictures(unittest.TestCase):
    def test_rectangles_cover_the_grid_once(self):
        groups = {(x, y): (x // 3) + 2 * (y // 2) for x in range(7) for y in range(5) if (x, y) != (6, 4)}
        covered = {}
        for group, x, y, width, height in rectangles(groups, 7, 5):
            for place in product(range(x, x + width), range(y, y + height)):
                self.assertNotIn(place, covered)
                covered[place] = group
        self.assertEqual(covered, groups)

    def test_edges_of_two_groups(self):
        around = [(0, 0, 2, True), (0, 1, 2, True), (0, 0, 1, False), (2, 0, 1, False)]
        between = [(1, 0, 1, False)]
        self.assertEqual(sorted(edges({(0, 0): 1, (1, 0): 2}, 2, 1)), sorted(around + between))

    def test_straight_lines_keep_their_turns(self):
        self.assertEqual(straightened([(0, 0), (1, 0), (2, 0), (0, 1), (1, 1)]), [(0, 0), (2, 0), (0, 1), (1, 1)])
        self.assertEqual(straightened([(0, 0), (1, 0), (0, 0)]), [(0, 0), (1, 0), (0, 0)])
        self.assertEqual(straightened([(3, 4)]), [(3, 4)])


class Sets(unittest.TestCase):
    def both(self, name):
        """The operands that count, and the blocks of the sum and of the copy."""
        layout = read_layout((LAYOUTS / f"{name}_copy.txt").read_bytes())
        listings = [read_listing((LAYOUTS / f"{name}_{what}.out").read_bytes(), 2) for what in ("sum", "copy")]
        return counted(plan_axes(layout), layout.sizes), *([axis.block for axis in listing.axes] for listing in listings)

    def test_loads(self):
        for name, before, after in (("sets", 64, 6), ("frozen", 48, 33), ("fit", 28, 6)):
            counting, model, fitted = self.both(name)
            self.assertEqual((load(counting, model), load(counting, fitted)), (before, after))
        counting, _, fitted = self.both("sets")
        self.assertGreater(load(counting, [fitted[0] + 1, fitted[1]]), LIVE)

    def test_the_fullest_set_has_as_many_lines_as_the_load(self):
        for name in ("sets", "frozen", "fit"):
            counting, *tiles = self.both(name)
            for blocks in tiles:
                sets = lines_by_set(counting, blocks)
                self.assertEqual(max(map(len, sets.values())), load(counting, blocks))
                self.assertEqual(sum(map(len, sets.values())), len({pair for lines in sets.values() for pair in lines}))

    def test_an_operand_that_does_not_count(self):
        axes = [PlanAxis(8, [1, 512], [0]), PlanAxis(8, [8, 1], [1])]
        self.assertEqual([(one.operand, one.reuse, one.entering) for one in counted(axes, [8, 8])], [(1, 1, [0])])
        self.assertEqual(counted(axes, [8, 0]), [])
        self.assertEqual(counted([PlanAxis(8, [64, 64], [0])], [8, 8]), [])

    def test_the_program(self):
        layout, listing = str(LAYOUTS / "sets_copy.txt"), str(LAYOUTS / "sets_copy.out")
        status, out, wrong = run_draw(layout, "--listing", listing, "--blocks", "7,32", program="sets")
        self.assertEqual((status, wrong), (0, ""))
        labels = [node.text for node in ElementTree.fromstring(out).iter("{http://www.w3.org/2000/svg}text")]
        for label in ("blocks 6, 32", "load 6", "blocks 7, 32", "load 7"):
            self.assertIn(label, labels)
        self.assertEqual(run_draw("--help", program="sets")[0], 0)
        for options, words in (
            ((layout,), "no blocks"),
            ((layout, "--blocks", "7"), "--blocks"),
            ((layout, "--blocks", "0,1"), "--blocks"),
            ((layout, "--blocks", "7,x"), "--blocks"),
            ((layout, "--listing", str(LAYOUTS / "cut.out")), "by the rules"),
            ((layout, "--listing", str(LAYOUTS / "none.out")), "none.out"),
            ((str(LAYOUTS / "equal_weights.txt"), "--blocks", "1,1"), "3 operands"),
        ):
            with self.subTest(options):
                status, out, wrong = run_draw(*options, program="sets")
                self.assertEqual((status, out), (1, ""))
                self.assertTrue(wrong.startswith("sets: "), wrong)
                self.assertIn(words, wrong)
                self.assertNotIn("Traceback", wrong)


class Layers(unittest.TestCase):
    listed = (HERE.parents[1] / "crates.txt").read_text()

    def drawn(self, text):
        with tempfile.TemporaryDirectory() as folder:
            path = Path(folder, "crates.txt")
            path.write_text(text)
            ran = subprocess.run([sys.executable, "-B", str(HERE / "layers"), str(path)], capture_output=True, text=True, check=False)
        return ran.returncode, ran.stdout, ran.stderr

    def test_every_crate_is_drawn_once(self):
        status, out, wrong = self.drawn(self.listed)
        self.assertEqual((status, wrong), (0, ""))
        labels = [text.text for text in ElementTree.fromstring(out).iter("{http://www.w3.org/2000/svg}text") if text.get("class") == "c"]
        crates = [line.partition(":")[0].split()[0] for line in self.listed.splitlines() if line and not line.startswith("#")]
        self.assertEqual([label for label in labels if label in crates], crates)

    def test_what_is_refused(self):
        for old, new, words in (("laws: strided\n", "laws: strided mark\n", "laws of the layer definitions and laws uses mark, which is below it"),
                                ("# plan\n", "# plans\n", "the layers are"), ("# definitions and laws\n", "", "strided is in no layer")):
            self.assertIn(old, self.listed)
            status, _, wrong = self.drawn(self.listed.replace(old, new))
            self.assertEqual(status, 1)
            self.assertIn(words, wrong)


class Program(unittest.TestCase):
    def picture(self, name, *options):
        path = LAYOUTS / f"{name}.txt"
        status, out, wrong = run_draw(str(path), "--listing", str(path.with_suffix(".out")), *options)
        self.assertEqual((status, wrong), (0, ""))
        return ElementTree.fromstring(out)

    def labels(self, svg):
        return [node.text for node in svg.iter("{http://www.w3.org/2000/svg}text")]

    def test_numbers_and_offsets_stand_in_the_picture(self):
        labels = self.labels(self.picture("transpose", "--offsets", "1", "--title", "a < b"))
        self.assertIn("a < b", labels)
        for number in range(24):
            self.assertIn(str(number), labels)

    def test_every_kind_of_picture(self):
        for name, *options in (
            ("rank0",),
            ("zero_extent",),
            ("fused", "--line"),
            ("ones_only", "--memory", "0"),
            ("large_ordered", "--cell", "10", "--line"),
            ("broadcast", "--memory", "1"),
            ("fit_copy", "--colour", "tile", "--number", "tiles", "--cell", "8"),
            ("reversed_fused", "--axes", "1,0", "--number", "blocks"),
            ("capture", "--axes", "2", "--fix", "1=2"),
        ):
            with self.subTest(name):
                self.picture(name, *options)

    def test_what_cannot_be_drawn_says_why(self):
        def named(name, listing=None):
            return (str(LAYOUTS / f"{name}.txt"), "--listing", str(LAYOUTS / f"{listing or name}.out"))

        worked = named("worked")
        for options, words in (
            (named("none"), "none.txt"),
            (named("worked", "none"), "none.out"),
            (named("worked", "cut"), "by the rules"),
            (named("worked", "refused_5_total"), "R,5 (total above"),
            (named("refused_12_count"), "line 2"),
            (named("rank9"), "panels"),
            ((*worked, "--axes", "0,2"), "--axes"),
            ((*worked, "--axes", "0,0"), "--axes"),
            ((*worked, "--fix", "0"), "--fix"),
            ((*worked, "--fix", "0=1"), "--fix"),
            ((*worked, "--memory", "2"), "--memory"),
            ((*worked, "--cell", "1"), "--cell"),
            ((*worked, "--cell", "5"), "do not fit"),
            ((*worked, "--line", "--offsets", "0"), "--line"),
            ((worked[0], "--walklist", "/none"), "/none"),
            ((worked[0], "--walklist", "/bin/false"), "/bin/false"),
        ):
            with self.subTest(options):
                status, out, wrong = run_draw(*options)
                self.assertEqual((status, out), (1, ""))
                self.assertTrue(wrong.startswith("draw: "), wrong)
                self.assertIn(words, wrong)
                self.assertNotIn("Traceback", wrong)

    def test_help_and_a_layout_on_standard_input(self):
        self.assertEqual(run_draw("--help")[0], 0)
        with tempfile.TemporaryDirectory() as folder:
            there = Path(folder) / "out.svg"
            status, out, _ = run_draw("-", "--listing", str(LAYOUTS / "worked.out"), "-o", str(there), text=WORKED)
            self.assertEqual((status, out), (0, ""))
            self.assertTrue(there.read_text().startswith("<svg"))


GROWN = "# A\n\n## Cost\n\ntext\n\n| n | size | ns |\n|---|---|---|\n| 1 | 2 | 10 |\n| 1 | 2,000 | 90 |\n| 2 | 2 | 20 |\n\n| n |\n|---|\n| x |\n"
COST = ("--heading", "Cost", "--along", "size", "--lines", "ns")


class Growth(unittest.TestCase):
    def drawn(self, text, *options):
        with tempfile.TemporaryDirectory() as folder:
            document = Path(folder) / "table.md"
            document.write_text(text)
            return run_draw(str(document), *options, program="growth")

    def test_a_line_for_each_value_from_the_first_place_to_the_last(self):
        status, out, _ = self.drawn(GROWN, *COST, "--each", "n")
        self.assertEqual(status, 0)
        words = [element.text for element in ElementTree.fromstring(out).iter() if element.tag.endswith("text")]
        for word in ("n 1, ns", "n 2, ns", "2", "2,000", "10", "100", "size"):
            self.assertIn(word, words)
        # 10 and 90 on a scale from 10 to 100: from the foot, and up by log10 9 of the height
        self.assertIn('d="M64 334L524 47.7"', out)

    def test_what_is_no_table_of_numbers(self):
        for text, options, words in (
            (GROWN, ("--heading", "None", *COST[2:]), "no heading 'None'"),
            ("## Cost\n\n## Next\n", COST, "no table"),
            (GROWN, (*COST[:4], "--lines", "us"), "no column 'us'"),
            (GROWN.replace("90", "-"), COST, "is no number"),
            (GROWN.replace("90", "0"), COST, "logarithmic"),
        ):
            with self.subTest(words):
                status, out, wrong = self.drawn(text, *options)
                self.assertEqual((status, out), (1, ""))
                self.assertIn(words, wrong)
                self.assertNotIn("Traceback", wrong)


if __name__ == "__main__":
    unittest.main()
