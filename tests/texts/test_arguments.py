"""Tests of what walklist does with its arguments, and of its help: no contract speaks of these.

    python3 -B tests/texts/test_arguments.py [PROGRAM]
"""

import re
import subprocess
import sys
import tempfile
import unittest
from pathlib import Path

ROOT = Path(__file__).resolve().parents[2]
PROGRAM = Path(sys.argv.pop() if len(sys.argv) > 1 else ROOT / "target" / "bin" / "walklist").resolve()
TEXT = "L,P,2,2,-\nE,2,3\nO,8,1,2\nO,8,3,1\n"


def ran(*arguments, text=""):
    """What the program writes to its two outputs."""
    done = subprocess.run([PROGRAM, *arguments], input=text, capture_output=True, text=True, timeout=60, check=False)
    return done.stdout, done.stderr


class Arguments(unittest.TestCase):
    def setUp(self):
        room = tempfile.TemporaryDirectory()
        self.addCleanup(room.cleanup)
        self.file = Path(room.name, "layout.txt")
        self.file.write_text(TEXT)

    def test_none_reads_standard_input_and_one_a_file(self):
        walk = ran(text=TEXT)
        self.assertTrue(walk[0].startswith("K,2\n") and walk[1] == "", walk)
        self.assertEqual(ran(self.file), walk)
        self.assertEqual(ran(self.file, text="nothing of this is read\n"), walk)

    def test_two_are_refused(self):
        self.assertEqual(ran(self.file, self.file), ("", "walklist: one argument at most, a file's name; --help tells the form\n"))

    def test_a_file_that_is_not_there(self):
        written, said = ran(self.file.with_name("none.txt"))
        self.assertEqual(written, "")
        self.assertRegex(said, r"^walklist: .*none\.txt.*No such file or directory")

    def test_the_help(self):
        self.assertEqual(ran("--help"), (Path(__file__).with_name("help.txt").read_text(), ""))

    def test_each_line_of_the_help_that_cannot_be_written_is_told(self):
        with open("/dev/full", "wb") as full:
            done = subprocess.run([PROGRAM, "--help"], stdout=full, stderr=subprocess.PIPE, text=True, timeout=60, check=False)
        lines = Path(__file__).with_name("help.txt").read_text().splitlines()
        self.assertEqual((done.stderr, done.returncode), ("walklist: cannot write standard output\n" * len(lines), 0))

    def test_the_example_of_the_help_is_that_of_the_readme(self):
        example = re.search(r"^For instance: printf '(.*)' \| walklist$", ran("--help")[0], re.M)[1]
        self.assertEqual(example.replace("\\n", "\n"), TEXT)
        self.assertIn(f"target/bin/walklist <<'END'\n{TEXT}END", (ROOT / "README.md").read_text())


if __name__ == "__main__":
    unittest.main()
