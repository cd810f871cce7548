"""Tests of what pages show. README.md: its commands, as they are written, print what it says; run are those behind which their output stands.
docs/TOUR.md: the programs of examples/c print so. docs/CONTRIBUTING.md: code and proof stand so in the crates.

    python3 -B tests/python/test_pages.py         after make lib target/bin/walklist
"""

import re
import subprocess
import unittest

from seeded import ROOT

README = (ROOT / "README.md").read_text()
BLOCKS = re.findall(r"^```sh\n(.*?)^```$(?:\n\n```text\n(.*?)^```$)?", README, re.M | re.S)


class Readme(unittest.TestCase):
    def test_the_commands(self):
        for commands, output in [block for block in BLOCKS if block[1]]:
            ran = subprocess.run(["bash", "-e"], input=commands, capture_output=True, text=True, cwd=ROOT, check=False)
            self.assertEqual((ran.stdout, ran.stderr, ran.returncode), (output, "", 0), commands)

    def test_those_that_are_not_run(self):
        """Proving, the gate, and building."""
        self.assertEqual([commands for commands, output in BLOCKS if not output], ["make target/bin/walklist\n", ".ci/run\n", "make lib\n"])
        self.assertEqual(len(BLOCKS), 3 + README.count("\n```text\n"))

    def test_the_kit(self):
        """The README names the toolchain that the gate compares with."""
        self.assertIn(re.search(r"^proved_with='(.*)'$", (ROOT / ".ci" / "run").read_text(), re.M)[1], README)


class Tour(unittest.TestCase):
    def test_the_programs(self):
        """Behind the command stand the first lines of NAME.txt, which the programs are compared with in examples/c."""
        shown = re.findall(r"^    make -C examples/c (\w+) && examples/c/\1\n((?:    .*\n|\n(?=    ))+)", (ROOT / "docs" / "TOUR.md").read_text(), re.M)
        self.assertEqual([name for name, _ in shown], ["window", "readers", "probe"])
        for name, block in shown:
            printed = (ROOT / "examples" / "c" / f"{name}.txt").read_text()
            lines = re.sub(r"^    ", "", block, flags=re.M)
            self.assertEqual(printed[: len(lines)], lines, name)


class Contributing(unittest.TestCase):
    def test_the_function_from_end_to_end(self):
        section = (ROOT / "docs" / "CONTRIBUTING.md").read_text().split("\n## One function from end to end\n", 1)[1].split("\n## ", 1)[0]
        blocks = [re.sub(r"^    ", "", block, flags=re.M) for block in re.findall(r"((?:^    .*\n|^\n(?=    ))+)", section, re.M)]
        quoted = [block for block in blocks if " = ?" not in block]  # what the prover prints has holes
        self.assertEqual((len(blocks), len(quoted)), (7, 6))
        crates = [ROOT / "crates" / name for name in ("strided", "mark")]
        sources = [path.read_text() for crate in crates for path in crate.rglob("*") if path.suffix in {".rt", ".antt", ".edit"} and "out" not in path.parts]
        for line in filter(None, "\n".join(quoted).splitlines()):
            self.assertTrue(any(line in source for source in sources), line)


if __name__ == "__main__":
    unittest.main()
