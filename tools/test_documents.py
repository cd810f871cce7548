"""Tests of documents, on small repositories that are made for them.

    python3 -B tools/test_documents.py
"""

import subprocess
import sys
import tempfile
import unittest
from pathlib import Path

TOOL = Path(__file__).resolve().parent / "documents"

# A repository whose pages say nothing wrong.
RIGHT = {
    "README.md": "# A planner\n\nSee [the map](docs/ARCHITECTURE.md#the-map-of-crates) and `crates/strided/specs`.\n\n## To go on\n",
    "docs/ARCHITECTURE.md": """# The map of crates

`kernel::plan`, `walk::begin` by `check_layout`; `Order/Sorted.loop_order-is`, `Plan.planned`, `Lists.lists-all`, `Plan.antt`, `crates/NAME/src`; [back](../README.md#to-go-on).

    `no_such_word` in an example

## Definitions

| crates | hold |
|---|---|
| `strided`, `laws` | all |

## Walk

| crates | hold |
|---|---|
| `kernel`, `walk` | the rest |
""",
    "crates.txt": "# Every crate.\n\n# definitions\nstrided:\nlaws: strided\n\n# walk: and what it needs\nkernel: strided\nwalk staticlib: kernel\n",
    "crates/strided/specs/Plan.antt": "unfoldable pub planned : ℕ → ℕ\n",
    "crates/laws/specs/Order/Sorted.antt": "pub loop_order-is {ℓ} : ℕ\n",
    "crates/kernel/proofs/Lists.antt": "pub lists-all : ℕ\n",
    "crates/kernel/src/lib.rt": "pub fn plan(n: u64) -> u64 {\n    check_layout(n)\n}\n",
    "crates/walk/src/lib.rt": "pub use kernel::start::begin;\n",
}


def judged(*changes):
    """What the tool says of the repository with these changes (a file, what stands there, what is put for it): status and both outputs."""
    files = dict(RIGHT)
    for name, old, new in changes:
        assert files[name].count(old) == 1, (name, old)
        files[name] = files[name].replace(old, new)
    with tempfile.TemporaryDirectory() as folder:
        for name, text in files.items():
            path = Path(folder, name)
            path.parent.mkdir(parents=True, exist_ok=True)
            path.write_text(text)
        ran = subprocess.run([sys.executable, "-B", str(TOOL), "--root", folder], capture_output=True, check=False)
        return ran.returncode, ran.stdout.decode(), ran.stderr.decode()


class Documents(unittest.TestCase):
    def refused(self, words, *changes):
        status, _, fault = judged(*changes)
        self.assertEqual(status, 1)
        self.assertIn(words, fault)

    def test_right(self):
        self.assertEqual(judged(), (0, "2 pages, 2 links, 8 names, 4 crates; 0 wrong\n", ""))

    def test_links(self):
        self.refused("the link docs/MAP.md#the-map-of-crates leads nowhere", ("README.md", "docs/ARCHITECTURE.md", "docs/MAP.md"))
        self.refused("there is no heading for the link ../README.md#to-go-on", ("README.md", "## To go on", "## To go"))

    def test_names(self):
        for old, new, words in (("`kernel::plan`", "`kernel::planned`", "crate kernel has no planned"),
                                ("`walk::begin`", "`walk::step`", "crate walk has no step"),
                                ("Sorted.loop_order-is", "Sorted.loop_order", "crate laws has none"),
                                ("Order/Sorted", "Order/Sort", "crate laws has none"),
                                ("`Plan.planned`", "`Plan.plans`", "no file Plan.antt has it"),
                                ("`Lists.lists-all`", "`Lists.lists`", "no file Lists.antt has it"),
                                ("`Plan.antt`", "`Plans.antt`", "no crate has such a file"),
                                ("`crates/NAME/src`", "`crates/kernel/specs`", "there is no such path"),
                                ("`check_layout`", "`check_layouts`", "no source has this word")):
            self.refused(words, ("docs/ARCHITECTURE.md", old, new))

    def test_handed_on_in_a_list(self):
        self.assertEqual(judged(("crates/walk/src/lib.rt", "start::begin;", "start::{Lent, begin};"))[0], 0)

    def test_paths_of_a_machine(self):
        place = "/" + "tmp/gougelily"  # put together, so that this file names no such place itself
        self.refused(f"{place} is a path of one machine", ("README.md", "See ", f"See {place}, "))

    def test_the_map(self):
        self.refused("definitions: laws is not there", ("docs/ARCHITECTURE.md", "`strided`, `laws`", "`strided`"))
        self.refused("walk: laws is not in that layer", ("docs/ARCHITECTURE.md", "`kernel`, `walk`", "`kernel`, `walk`, `laws`"))


if __name__ == "__main__":
    unittest.main()
