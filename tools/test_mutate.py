"""Tests of mutate: what it changes, what it leaves alone, and how it reads what `rt` says. The prover is not asked.

    python3 -B tools/test_mutate.py
"""

import importlib.util
import tempfile
import unittest
from importlib.machinery import SourceFileLoader
from pathlib import Path

TOOLS = Path(__file__).resolve().parent
LOADER = SourceFileLoader("mutate", str(TOOLS / "mutate"))
mutate = importlib.util.module_from_spec(importlib.util.spec_from_loader("mutate", LOADER))
LOADER.exec_module(mutate)

CODE = """// a < b stands in a comment
#![tactic(auto)]
ghost use Rattle.std.specs.Prelude.{ltb};
use layout::least;
pub fn below(x: u64) -> bool
    requires low { x < 3 }
    ensures { (result ≡ ltb x 2)
        × (x < 3) }
{
    let mut c = [0u64; 64];
    x < 2 // not above
}
"""

SPECS = """use Rattle.std.specs.Prelude.{ltb}
-- below 2
abbrev pub below : ℕ → Bool
below x = ltb x 2

pub below_two : below 2 ≡ false
below_two = refl

unfoldable pub head {ℓ} : {A : Type ℓ} → A → List A → A
head d (x ∷ xs) = x
"""


class Lines(unittest.TestCase):
    def test_code_without_comments_imports_and_contracts(self):
        lines = [line.strip() for _, line in mutate.code_lines(CODE)]
        self.assertEqual(lines, ["pub fn below(x: u64) -> bool", "{", "let mut c = [0u64; 64];", "x < 2", "}"])

    def test_definitions_and_no_laws(self):
        self.assertEqual(list(mutate.spec_lines(SPECS)), [(3, "below x = ltb x 2"), (9, "head d (x ∷ xs) = x")])


class Changes(unittest.TestCase):
    def test_each_operator_and_number_by_itself(self):
        self.assertEqual(list(mutate.changes("x + 1 < 2", mutate.CODE)), ["x + 1 <= 2", "x + x < 2", "x + 2 < 2", "x + 1 < 1"])

    def test_the_other_way_round(self):
        self.assertEqual(list(mutate.changes("let z = a - b / c;", mutate.CODE)), ["let z = b - a / c;", "let z = a - c / b;"])

    def test_words_and_types_stay(self):
        self.assertEqual(list(mutate.changes("let trueish: u64 = [0u64; 64];", mutate.CODE)), [])

    def test_definitions(self):
        self.assertEqual(list(mutate.changes("below x = ltb x 2", mutate.SPECS)), ["below x = leb x 2", "below x = ltb x 1"])


SAID = """rt: c: 0 of its 5 must-fail edits were tried by an earlier run on this machine
rt: must-fail c/change0.edit: refused, as it must be: note: src/lib.rt:8:1: it is not proved that `ensures` holds
rt: must-fail c/change1.edit: refused, as it must be (only because a proof file names what the edit took away, so this says little of the contract)
rt: must-fail c/change2.edit: NOT REFUSED: the crate is still proved with this edit
rt: must-fail c/change3.edit: BAD EDIT: it did not reach the prover; the first lines of what it said:
src/lib.rt:29:18: error[unknown-name]: cannot find value `f` in this scope
rt: must-fail c/change10.edit: NOT TRIED: its check was killed, most likely for memory
"""


class Outcomes(unittest.TestCase):
    def test_what_is_said_of_each(self):
        self.assertEqual(mutate.outcomes(SAID), {0: "killed", 1: "void", 2: "survived", 3: "void"})

    def test_a_copy_without_edits_and_what_is_built(self):
        with tempfile.TemporaryDirectory() as folder:
            root, place = Path(folder, "from"), Path(folder, "to")
            for name in ("crates.txt", "crates/c/src/lib.rt", "crates/c/out/big", "crates/c/must-fail/a.edit", "docs/page"):
                (root / name).parent.mkdir(parents=True, exist_ok=True)
                (root / name).write_text("")
            place.mkdir()
            mutate.copied(root, place)
            self.assertEqual(sorted(str(path.relative_to(place)) for path in place.rglob("*") if path.is_file()), ["crates.txt", "crates/c/src/lib.rt"])


if __name__ == "__main__":
    unittest.main()
