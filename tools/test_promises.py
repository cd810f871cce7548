"""Tests of promises, on small repositories that are made for them.

    python3 -B tools/test_promises.py
"""

import subprocess
import sys
import tempfile
import unittest
from pathlib import Path

TOOL = Path(__file__).resolve().parent / "promises"
PAGE = "docs/SPECIFICATION.md"

# A repository in which everything is as it should be.
RIGHT = {
    "docs/SPECIFICATION.md": """# What a planner does

The public entries, none with a precondition: `kernel::plan`, `walk::begin`, and the C functions of `gougelily`.

- There is a plan. `strided/src/lib: Purpose` `Plan: planned, ◌⊕◌` `Text: Lists`

*Proved*: row 9 is exact: `laws/specs/Walk/Row9: row9_exact`. Where ports go astray: `strided/must-fail: never_cut`. The contract of `kernel::plan`.
""",
    "crates/strided/src/lib.rt": "pub enum Purpose {\n    Fold,\n}\n",
    "crates/strided/specs/Plan.antt": "unfoldable pub planned : ℕ → ℕ\nplanned n = n\n\nabbrev pub ◌⊕◌ : ℕ → ℕ → ℕ\na ⊕ b = a\n",
    "crates/strided/specs/Text.antt": "pub record Lists (n : ℕ) : Type 0 where\n  pub size : ℕ\n",
    "crates/strided/must-fail/never_cut.edit": "",
    "crates/laws/specs/Walk/Row9.antt": "module _ (n : ℕ) where\n  pub row9_exact {ℓ} : n ≡ n\n",
    "crates/kernel/src/lib.rt": """ghost use Rattle.std.specs.Prelude.{◌≡◌, length};
ghost use Rattle.strided.specs.Plan.{planned as planned_of};
ghost use Rattle.kernel.specs.Made.{Made};

fn made() -> usize
    requires { Made 0 }
{
    0
}

pub fn plan<'a>(
    extents: &'a [u64],
) -> usize
    ensures { result ≡ planned_of (length extents.now) }
{
    made()
}
""",
    "crates/walk/src/lib.rt": "pub use states::start::begin;\n",
    "crates/states/src/start.rt": """ghost use Rattle.strided.specs.Text.{Lists};

pub fn begin(n: usize) -> usize
    ensures lists { Lists result }
{
    n
}
""",
    "crates/gougelily/src/plans.rt": """ghost use Rattle.strided.specs.Plan.{planned, ◌⊕◌};

#[unsafe(no_mangle)]
pub extern "C" fn gougelily_plan(n: u64) -> u64
    ensures { planned n ⊕ result }
{
    n
}
""",
}


def judged(*changes):
    """What the tool says of the repository with these changes (a file, what stands there, what is put for it): status and both outputs."""
    files = dict(RIGHT)
    for name, old, new in changes:
        assert name not in files or files[name].count(old) == 1, (name, old)
        files[name] = files.get(name, "").replace(old, new) if old else new
    with tempfile.TemporaryDirectory() as folder:
        for name, text in files.items():
            path = Path(folder, name)
            path.parent.mkdir(parents=True, exist_ok=True)
            path.write_text(text)
        ran = subprocess.run([sys.executable, "-B", str(TOOL), "--root", folder], capture_output=True, check=False)
        return ran.returncode, ran.stdout.decode(), ran.stderr.decode()


class Promises(unittest.TestCase):
    def refused(self, words, *changes):
        status, _, fault = judged(*changes)
        self.assertEqual(status, 1)
        self.assertIn(words, fault)

    def test_right(self):
        self.assertEqual(judged(), (0, "2 entries and 1 C functions cite 3 definitions; docs/SPECIFICATION.md names 6; 0 wrong\n", ""))

    def test_a_definition_of_another_crate(self):
        self.refused("kernel::plan cites `Made` of crate kernel", ("crates/kernel/src/lib.rt", "planned_of (length", "Made (length"))
        self.refused("walk::begin cites `Lists` of crate text", ("crates/states/src/start.rt", "Rattle.strided.specs", "Rattle.text.specs"))
        self.refused("cites `◌⊕◌` of crate model", ("crates/gougelily/src/plans.rt", "Plan.{planned, ◌⊕◌}", "Plan.{planned};\nghost use Rattle.model.specs.Sums.{◌⊕◌}"))
        self.refused("of crate walk, not of strided", ("crates/gougelily/src/plans.rt", "planned n ⊕ result", "Rattle.walk.specs.Lent.left n result"))
        self.refused("kernel::plan cites `Made` of crate kernel", ("crates/kernel/src/lib.rt", "planned_of (length extents.now) }", "planned_of\n        (Made (length extents.now)) }"))
        self.refused("kernel::plan cites `Made` of crate kernel", ("crates/kernel/src/lib.rt", "result ≡ planned_of (length", "let p = planned_of in record {\n        is = Made } ≡ p (length"))
        self.refused("by an impl", ("crates/gougelily/src/plans.rt", "planned n ⊕ result", "planned n ⊕ ⟦<u64 as Made>⟧.made"))
        self.refused("cites no definition", ("crates/gougelily/src/plans.rt", "planned n ⊕ result", "n ≡ result"))

    def test_a_definition_that_the_page_does_not_name(self):
        self.refused("kernel::plan cites `planned` of strided/specs/Plan, which", (PAGE, "Plan: planned, ◌⊕◌", "Plan: ◌⊕◌"))
        self.refused("gougelily::gougelily_plan cites `◌⊕◌` of strided/specs/Plan, which", (PAGE, "Plan: planned, ◌⊕◌", "Plan: planned"))
        self.refused("walk::begin cites `Lists` of strided/specs/Text, which", (PAGE, " `Text: Lists`", ""))

    def test_handed_on_in_a_list(self):
        listed = ("crates/walk/src/lib.rt", "start::begin;", "start::{Lent, begin};")
        self.assertEqual(judged(listed)[0], 0)
        self.refused("walk::begin cites `Lists` of crate text", listed, ("crates/states/src/start.rt", "Rattle.strided.specs", "Rattle.text.specs"))

    def test_a_precondition(self):
        self.refused("kernel::plan has a precondition", ("crates/kernel/src/lib.rt", "    ensures", "    requires { 0 < 1 }\n    ensures"))

    def test_no_such_function(self):
        self.refused("walk::begin: there is no such public function", ("crates/states/src/start.rt", "pub fn begin", "fn begin"))

    def test_a_crate_on_top_cites_its_own_specs(self):
        cut = """ghost use Rattle.{0}.specs.Cut.{{cut}};

pub {1}fn {2}(n: u64) -> u64
    ensures {{ cut n result }}
{{
    n
}}
"""
        listed = (PAGE, "`walk::begin`, and", "`walk::begin`, `window::window`, and")
        named = (PAGE, "`Text: Lists`", "`Text: Lists` `window/specs/Cut: cut`")
        spec = ("crates/window/specs/Cut.antt", "", "pub cut : ℕ → ℕ → Type 0\n")
        own = ("crates/window/src/lib.rt", "", cut.format("window", "", "window"))
        exported = ("crates/gougelily/src/windows.rt", "", cut.format("window", 'extern "C" ', "gougelily_window"))
        self.assertEqual(judged(listed, named, spec, own, exported)[0], 0)
        self.refused("of window/specs/Cut, which", listed, spec, own, exported)
        self.refused("of crate session", listed, ("crates/window/src/lib.rt", "", cut.format("session", "", "window")))

    def test_a_name_that_is_not_there(self):
        self.refused("there is no `planned` in strided/specs/Plan", ("crates/strided/specs/Plan.antt", "unfoldable pub planned", "unfoldable pub planned_at"))
        self.refused("there is no `Purpose` in strided/src/lib", ("crates/strided/src/lib.rt", "pub enum Purpose", "pub enum Aim"))
        self.refused("there is no `always_cut` in strided/must-fail", (PAGE, "never_cut", "always_cut"))
        self.refused("there is no `row9_exact` in laws/specs/Walk/Row9", ("crates/laws/specs/Walk/Row9.antt", "row9_exact", "row9_half"))
        self.refused("there is no file strided/specs/Plans", (PAGE, "`Plan: planned", "`Plans: planned"))
        self.refused("there is no file states/src/start", (PAGE, "`Text: Lists`", "`Text: Lists` `states/src/start: begin`"))
        self.refused("`kernel::plan` is not among the public entries", (PAGE, "precondition: `kernel::plan`, ", "precondition: "))

    def test_a_name_out_of_form(self):
        self.refused("is not of the form", (PAGE, "`Text: Lists`", "`Text: Lists` `Text: Lists and more`"))
        self.refused("is not of the form", (PAGE, "`Text: Lists`", "`Text: Lists` `laws/specs/Walk/Row9.row9_exact`"))

    def test_nothing_to_read(self):
        self.refused("lists no entry", (PAGE, "The public entries", "Entries"))


if __name__ == "__main__":
    unittest.main()
