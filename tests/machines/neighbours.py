"""What other folders have of the papers in Python: the text form, refusal table and limits of tests/texts, the plan's axes of tools/draw, the
rules for blocks of python/gougelily/rules.

They were written from document 01 as well. Here they are taken as they are, so that a rule stands once. What the machine record changes stands in
this folder.
"""

import sys
from pathlib import Path

ROOT = Path(__file__).resolve().parents[2]
sys.path.extend(str(ROOT / folder) for folder in ("tests/texts", "tools/draw", "python"))

import limits  # noqa: E402,F401
import planning  # noqa: E402,F401
import reading  # noqa: E402,F401
from gougelily.rules import cutting  # noqa: E402,F401
from gougelily.rules.declining import declined  # noqa: E402,F401
from gougelily.rules.fitting import fit, load, products  # noqa: E402,F401
from form import Layout, NotInForm, Operand, read_text, write_text  # noqa: E402,F401
from plan import SMALL, small_plan  # noqa: E402,F401
from recorded import read_cases  # noqa: E402,F401
from rows import applying, reach, total, wide  # noqa: E402,F401
from walk import Axis, line, read_axes  # noqa: E402,F401
