"""Gougelily plans loops over strided arrays and walks their blocks: the library libgougelily, by ctypes. NumPy is not needed.

>>> import gougelily
>>> layout = gougelily.Layout(extents=(2, 3), sizes=(8, 8), strides=((1, 2), (3, 1)))
>>> plan = gougelily.plan_layout(layout)
>>> print(plan)
K,2
A,0,2,2,1,3
A,1,3,3,2,1
>>> for length, offsets in gougelily.blocks(plan):
...     print(length, offsets)
2 (0, 0)
2 (2, 1)
2 (4, 2)

`plan` does the same from arrays, `machine` tells the record of this processor, and a call that is refused raises `Refused`, which has the number
and the sentence. `python3 -m gougelily` explains a layout's plan in the terminal.
"""

from .copying import copy, copy_layout
from .descriptions import Described, describe, from_numpy, to_numpy
from .judging import VERDICTS, Judgement, Visit, judge, write_visits
from .layout import Layout, repeat_mark
from .library import version
from .machine import FIXED, Machine, machine
from .planning import Plan, original_index, plan, plan_index, plan_layout
from .readers import Student, Views, visits
from .refusals import REFUSALS, Refused, refusal_text
from .sessions import Session
from .summaries import Summary, summary, summary_of
from .texts import NotInForm, read_layout, walklist, write_layout
from .version import VERSION as __version__
from .walking import Block, Run, Walk, blocks
from .windows import Windowed, window

__all__ = [
    "Block",
    "Described",
    "FIXED",
    "Judgement",
    "Layout",
    "Machine",
    "NotInForm",
    "Plan",
    "REFUSALS",
    "Refused",
    "Run",
    "Session",
    "Student",
    "Summary",
    "VERDICTS",
    "Views",
    "Visit",
    "Walk",
    "Windowed",
    "__version__",
    "blocks",
    "copy",
    "copy_layout",
    "describe",
    "from_numpy",
    "judge",
    "machine",
    "original_index",
    "plan",
    "plan_index",
    "plan_layout",
    "read_layout",
    "refusal_text",
    "repeat_mark",
    "summary",
    "summary_of",
    "to_numpy",
    "version",
    "visits",
    "walklist",
    "window",
    "write_layout",
    "write_visits",
]
