"""Numbers on the way to a plan: ranks, weights, loop order, fused extents and costs, from the functions of crate parts, proved like the planner.

They are no public interface. Their library, libparts.so, stands beside this module where it is installed, in the repository in target/lib.
"""

from __future__ import annotations

import ctypes
from functools import lru_cache
from pathlib import Path
from typing import Any, NamedTuple

from .layout import Layout
from .library import LAYOUT, MAX_OPERANDS, MAX_RANK, U64, sought
from .refusals import Refused

RANKS = (ctypes.c_uint8 * MAX_RANK) * MAX_OPERANDS
NUMBERS = U64 * MAX_RANK
FUNCTIONS = {"ranks": RANKS, "weights": NUMBERS, "order": NUMBERS, "fused": NUMBERS, "costs": NUMBERS}


class Parts(NamedTuple):
    """What stands on the way from a layout to its plan."""

    ranks: list[list[int]]  # a row for each operand, a rank for each axis
    weights: list[int]
    order: list[int]  # the axes in loop order, the innermost first
    fused: list[int]  # the extents after fusing, in the order of fusing; 1 for an axis that has joined the one before it
    costs: list[int]  # of the plan's axes, and zeros behind them


@lru_cache(maxsize=None)
def library() -> ctypes.CDLL:
    beside = Path(__file__).resolve().with_name("libparts.so")
    path = str(beside) if beside.is_file() else next(iter(sought("libparts.so")))
    try:
        loaded = ctypes.CDLL(path)
    except OSError as failure:
        raise ImportError(f"{failure}: libparts.so is made by 'make lib'") from None
    for name, kind in FUNCTIONS.items():
        function = getattr(loaded, f"parts_{name}")
        function.argtypes, function.restype = [*LAYOUT, ctypes.POINTER(kind)], U64
    return loaded


def parts_of(layout: Layout) -> Parts:
    """The parts of a layout's plan.

    >>> parts_of(Layout((4, 4), (8, 8), ((1, 4), (4, 1)))).weights
    [33, 12]
    """
    told: dict[str, Any] = {}
    for name, kind in FUNCTIONS.items():
        told[name] = kind()
        answer: int = getattr(library(), f"parts_{name}")(*layout.lent(), ctypes.byref(told[name]))
        if answer:
            raise Refused(answer)
    n = layout.rank
    ranks = [list(told["ranks"][k][:n]) for k in range(layout.operands)]
    return Parts(ranks, list(told["weights"][:n]), list(told["order"][:n]), list(told["fused"][:n]), list(told["costs"]))
