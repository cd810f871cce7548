"""The shared library: found and loaded at the first call, with the types of its C functions (include/gougelily.h).

It is sought where GOUGELILY_LIBRARY names a file, then beside the module (the prefix it was installed into, or the repository's target/lib), then
where the system's loader looks.
"""

from __future__ import annotations

import ctypes
import os
from array import array
from collections.abc import Iterable
from functools import lru_cache
from pathlib import Path
from typing import Any

from .version import VERSION

SONAME = f"libgougelily.so.{VERSION.partition('.')[0]}"
MAX_RANK = 64
MAX_OPERANDS = 8

U64, I64, SIZE = ctypes.c_uint64, ctypes.c_int64, ctypes.c_size_t
U64S, I64S, SIZES, BYTES = (ctypes.POINTER(kind) for kind in (U64, I64, SIZE, ctypes.c_uint8))
F64 = ctypes.c_double
F64S = ctypes.POINTER(F64)

LAYOUT = [U64S, SIZE, U64S, SIZE, I64S, SIZE, U64, U64]
PLAN = [SIZE, SIZE, U64S, U64S, I64S]
WALK = [U64S, U64S, I64S]
BLOCK = [U64S, U64S, I64S, I64S]
RECORD = [U64, U64S, U64, I64S, I64S, SIZE, U64S]
SESSION = [U64S, U64S, U64S, SIZES, SIZES, U64S, U64S, I64S, U64S, U64S, U64S, SIZES, U64S, U64S, I64S]

FUNCTIONS: dict[str, list[Any]] = {
    "gougelily_version": [],
    "gougelily_plan": [*LAYOUT, U64, U64, U64, U64, SIZES, SIZES, U64S, U64S, I64S],
    "gougelily_check_layout": LAYOUT,
    "gougelily_original_index": [*LAYOUT, U64S, SIZE, SIZES, U64S],
    "gougelily_plan_index": [*LAYOUT, U64S, SIZE, SIZES, U64S],
    "gougelily_begin": [*PLAN, I64S, SIZE, *WALK],
    "gougelily_step": [*PLAN, *WALK, U64S, U64S, I64S, I64S],
    "gougelily_step_many": [*PLAN, *WALK, U64S, SIZE, I64S, SIZE],
    "gougelily_visit": [*LAYOUT, *PLAN, *WALK, U64S, *BLOCK, SIZES, U64S],
    "gougelily_engineer": [*RECORD, *BLOCK],
    "gougelily_student": [*RECORD, U64S, U64S, SIZES, U64S],
    "gougelily_window": [*LAYOUT[:6], U64S, SIZE, U64S, SIZE, I64S, SIZE, U64S, I64S, I64S],
    "gougelily_copy": [*LAYOUT[:6], U64, U64, U64, U64, I64S, SIZE, ctypes.c_void_p, SIZE, ctypes.c_void_p, SIZE],
    "gougelily_repeat_mark": [U64S, SIZE, I64S, SIZE],
    "gougelily_walklist": [BYTES, SIZE, BYTES, SIZE],
    "gougelily_from_numpy": [BYTES, SIZE, U64S, SIZES, U64S, I64S],
    "gougelily_to_numpy": [U64, U64S, SIZE, I64S, SIZE, BYTES, SIZE],
    "gougelily_judge": [U64S, SIZE, BYTES, SIZE, BYTES, SIZE],
    "gougelily_summary": [U64S, SIZE, I64S, SIZE, U64, U64, U64, U64, I64, F64S, SIZE, F64S, F64S, F64S, U64S, U64S, U64S],
    "gougelily_begin_session": [*LAYOUT, U64, U64, U64, U64, *SESSION],
    "gougelily_join_session": [*SESSION, U64, I64S, SIZE],
    "gougelily_leave_session": [*SESSION, U64],
}


class PlanMemory(ctypes.Structure):
    """gougelily_plan_t"""

    _fields_ = [
        ("rank", SIZE),
        ("operands", SIZE),
        ("extents", U64 * MAX_RANK),
        ("blocks", U64 * MAX_RANK),
        ("strides", I64 * (MAX_OPERANDS * MAX_RANK)),
    ]


class WalkMemory(ctypes.Structure):
    """gougelily_walk_t, with `ended` as an array of one place"""

    _fields_ = [("ended", U64 * 1), ("counters", U64 * MAX_RANK), ("offsets", I64 * MAX_OPERANDS)]


class BlockMemory(ctypes.Structure):
    """gougelily_block_t, with `length` as an array of one place"""

    _fields_ = [("counters", U64 * MAX_RANK), ("length", U64 * 1), ("offsets", I64 * MAX_OPERANDS), ("strides", I64 * MAX_OPERANDS)]


class IndexMemory(ctypes.Structure):
    """gougelily_index_t, with `count` as an array of one place"""

    _fields_ = [("count", SIZE * 1), ("places", U64 * MAX_RANK)]


class VisitMemory(ctypes.Structure):
    """gougelily_visit_t, with `number` as an array of one place"""

    _fields_ = [("number", U64 * 1), ("block", BlockMemory), ("first", IndexMemory)]


class SessionMemory(ctypes.Structure):
    """gougelily_session_t, with each number as an array of one place, the machine as one of four, and the plan's rank and operands as one of two"""

    _fields_ = [
        ("purpose", U64 * 1),
        ("chosen", U64 * 1),
        ("machine", U64 * 4),
        ("rank", SIZE * 1),
        ("operands", SIZE * 1),
        ("extents", U64 * MAX_RANK),
        ("sizes", U64 * MAX_OPERANDS),
        ("strides", I64 * (MAX_OPERANDS * MAX_RANK)),
        ("ranks", U64 * (MAX_OPERANDS * MAX_RANK)),
        ("weights", U64 * MAX_RANK),
        ("costs", U64 * MAX_RANK),
        ("plan_counts", SIZE * 2),
        ("plan_extents", U64 * MAX_RANK),
        ("blocks", U64 * MAX_RANK),
        ("plan_strides", I64 * (MAX_OPERANDS * MAX_RANK)),
    ]

    def lent(self) -> list[Any]:
        """The arguments that the raw functions take for a session."""
        return [getattr(self, name) for name, *_ in self._fields_]


def sought(name: str) -> Iterable[str]:
    """The files that may be the library of this name, in order."""
    for folder in Path(__file__).resolve().parents[1:]:
        for place in (folder / "target" / "lib" / name, folder / name):
            if place.is_file():
                yield str(place)
    yield name


@lru_cache(maxsize=None)
def library() -> ctypes.CDLL:
    """The library, with its functions typed."""
    named = os.environ.get("GOUGELILY_LIBRARY")
    path = named or next(iter(sought(SONAME)))
    try:
        loaded = ctypes.CDLL(path)
    except OSError as failure:
        raise ImportError(f"{failure}: {SONAME} is made by 'make lib'; GOUGELILY_LIBRARY may name it") from None
    for name, types in FUNCTIONS.items():
        function = getattr(loaded, name)
        function.argtypes, function.restype = types, I64
    return loaded


def version() -> str:
    """The version of the library that is loaded, as major.minor.patch.

    >>> version() == VERSION
    True
    """
    number: int = library().gougelily_version()
    return f"{number // 1_000_000}.{number // 1_000 % 1_000}.{number % 1_000}"


def unsigned(numbers: Iterable[int], what: str) -> Any:
    """A C array of 64-bit unsigned numbers."""
    return packed("Q", U64, numbers, f"{what}: a number is outside 64-bit unsigned")


def signed(numbers: Iterable[int], what: str) -> Any:
    """A C array of 64-bit signed numbers."""
    return packed("q", I64, numbers, f"{what}: a number is outside 64-bit signed")


def packed(code: str, kind: Any, numbers: Iterable[int], wrong: str) -> Any:
    """ctypes alone would cut a number that does not fit; `array` refuses it."""
    try:
        held = array(code, numbers)
    except OverflowError:
        raise OverflowError(wrong) from None
    return (kind * len(held)).from_buffer_copy(held)
