"""Summaries: sum, extremes and counts of an array's doubles, in the order of its plan (document 02, ask 11)."""

from __future__ import annotations

import ctypes
from collections.abc import Sequence
from typing import Any, NamedTuple

from .layout import Strided, in_elements
from .library import F64, F64S, U64, library, signed, unsigned
from .machine import FIXED, Machine
from .refusals import served


class Summary(NamedTuple):
    """`count` cells, of which `nans` are not a number. Without `extremes` no cell is a number, and least and greatest are 0.0."""

    sum: float
    least: float
    greatest: float
    count: int
    nans: int
    extremes: bool


def summary(array: Strided, machine: Machine = FIXED) -> Summary:
    """The summary of an array of doubles (a NumPy array, a memoryview), of any shape and strides.

    The cells are added one by one in the order of the array's plan, each with one rounding, so the sum has the same bits on every processor. A
    cell that several indices name is counted at each. Raises Refused with 1, 24, 5 or 6.

    >>> from array import array
    >>> summary(memoryview(array("d", [1.5, -2.0, 4.0])))
    Summary(sum=3.5, least=-2.0, greatest=4.0, count=3, nans=0, extremes=True)
    """
    held = Buffer(array)
    try:
        extents, strides = tuple(reversed(array.shape)), in_elements(array, 0)
        ways = [(extent - 1) * stride for extent, stride in zip(extents, strides)]
        none = 0 in extents
        below = 0 if none else -sum(way for way in ways if way < 0)
        above = -1 if none else sum(way for way in ways if way > 0)
        first = ctypes.cast(held.address - below * ctypes.sizeof(F64), F64S)
        return told(extents, strides, machine, below, first, below + above + 1)
    finally:
        held.release()


def summary_of(extents: Sequence[int], strides: Sequence[int], cells: Sequence[float], start: int = 0, machine: Machine = FIXED) -> Summary:
    """The summary of the cells that extents and strides, in elements, name in `cells`, from the place `start` on.

    Raises Refused with 1, 3, 24, 5, 6, 9 or 22.

    >>> summary_of((2, 3), (1, 0), [0.5, 0.25])
    Summary(sum=2.25, least=0.25, greatest=0.5, count=6, nans=0, extremes=True)
    >>> summary_of((5,), (1,), [1.0, 2.0, 3.0, 4.0])
    Traceback (most recent call last):
    gougelily.refusals.Refused: refused with 22: a cell lies outside the slice of cells that is lent
    """
    lent = (F64 * len(cells))(*cells)
    return told(extents, strides, machine, start, lent, len(cells))


def told(extents: Sequence[int], strides: Sequence[int], machine: Machine, start: int, cells: Any, count: int) -> Summary:
    """What the library tells."""
    es, ss = unsigned(extents, "extents"), signed(strides, "strides")
    record = [int(unsigned([number], name)[0]) for name, number in zip(machine._fields, machine)]
    at = int(signed([start], "start")[0])
    floats, counts = [F64() for _ in range(3)], [U64() for _ in range(3)]
    out = [ctypes.byref(place) for place in (*floats, *counts)]
    served(library().gougelily_summary(es, len(es), ss, len(ss), *record, at, cells, count, *out))
    total, least, greatest = (place.value for place in floats)
    return Summary(total, least, greatest, counts[0].value, counts[1].value, counts[2].value != 0)


class View(ctypes.Structure):
    """Py_buffer"""

    _fields_ = [
        ("buf", ctypes.c_void_p),
        ("obj", ctypes.py_object),
        ("len", ctypes.c_ssize_t),
        ("itemsize", ctypes.c_ssize_t),
        ("readonly", ctypes.c_int),
        ("ndim", ctypes.c_int),
        ("format", ctypes.c_char_p),
        ("shape", ctypes.c_void_p),
        ("strides", ctypes.c_void_p),
        ("suboffsets", ctypes.c_void_p),
        ("internal", ctypes.c_void_p),
    ]


class Buffer:
    """The memory of an array, held until it is released. What is lent is read only, so an array that may not be written is taken too."""

    STRIDES_AND_FORMAT = 0x1C

    def __init__(self, array: Any) -> None:
        self.view = View()
        ctypes.pythonapi.PyObject_GetBuffer(ctypes.py_object(array), ctypes.byref(self.view), self.STRIDES_AND_FORMAT)
        self.address = self.view.buf or 0
        wrong = self.wrong()
        if wrong:
            self.release()
            raise ValueError(wrong)

    def wrong(self) -> str | None:
        if (self.view.format or b"B").lstrip(b"@=<") != b"d":
            return f"the cells are {(self.view.format or b'B').decode()!r}, not doubles of this processor"
        if self.address % ctypes.alignment(F64):
            return "the cells are not aligned"
        return None

    def release(self) -> None:
        ctypes.pythonapi.PyBuffer_Release(ctypes.byref(self.view))
