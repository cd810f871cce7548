"""Windows: some indices of each axis of a layout, forwards or backwards, as a layout of its own."""

from __future__ import annotations

from collections.abc import Sequence
from dataclasses import replace
from typing import NamedTuple

from .layout import Layout
from .library import I64, MAX_OPERANDS, MAX_RANK, U64, library, signed, unsigned
from .refusals import served


class Windowed(NamedTuple):
    """A window's layout, and for each operand the shift of its start."""

    layout: Layout
    shifts: tuple[int, ...]

    def starts(self, parent: Sequence[int] | None = None) -> tuple[int, ...]:
        """The starts of a walk of the window, from those of the parent's walk; without them, from 0."""
        given = [0] * len(self.shifts) if parent is None else parent
        if len(given) != len(self.shifts):
            raise ValueError(f"{len(given)} starts, {len(self.shifts)} operands")
        return tuple(start + shift for start, shift in zip(given, self.shifts))


def window(layout: Layout, firsts: Sequence[int], counts: Sequence[int], steps: Sequence[int]) -> Windowed:
    """The window of a layout that has on each axis so many indices, from the first on in these steps, none of which is 0.

    Index i of the window is index firsts + steps * i of the layout. Purpose and chosen operand stay. Raises Refused with 1, 2, 5, 6 or 15.

    >>> capture = Layout(extents=(12, 4), sizes=(8,), strides=((4, 1),))
    >>> cut = window(capture, firsts=(10, 1), counts=(5, 2), steps=(-2, 1))
    >>> cut.layout.extents, cut.layout.strides, cut.shifts
    ((5, 2), ((-8, 1),), (41,))
    >>> window(capture, (10, 1), (7, 2), (-2, 1))
    Traceback (most recent call last):
    gougelily.refusals.Refused: refused with 15: a window's list, step, index or new stride is wrong
    """
    first, count, step = unsigned(firsts, "firsts"), unsigned(counts, "counts"), signed(steps, "steps")
    extents, strides, shifts = (U64 * MAX_RANK)(), (I64 * (MAX_OPERANDS * MAX_RANK))(), (I64 * MAX_OPERANDS)()
    served(library().gougelily_window(*layout.lent()[:6], first, len(first), count, len(count), step, len(step), extents, strides, shifts))
    n = layout.rank
    rows = tuple(tuple(strides[k * n : k * n + n]) for k in range(layout.operands))
    return Windowed(replace(layout, extents=tuple(extents[:n]), strides=rows), tuple(shifts[: layout.operands]))
