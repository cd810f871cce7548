"""Judging another tool's walk: whether the runs that it lists meet each index of a layout exactly once (document 02, ask 12)."""

from __future__ import annotations

import ctypes
from collections.abc import Iterable, Sequence
from math import prod
from typing import NamedTuple

from .library import BYTES, library, unsigned
from .refusals import served

VERDICTS = ("accepted", "short", "double", "outside")
MOST_CELLS = 65_536


class Visit(NamedTuple):
    """A run of `length` cells along an axis, from an index on."""

    axis: int
    length: int
    index: tuple[int, ...]


class Judgement(NamedTuple):
    """The verdict, one of VERDICTS, and the marks: 1 at each index met and 0 elsewhere, axis 0 quickest; all 0 for outside."""

    verdict: str
    marks: bytes

    def first_missing(self, extents: Sequence[int]) -> tuple[int, ...] | None:
        """The first index without a mark, axis 0 quickest; None if there is none."""
        at = self.marks.find(0)
        return None if at < 0 else index_at(extents, at)


def index_at(extents: Sequence[int], place: int) -> tuple[int, ...]:
    """The index of a place of the mark buffer.

    >>> index_at((3, 2), 4)
    (1, 1)
    """
    index = []
    for extent in extents:
        place, here = divmod(place, extent)
        index.append(here)
    return tuple(index)


def write_visits(visits: Iterable[tuple[int, int, Sequence[int]]]) -> str:
    """The text of visits.

    >>> write_visits([Visit(0, 3, (0, 1))])
    'V,0,3,0,1\\n'
    """
    return "".join(f"V,{axis},{length},{','.join(map(str, index))}\n" for axis, length, index in visits)


def judge(extents: Sequence[int], text: str | bytes) -> Judgement:
    """Judges a text of lines V,axis,length,index. Raises Refused with 1, 5, 13 or 23.

    >>> judge((3, 2), "V,0,3,0,0\\nV,0,3,0,1\\n").verdict
    'accepted'
    >>> told = judge((3, 2), "V,1,2,1,0\\n")
    >>> told.verdict, told.marks, told.first_missing((3, 2))
    ('short', b'\\x00\\x01\\x00\\x00\\x01\\x00', (0, 0))
    >>> judge((3, 2), "V,2,1,0,0\\n")
    Traceback (most recent call last):
    gougelily.refusals.Refused: refused with 23: visits not in the form, rank 0, or a mark buffer of another length
    """
    lent = unsigned(extents, "extents")
    given = text.encode() if isinstance(text, str) else bytes(text)
    # a total above 65,536 is refused, whatever the buffer
    room = min(prod(extents), MOST_CELLS + 1)
    said, marks = ctypes.create_string_buffer(given, len(given) + 1), ctypes.create_string_buffer(room + 1)
    verdict = served(library().gougelily_judge(lent, len(lent), ctypes.cast(said, BYTES), len(given), ctypes.cast(marks, BYTES), room))
    return Judgement(VERDICTS[verdict], marks.raw[:room])
