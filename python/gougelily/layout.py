"""Layouts: extents, element sizes, strides, and what they are planned for; from plain numbers or from arrays."""

from __future__ import annotations

from collections.abc import Sequence
from dataclasses import dataclass
from operator import index
from typing import Any, Protocol

from .library import library, signed, unsigned
from .refusals import served


class Strided(Protocol):
    """What is asked of an array: a NumPy array has it, and so has a memoryview."""

    @property
    def shape(self) -> Any: ...

    @property
    def strides(self) -> Any: ...

    @property
    def itemsize(self) -> int: ...


@dataclass(frozen=True)
class Layout:
    """A layout with its purpose.

    `purpose` is "P" (pointwise; `chosen` is the destination operand, or None) or "F" (a fold, ordered by the operand `chosen`). `strides` has a row
    for each operand, with a stride in elements for each axis.

    >>> Layout(extents=(2, 3), sizes=(8, 8), strides=((1, 2), (3, 1)))
    Layout(extents=(2, 3), sizes=(8, 8), strides=((1, 2), (3, 1)), purpose='P', chosen=None)
    """

    extents: Sequence[int]
    sizes: Sequence[int]
    strides: Sequence[Sequence[int]]
    purpose: str = "P"
    chosen: int | None = None

    def __post_init__(self) -> None:
        if self.purpose not in ("P", "F"):
            raise ValueError(f"the purpose is P or F, not {self.purpose!r}")
        if self.purpose == "F" and self.chosen is None:
            raise ValueError("a fold (F) has a chosen operand, which orders it")
        if len(self.strides) != len(self.sizes):
            raise ValueError(f"{len(self.sizes)} sizes, but strides for {len(self.strides)} operands")
        for operand, row in enumerate(self.strides):
            if len(row) != len(self.extents):
                raise ValueError(f"operand {operand} has {len(row)} strides, the rank is {len(self.extents)}")
        # lists become tuples, and NumPy's numbers Python's, so that equal layouts are equal
        object.__setattr__(self, "extents", tuple(map(index, self.extents)))
        object.__setattr__(self, "sizes", tuple(map(index, self.sizes)))
        object.__setattr__(self, "strides", tuple(tuple(map(index, row)) for row in self.strides))

    @classmethod
    def of(cls, *arrays: Strided, purpose: str = "P", chosen: int | None = None) -> Layout:
        """The layout of arrays of one shape, an operand for each.

        Byte strides become strides in elements, and the axes are turned round: the last axis of the arrays, which is the quickest by habit, is axis
        0 of the layout.

        >>> rows = memoryview(bytes(48)).cast("Q", (2, 3))
        >>> Layout.of(rows)
        Layout(extents=(3, 2), sizes=(8,), strides=((1, 3),), purpose='P', chosen=None)
        """
        if not arrays:
            raise ValueError("no array")
        shape = tuple(arrays[0].shape)
        for number, array in enumerate(arrays):
            if tuple(array.shape) != shape:
                raise ValueError(f"array {number} has shape {tuple(array.shape)}, array 0 has {shape}; broadcast them to one shape first")
        rows = tuple(in_elements(array, number) for number, array in enumerate(arrays))
        return cls(shape[::-1], [array.itemsize for array in arrays], rows, purpose, chosen)

    @property
    def rank(self) -> int:
        return len(self.extents)

    @property
    def operands(self) -> int:
        return len(self.sizes)

    def check(self) -> None:
        """Raises Refused if the layout cannot be planned, on any machine within its bounds.

        >>> Layout((3,), (8,), ((2**62,),)).check()
        Traceback (most recent call last):
        gougelily.refusals.Refused: refused with 6: an operand's reach is above 2^63 - 1
        """
        served(library().gougelily_check_layout(*self.lent()))

    def lent(self) -> list[Any]:
        """The arguments that the raw functions take for a layout."""
        extents = unsigned(self.extents, "extents")
        sizes = unsigned(self.sizes, "sizes")
        strides = signed((stride for row in self.strides for stride in row), "strides")
        kind = 2 if self.purpose == "F" else 0 if self.chosen is None else 1
        chosen = unsigned([self.chosen or 0], "chosen")[0]
        return [extents, len(extents), sizes, len(sizes), strides, len(strides), kind, chosen]


def in_elements(array: Strided, number: int) -> tuple[int, ...]:
    """The strides of an array in elements, the last axis first."""
    size = array.itemsize
    if size < 1:
        raise ValueError(f"array {number} has elements of {size} bytes")
    for stride in array.strides:
        if stride % size:
            raise ValueError(f"array {number} has a stride of {stride} bytes, no multiple of its {size} bytes per element")
    return tuple(stride // size for stride in reversed(array.strides))


MARKS = ("no", "yes", "undecided")


def repeat_mark(extents: Sequence[int], strides: Sequence[int]) -> str:
    """Whether two indices of an operand share an offset: "no", "yes", or above 4,096 cells perhaps "undecided".

    >>> repeat_mark((3, 3), (1, 1)), repeat_mark((3, 2), (2, 3)), repeat_mark((65, 65), (1, 64))
    ('yes', 'no', 'undecided')
    """
    lent, moved = unsigned(extents, "extents"), signed(strides, "strides")
    return MARKS[served(library().gougelily_repeat_mark(lent, len(lent), moved, len(moved)))]
