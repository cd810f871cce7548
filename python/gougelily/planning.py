"""Planning: from a layout or arrays to a plan; and index finding, from a plan's counters to the layout's index and back."""

from __future__ import annotations

from collections.abc import Sequence
from ctypes import byref
from dataclasses import dataclass
from typing import Any

from .layout import Layout, Strided
from .library import MAX_OPERANDS, MAX_RANK, SIZE, U64, PlanMemory, library, signed, unsigned
from .machine import FIXED, Machine
from .refusals import Refused, served


@dataclass(frozen=True)
class Plan:
    """A plan: extents and block sizes of its axes, the innermost first, and for each operand a row of strides in elements.

    Printed, it is the lines K and A that walklist prints.

    >>> print(Plan(extents=(2, 3), blocks=(2, 3), strides=((1, 2), (3, 1))))
    K,2
    A,0,2,2,1,3
    A,1,3,3,2,1
    """

    extents: Sequence[int]
    blocks: Sequence[int]
    strides: Sequence[Sequence[int]]

    def __post_init__(self) -> None:
        if any(len(row) != self.rank for row in (self.blocks, *self.strides)):
            raise ValueError(f"a plan of rank {self.rank} has as many blocks, and as many strides for each operand")

    @property
    def rank(self) -> int:
        return len(self.extents)

    @property
    def operands(self) -> int:
        return len(self.strides)

    @property
    def steps(self) -> tuple[int, ...]:
        """The stride of each operand inside a block: that of axis 0; 0 at rank 0, where a block is one cell."""
        return tuple(row[0] if row else 0 for row in self.strides)

    def __str__(self) -> str:
        lines: list[list[object]] = [["K", self.rank]]
        lines += [["A", i, extent, block, *(row[i] for row in self.strides)] for i, (extent, block) in enumerate(zip(self.extents, self.blocks))]
        return "\n".join(",".join(map(str, line)) for line in lines)

    def memory(self) -> PlanMemory:
        """The plan as the library takes it."""
        if self.rank > MAX_RANK:
            raise Refused(1)
        if self.operands > MAX_OPERANDS:
            raise Refused(2)
        made = PlanMemory(self.rank, self.operands)
        made.extents[: self.rank] = unsigned(self.extents, "extents")
        made.blocks[: self.rank] = unsigned(self.blocks, "blocks")
        for k, row in enumerate(self.strides):
            made.strides[k * MAX_RANK : k * MAX_RANK + self.rank] = signed(row, "strides")
        return made


def plan(*arrays: Strided, purpose: str = "P", chosen: int | None = None, machine: Machine = FIXED) -> Plan:
    """The plan of a loop over arrays of one shape, an operand for each (NumPy arrays, memoryviews).

    Axis 0 of the layout is the last axis of the arrays; docs/NUMPY.md says more.

    >>> rows = memoryview(bytes(48)).cast("Q", (2, 3))
    >>> print(plan(rows, rows))
    K,1
    A,0,6,6,1,1
    """
    return plan_layout(Layout.of(*arrays, purpose=purpose, chosen=chosen), machine)


def plan_layout(layout: Layout, machine: Machine = FIXED) -> Plan:
    """The plan of a layout on a machine. These alone fix it. Raises Refused with 1, 2, 4, 24, 5 or 6.

    >>> copy = Layout((36, 36), (32, 32), ((1, 36), (128, 1)), purpose="P", chosen=0)
    >>> print(plan_layout(copy))
    K,2
    A,0,36,6,1,128
    A,1,36,18,36,1
    >>> print(plan_layout(copy, Machine(64, 49152, 4096, 9)))
    K,2
    A,0,36,9,1,128
    A,1,36,27,36,1
    """
    rank, operands, made = SIZE(), SIZE(), PlanMemory()
    record = [int(unsigned([number], name)[0]) for name, number in zip(machine._fields, machine)]
    served(library().gougelily_plan(*layout.lent(), *record, byref(rank), byref(operands), made.extents, made.blocks, made.strides))
    n = rank.value
    rows = tuple(tuple(made.strides[k * MAX_RANK : k * MAX_RANK + n]) for k in range(operands.value))
    return Plan(tuple(made.extents[:n]), tuple(made.blocks[:n]), rows)


def original_index(layout: Layout, counters: Sequence[int]) -> tuple[int, ...]:
    """The layout's index of a plan index: a block's counters, with k added on axis 0 for the block's cell k.

    >>> original_index(Layout((2, 3, 4), (8,), ((1, 2, 6),)), (17,))
    (1, 2, 2)
    """
    return found(library().gougelily_original_index, layout, counters)


def plan_index(layout: Layout, index: Sequence[int]) -> tuple[int, ...]:
    """The plan index of an index of the layout, the reverse of original_index.

    >>> plan_index(Layout((2, 3, 4), (8,), ((1, 2, 6),)), (1, 2, 2))
    (17,)
    """
    return found(library().gougelily_plan_index, layout, index)


def found(function: Any, layout: Layout, places: Sequence[int]) -> tuple[int, ...]:
    """What a function of index finding tells."""
    given, count, index = unsigned(places, "index"), SIZE(), (U64 * MAX_RANK)()
    served(function(*layout.lent(), given, len(given), byref(count), index))
    return tuple(index[: count.value])
