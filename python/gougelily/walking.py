"""Walking a plan: its blocks one by one, fetched many at a time."""

from __future__ import annotations

from collections.abc import Iterator, Sequence
from typing import NamedTuple

from .library import I64, U64, BlockMemory, WalkMemory, library, signed
from .planning import Plan
from .refusals import served


class Run(NamedTuple):
    """A block without its counters: cell k of operand j is at offsets[j] + k * plan.steps[j], for k below length."""

    length: int
    offsets: tuple[int, ...]


class Block(NamedTuple):
    """A block: its first cell's plan index, its length, and for each operand the offset of the first cell and the stride to the next."""

    counters: tuple[int, ...]
    length: int
    offsets: tuple[int, ...]
    strides: tuple[int, ...]


class Walk:
    """A walk over a plan. `starts` has for each operand the offset of its cell with index 0 on every axis; without it they are 0.

    >>> walk = Walk(Plan((5,), (2,), ((3,),)), starts=[10])
    >>> walk.step()
    Block(counters=(0,), length=2, offsets=(10,), strides=(3,))
    >>> walk.step_many(8)
    [Run(length=2, offsets=(16,)), Run(length=1, offsets=(22,))]
    >>> walk.step() is None and walk.ended
    True
    """

    def __init__(self, plan: Plan, starts: Sequence[int] | None = None) -> None:
        self.plan = plan
        self.state = WalkMemory()
        self.memory = plan.memory()
        self.lent = [self.memory.rank, self.memory.operands, self.memory.extents, self.memory.blocks, self.memory.strides]
        given = signed([0] * plan.operands if starts is None else starts, "starts")
        served(library().gougelily_begin(*self.lent, given, len(given), self.state.ended, self.state.counters, self.state.offsets))

    @property
    def ended(self) -> bool:
        return bool(self.state.ended[0])

    def step(self) -> Block | None:
        """The next block, or None after the last one."""
        n, k, block = self.plan.rank, self.plan.operands, BlockMemory()
        state = [self.state.ended, self.state.counters, self.state.offsets]
        if served(library().gougelily_step(*self.lent, *state, block.counters, block.length, block.offsets, block.strides)) == 0:
            return None
        return Block(tuple(block.counters[:n]), block.length[0], tuple(block.offsets[:k]), tuple(block.strides[:k]))

    def step_many(self, room: int) -> list[Run]:
        """The next blocks, at most so many; none after the last one."""
        k = self.plan.operands
        lengths, offsets = (U64 * room)(), (I64 * (room * k))()
        state = [self.state.ended, self.state.counters, self.state.offsets]
        count = served(library().gougelily_step_many(*self.lent, *state, lengths, room, offsets, room * k))
        flat = offsets[: count * k]
        return [Run(length, tuple(flat[j * k : j * k + k])) for j, length in enumerate(lengths[:count])]


def blocks(plan: Plan, starts: Sequence[int] | None = None, room: int = 1024) -> Iterator[Run]:
    """The blocks of a walk from its beginning to its end. They are fetched `room` at a time.

    >>> for length, offsets in blocks(Plan((3, 3), (2, 2), ((1, 10),))):
    ...     print(length, offsets)
    2 (0,)
    2 (10,)
    1 (2,)
    1 (12,)
    2 (20,)
    1 (22,)
    """
    return fetched(Walk(plan, starts), max(1, room))


def fetched(walk: Walk, room: int) -> Iterator[Run]:
    while not walk.ended:
        yield from walk.step_many(room)
