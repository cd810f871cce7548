"""Two readers of a block: the visits of a walk, each with what an engineer sees of it and what a student sees (document 02, ask 10)."""

from __future__ import annotations

from collections.abc import Iterator, Sequence
from typing import Any, NamedTuple

from .layout import Layout
from .library import MAX_RANK, SIZE, U64, BlockMemory, VisitMemory, library
from .planning import Plan
from .refusals import served
from .walking import Block, Walk


class Student(NamedTuple):
    """What a student sees of a block: its number, its length, and the original index of its first cell."""

    number: int
    length: int
    first: tuple[int, ...]


class Views(NamedTuple):
    """The two views of one visit."""

    engineer: Block
    student: Student


def visits(layout: Layout, plan: Plan, starts: Sequence[int] | None = None) -> Iterator[Views]:
    """The visits of a walk over a plan of the layout, from its beginning to its end. The plan's block sizes may be any.

    Raises Refused with 1, 2, 5, 6, 8 or 9 where the walk does not begin, and with 1, 2, 4, 5, 6 or 11 at a visit: 11 where a block's first cell is no
    cell of the layout's plan.

    >>> layout = Layout(extents=(3, 3), sizes=(8,), strides=((1, 10),))
    >>> for engineer, student in visits(layout, Plan((3, 3), (2, 2), ((1, 10),)), starts=[100]):
    ...     print(student.number, student.length, engineer.offsets, student.first)
    0 2 (100,) (0, 0)
    1 2 (110,) (0, 1)
    2 1 (102,) (2, 0)
    3 1 (112,) (2, 1)
    4 2 (120,) (0, 2)
    5 1 (122,) (2, 2)
    """
    return visited(layout.lent(), Walk(plan, starts))


def visited(lent: Sequence[Any], walk: Walk) -> Iterator[Views]:
    state, visit = walk.state, VisitMemory()
    block, first = visit.block, visit.first
    while served(
        library().gougelily_visit(
            *lent,
            *walk.lent,
            *(state.ended, state.counters, state.offsets),
            *(visit.number, block.counters, block.length, block.offsets, block.strides),
            *(first.count, first.places),
        )
    ):
        yield Views(engineer_view(visit, walk.plan), student_view(visit))


def recorded(visit: VisitMemory) -> list[Any]:
    """A record as the library takes it."""
    block, first = visit.block, visit.first
    return [visit.number[0], block.counters, block.length[0], block.offsets, block.strides, first.count[0], first.places]


def engineer_view(visit: VisitMemory, plan: Plan) -> Block:
    n, k, block = plan.rank, plan.operands, BlockMemory()
    served(library().gougelily_engineer(*recorded(visit), block.counters, block.length, block.offsets, block.strides))
    return Block(tuple(block.counters[:n]), block.length[0], tuple(block.offsets[:k]), tuple(block.strides[:k]))


def student_view(visit: VisitMemory) -> Student:
    number, length, count, places = (U64 * 1)(), (U64 * 1)(), (SIZE * 1)(), (U64 * MAX_RANK)()
    served(library().gougelily_student(*recorded(visit), number, length, count, places))
    return Student(number[0], length[0], tuple(places[: count[0]]))
