"""Sessions: a layout to which an operand joins or from which one leaves, kept with what it gives (document 02, ask 8)."""

from __future__ import annotations

from collections.abc import Sequence

from .layout import Layout, Strided, in_elements
from .library import MAX_RANK, SessionMemory, library, signed, unsigned
from .machine import FIXED, Machine
from .planning import Plan
from .refusals import served


class Session:
    """A session begins with a layout and a machine, as planning takes them. Raises Refused with 1, 2, 4, 24, 5 or 6.

    Its ranks, weights, costs and plan are at any time those of its present layout, and the ranks of operands that stay are the numbers they were.

    >>> session = Session(Layout((256, 8), (8, 8), ((1, 256), (8, 1)), purpose="P", chosen=1))
    >>> session.ranks, session.weights, session.costs
    (((1, 2), (2, 1)), (12, 33), (2, 2))
    >>> session.join(4, (0, 3))
    >>> session.ranks, session.weights, session.costs
    (((1, 2), (2, 1), (1, 1)), (24, 137), (2, 1))
    >>> session.leave(0)
    >>> session.layout
    Layout(extents=(256, 8), sizes=(8, 4), strides=((8, 1), (0, 3)), purpose='P', chosen=0)
    >>> print(session.plan)
    K,2
    A,0,8,8,1,3
    A,1,256,256,8,0
    """

    def __init__(self, layout: Layout, machine: Machine = FIXED) -> None:
        self.memory = SessionMemory()
        record = [int(unsigned([number], name)[0]) for name, number in zip(machine._fields, machine)]
        served(library().gougelily_begin_session(*layout.lent(), *record, *self.memory.lent()))

    @classmethod
    def of(cls, *arrays: Strided, purpose: str = "P", chosen: int | None = None, machine: Machine = FIXED) -> Session:
        """A session of arrays of one shape, an operand for each.

        >>> rows = memoryview(bytes(48)).cast("Q", (2, 3))
        >>> Session.of(rows).layout
        Layout(extents=(3, 2), sizes=(8,), strides=((1, 3),), purpose='P', chosen=None)
        """
        return cls(Layout.of(*arrays, purpose=purpose, chosen=chosen), machine)

    def join(self, size: int, strides: Sequence[int]) -> None:
        """An operand joins at the end, with its element size and a stride in elements for each axis. Raises Refused with 10, 20, 3 or 6.

        >>> Session(Layout((3,), (8,), ((1,),))).join(8, (1, 1))
        Traceback (most recent call last):
        gougelily.refusals.Refused: refused with 3: the number of strides is not rank times operands
        """
        row = signed(strides, "strides")
        served(library().gougelily_join_session(*self.memory.lent(), int(unsigned([size], "size")[0]), row, len(row)))

    def join_array(self, array: Strided) -> None:
        """An array of the session's shape joins at the end.

        >>> rows = memoryview(bytes(48)).cast("Q", (2, 3))
        >>> session = Session.of(rows)
        >>> session.join_array(memoryview(bytes(6)).cast("B", (2, 3)))
        >>> print(session.plan)
        K,1
        A,0,6,6,1,1
        """
        shape = self.layout.extents[::-1]
        if tuple(array.shape) != shape:
            raise ValueError(f"the array has shape {tuple(array.shape)}, the session has {shape}; broadcast it to that shape first")
        self.join(array.itemsize, in_elements(array, self.layout.operands))

    def leave(self, operand: int) -> None:
        """An operand leaves, and the later ones move up. Raises Refused with 10 or 21.

        The chosen operand moves with its data. If it leaves itself, a pointwise plan has none and a fold is ordered by operand 0.

        >>> fold = Session(Layout((3,), (8, 4), ((1,), (2,)), purpose="F", chosen=1))
        >>> fold.leave(1)
        >>> fold.layout
        Layout(extents=(3,), sizes=(8,), strides=((1,),), purpose='F', chosen=0)
        >>> fold.leave(0)
        Traceback (most recent call last):
        gougelily.refusals.Refused: refused with 21: the operand that is to leave is not there, or the only one
        """
        served(library().gougelily_leave_session(*self.memory.lent(), int(unsigned([operand], "operand")[0])))

    @property
    def machine(self) -> Machine:
        return Machine(*self.memory.machine)

    @property
    def layout(self) -> Layout:
        """The present layout, with its purpose."""
        held, n = self.memory, self.memory.rank[0]
        rows = [held.strides[k * n : (k + 1) * n] for k in range(held.operands[0])]
        kind, chosen = held.purpose[0], held.chosen[0]
        return Layout(held.extents[:n], held.sizes[: held.operands[0]], rows, "F" if kind == 2 else "P", None if kind == 0 else chosen)

    @property
    def ranks(self) -> tuple[tuple[int, ...], ...]:
        """For each operand the ranks of the layout's axes."""
        held, n = self.memory, self.memory.rank[0]
        return tuple(tuple(held.ranks[k * MAX_RANK : k * MAX_RANK + n]) for k in range(held.operands[0]))

    @property
    def weights(self) -> tuple[int, ...]:
        """The weights of the layout's axes."""
        return tuple(self.memory.weights[: self.memory.rank[0]])

    @property
    def costs(self) -> tuple[int | None, ...]:
        """The costs of the plan's axes; an axis on which every stride is 0 has none."""
        return tuple(cost or None for cost in self.memory.costs[: self.memory.plan_counts[0]])

    @property
    def plan(self) -> Plan:
        """The plan of the present layout."""
        held, (n, operands) = self.memory, self.memory.plan_counts
        rows = tuple(tuple(held.plan_strides[k * MAX_RANK : k * MAX_RANK + n]) for k in range(operands))
        return Plan(tuple(held.plan_extents[:n]), tuple(held.blocks[:n]), rows)
