"""What the test knows of plans by itself: those of at most 1,024 cells, whole, and of any other whether its cells are those of the layout."""

from collections import Counter
from itertools import combinations_with_replacement, product
from math import prod

from rows import reach, total
from walk import ROOM, Axis

SMALL = 1_024  # "Total at most 1,024: fuse the axes as given, blocks are the full extents"
COUNTED = 4_096  # cells that are compared one by one


def joins(extent, inner, outer):
    """Whether an axis joins the one before it: for each operand, by its strides on that one and on the axis."""
    for near, far in zip(inner, outer):
        if near == far == 0:
            continue
        if extent > 2**63 - 1 or not -(2**63) <= extent * near <= 2**63 - 1 or far != extent * near:
            return False
    return True


def small_plan(layout):
    """The plan's axes of a layout of at most 1,024 cells."""
    extents = list(layout.extents)
    columns = [tuple(operand.strides[i] for operand in layout.operands) for i in range(len(extents))]
    for i in reversed(range(1, len(extents))):
        if joins(extents[i - 1], columns[i - 1], columns[i]) and extents[i - 1] * extents[i] < 2**64:
            extents[i - 1], extents[i] = extents[i - 1] * extents[i], 1
    axes = [Axis(extent, extent, strides) for extent, strides in zip(extents, columns) if extent != 1]
    return axes or [Axis(1, 1, strides) for strides in columns[:1]]


def placed(extents, columns):
    """How often each tuple of offsets occurs over all cells."""
    operands = range(len(columns[0])) if columns else ()
    steps = [[tuple(stride * i for stride in strides) for i in range(extent)] for extent, strides in zip(extents, columns)]
    return Counter(tuple(sum(step[k] for step in cell) for k in operands) for cell in product(*steps))


def moments(extents, columns):
    """What mean and covariance of the offsets over all cells are made of; each is a sum over the axes."""
    rows = list(zip(*columns))
    means = [sum(stride * (extent - 1) for stride, extent in zip(row, extents)) for row in rows]
    pairs = combinations_with_replacement(rows, 2)
    return means, [sum(a * b * (extent**2 - 1) for a, b, extent in zip(*pair, extents)) for pair in pairs]


def same_cells(layout, axes):
    """Whether the axes have the layout's cells: as many, at the same offsets. Above 4,096 cells mean and covariance of the offsets stand for them."""
    extents = [axis.extent for axis in axes]
    if prod(extents) != total(layout):
        return False
    given = layout.extents, list(zip(*(operand.strides for operand in layout.operands)))
    planned = extents, [axis.strides for axis in axes]
    measure = placed if total(layout) <= COUNTED else moments
    return measure(*given) == measure(*planned)


def may_be_long(layout):
    """Whether the output could be longer than the room if every cell were a block, each number as wide as can be."""
    widths = [len(str(-reach(layout.extents, operand.strides))) for operand in layout.operands]
    cells = len(str(total(layout)))
    block = len("B,,\n") + 2 * cells + sum(1 + width for width in widths)
    axis = len("A,63,,\n") + 2 * cells + len(layout.operands) * len(f",{-(2**63)}")
    ends = len("K,64\n") + len("Z,,\n") + 2 * cells
    return ends + len(layout.extents) * axis + total(layout) * block > ROOM
