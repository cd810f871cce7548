"""The lines of the L1 cache that the fit counts (document 01, "The plan"), with the fixed line, way and live lines.

An operand counts if its size is not 0 and its first axis with byte stride below a line exists and is not axis 0. Along that axis the walk comes
back to the same lines; in between it goes over the axes before it. Those whose byte stride is a multiple of the way bring their lines into one set.
"""

from dataclasses import dataclass
from itertools import product
from math import prod

LINE, WAY, LIVE = 64, 4096, 6
SETS = WAY // LINE


@dataclass
class Counted:
    """An operand that counts."""

    operand: int
    reuse: int  # its first axis with byte stride below a line
    entering: list  # the axes of its product
    bytes: list  # its byte strides


def counted(axes, sizes):
    """The operands that count. axes have strides, one for each operand."""
    found = []
    for operand, size in enumerate(sizes):
        row = [abs(axis.strides[operand]) * size for axis in axes]
        below = [i for i, stride in enumerate(row) if stride < LINE]
        if size and below and below[0]:
            found.append(Counted(operand, below[0], [i for i in range(below[0]) if row[i] and row[i] % WAY == 0], row))
    return found


def load(counting, blocks):
    """The sum of the products of blocks."""
    return sum(prod(blocks[i] for i in one.entering) for one in counting)


def lines_by_set(counting, blocks):
    """For each set the lines that one tile brings into it, as pairs of operand and line. An operand's indices run over the axes of its product and
    the one along which its lines are met again, and are 0 elsewhere; both operands begin where a way does."""
    sets = {}
    for one in counting:
        moving = [*one.entering, one.reuse]
        met = {sum(i * one.bytes[axis] for i, axis in zip(index, moving)) // LINE for index in product(*(range(blocks[axis]) for axis in moving))}
        for line in sorted(met):
            sets.setdefault(line % SETS, []).append((one.operand, line))
    return sets
