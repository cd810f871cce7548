"""Document 02's rules for a copy (ask 3), written from its words: what it is refused for, and what the destination holds afterwards.

Nothing of the library is used. A call is extents, sizes, strides (operand by operand), the machine record, starts, and two buffers.
"""

from itertools import product
from math import prod

LEAST, GREATEST = -(2**63), 2**63 - 1


def indices(extents):
    return () if 0 in extents else product(*map(range, extents))


def row(strides, rank, k):
    return strides[k * rank : k * rank + rank]


def ends(extents, strides, start):
    """The least and the greatest offset."""
    ways = [(extent - 1) * stride for extent, stride in zip(extents, strides)]
    return start + sum(way for way in ways if way < 0), start + sum(way for way in ways if way > 0)


def offset(index, strides, start):
    return start + sum(i * stride for i, stride in zip(index, strides))


def allowed(record):
    """Ask 13: line (a power of two, 32 to 256), cache (4,096 to 1,048,576), way (a multiple of the line, up to the cache), live (1 to 16)."""
    line, cache, way, live = record
    return line in (32, 64, 128, 256) and 4096 <= cache <= 1048576 and way % line == 0 and line <= way <= cache and 1 <= live <= 16


def mark(extents, strides):
    """Ask 2: "no", "yes" or "undecided"."""
    if 0 in extents:
        return "no"
    if prod(extents) <= 4096:
        offsets = [offset(index, strides, 0) for index in indices(extents)]
        return "yes" if len(set(offsets)) < len(offsets) else "no"
    ways = sorted((abs(stride), extent) for extent, stride in zip(extents, strides) if extent > 1)
    if ways and ways[0][0] == 0:
        return "yes"
    reach = 0
    for size, extent in ways:
        if size <= reach:
            return "undecided"
        reach += (extent - 1) * size
    return "no"


def leaves(extents, strides, start, size, length):
    """Whether some byte of some cell is outside a buffer of this length. The cells between the least and the greatest offset lie between."""
    low, high = ends(extents, strides, start)
    return low < 0 or (high + 1) * size > length


def refusal(extents, sizes, strides, record, starts, to, from_):
    """The number that the call is refused with, or 0. `to` and `from_` are the lengths of the buffers."""
    rank, operands, empty = len(extents), len(sizes), 0 in extents
    if rank > 64:
        return 1
    if operands == 0 or operands > 8:
        return 2
    if len(strides) != rank * operands:
        return 3
    if not allowed(record):
        return 24
    if not empty and prod(extents) > 2**64 - 1:
        return 5
    rows = [row(strides, rank, k) for k in range(operands)]
    if not empty and any(sum((e - 1) * abs(s) for e, s in zip(extents, r)) > GREATEST for r in rows):
        return 6
    if len(starts) != operands:
        return 8
    if not empty and any(not LEAST <= end <= GREATEST for r, start in zip(rows, starts) for end in ends(extents, r, start)):
        return 9
    if operands != 2 or sizes[0] != sizes[1] or not 1 <= sizes[0] <= 16:
        return 16
    if empty:
        return 0
    if leaves(extents, rows[0], starts[0], sizes[0], to) or leaves(extents, rows[1], starts[1], sizes[1], from_):
        return 17
    return 0 if mark(extents, rows[0]) == "no" else 18


def afterwards(extents, sizes, strides, starts, destination, source):
    """The destination after a copy that is not refused, byte for byte."""
    held, size, rank = bytearray(destination), sizes[0], len(extents)
    to, of = row(strides, rank, 0), row(strides, rank, 1)
    for index in indices(extents):
        there, here = offset(index, to, starts[0]) * size, offset(index, of, starts[1]) * size
        held[there : there + size] = source[here : here + size]
    return held
