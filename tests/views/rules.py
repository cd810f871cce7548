"""What a visit is, by the words of documents 01 and 02, on small plans: every block is listed, and a number is a place in that list."""

from itertools import product
from math import prod
from operator import mul

LEAST, MOST = -(2**63), 2**63 - 1


def blocks(extents, sizes):
    """The blocks in document 01's order: the counters of the first cell, and the length."""
    if not extents:
        return [((), 1)]
    # "A block size of 0 acts as 1, one above the extent as the extent."
    widths = [max(1, min(width, extent)) for extent, width in zip(extents, sizes)]
    # "Rank 9 up: only axis 0 is cut; the others step with axis 1 quickest."
    if len(extents) > 8:
        widths[1:] = [1] * (len(extents) - 1)
    listed = []
    # "tiles, outermost axis slowest": product runs its last factor quickest, so the axes are turned round
    for tile in product(*(range(0, extent, width) for extent, width in list(zip(extents, widths))[::-1])):
        starts = tile[::-1]
        ends = [min(start + width, extent) for start, width, extent in zip(starts, widths, extents)]
        # "inside a tile single steps on axes above 0, outermost slowest, each giving one run along axis 0"
        for inner in product(*(range(start, end) for start, end in list(zip(starts, ends))[:0:-1])):
            listed.append(((starts[0], *inner[::-1]), ends[0] - starts[0]))
    return listed


def dot(index, strides):
    return sum(map(mul, index, strides))


def span(extents, strides):
    """The least and the greatest offset from 0."""
    ends = [(extent - 1) * stride for extent, stride in zip(extents, strides)]
    return sum(end for end in ends if end < 0), sum(end for end in ends if end > 0)


def layout_refusal(extents, sizes, strides, purpose, chosen, rank, operands):
    """Rows 1 to 6: 1 and 2 of the layout and of the plan, the others of the layout."""
    if len(extents) > 64 or rank > 64:
        return 1
    if not 1 <= len(sizes) <= 8 or not 1 <= operands <= 8:
        return 2
    if len(strides) != len(extents) * len(sizes):
        return 3
    if purpose != 0 and chosen >= len(sizes):
        return 4
    if prod(extents) > 2**64 - 1:
        return 5
    rows = [strides[k * len(extents) : (k + 1) * len(extents)] for k in range(len(sizes))]
    if 0 not in extents and any(sum((e - 1) * abs(s) for e, s in zip(extents, row)) > MOST for row in rows):
        return 6
    return 0


def reached(extents, sizes, rows, ended, counters, offsets):
    """Whether some walk begun on the plan comes to the state: arrays of 64 and 8 places."""
    n, k = len(extents), len(rows)
    if any(counters[n:]) or any(offsets[k:]):
        return False
    if prod(extents) > 2**64 - 1:
        return False
    if 0 not in extents and any(sum((e - 1) * abs(s) for e, s in zip(extents, row)) > MOST for row in rows):
        return False
    here = tuple(counters[:n])
    if ended:
        if any(here):
            return False
    elif here not in {counter for counter, _ in blocks(extents, sizes)}:
        return False
    for row, offset in zip(rows, offsets):
        start, (low, high) = offset - dot(here, row), span(extents, row)
        if not LEAST <= start <= MOST or (0 not in extents and not LEAST <= start + low <= start + high <= MOST):
            return False
    return True
