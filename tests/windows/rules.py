"""Windows from document 02's words, with whole numbers of any size: what a window of a layout is, or the number it is refused with."""

from math import prod

MAX_I, MAX_U = 2**63 - 1, 2**64 - 1


def lies(extent, first, count, step):
    """Whether every index first + step * i lies in the axis; of none, whether the first is at most the extent."""
    if count == 0:
        return first <= extent
    indices = range(first, first + step * count, step)
    # step by step where that takes no time; between the first and the last one lie the others
    return all(0 <= i < extent for i in (indices if count <= 64 else (indices[0], indices[-1])))


def window(extents, sizes, strides, firsts, counts, steps):
    """A number, or the window's strides, flat, and its shifts."""
    rank, operands = len(extents), len(sizes)
    if rank > 64:
        return 1
    if not 1 <= operands <= 8:
        return 2
    if len(strides) != rank * operands:
        return 3
    rows = [strides[k * rank : k * rank + rank] for k in range(operands)]
    if 0 not in extents:
        if prod(extents) > MAX_U:
            return 5
        if any(sum((e - 1) * abs(s) for e, s in zip(extents, row)) > MAX_I for row in rows):
            return 6
    if any(len(row) != rank for row in (firsts, counts, steps)) or 0 in steps:
        return 15
    if not all(map(lies, extents, firsts, counts, steps)):
        return 15
    new = [step * s if count >= 2 else s for row in rows for s, count, step in zip(row, counts, steps)]
    if any(not -MAX_I - 1 <= s <= MAX_I for s in new):
        return 15
    return new, [0 if 0 in counts else sum(f * s for f, s in zip(firsts, row)) for row in rows]
