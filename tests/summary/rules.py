"""Summaries from document 02's words, with Python's own doubles and whole numbers of any size: what cells in an order make, and what is refused."""

from math import fsum, isfinite, isnan, prod

LINES = (32, 64, 128, 256)


def summary(cells):
    """Sum, least, greatest, count, not-a-number cells, and whether extremes exist, of cells in order."""
    total, least, greatest, nans, extremes = 0.0, 0.0, 0.0, 0, 0
    for cell in cells:
        total += cell
        if isnan(cell):
            nans += 1
        elif not extremes:
            least, greatest, extremes = cell, cell, 1
        else:
            least = cell if cell < least else least
            greatest = cell if cell > greatest else greatest
    return total, least, greatest, len(cells), nans, extremes


def exact(cells):
    """The exact sum, where it is promised: whole numbers whose sizes total at most 2^53. Else None."""
    if all(isfinite(cell) and cell == int(cell) for cell in cells) and sum(abs(int(cell)) for cell in cells) <= 2**53:
        return fsum(cells)
    return None


def allowed(line, cache, way, live):
    return line in LINES and 4096 <= cache <= 1048576 and way % line == 0 and line <= way <= cache and 1 <= live <= 16


def refusal(extents, strides, record, start, count):
    """The number that a call is refused with; None if it is served."""
    if len(extents) > 64:
        return 1
    if len(strides) != len(extents):
        return 3
    if not allowed(*record):
        return 24
    if 0 in extents:
        return None
    if prod(extents) > 2**64 - 1:
        return 5
    ways = [(extent - 1) * stride for extent, stride in zip(extents, strides)]
    if sum(map(abs, ways)) > 2**63 - 1:
        return 6
    low, high = start + sum(way for way in ways if way < 0), start + sum(way for way in ways if way > 0)
    if low < -(2**63) or high > 2**63 - 1:
        return 9
    if low < 0 or high >= count:
        return 22
    return None
