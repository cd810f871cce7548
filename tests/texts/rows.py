"""The refusal table of document 01 on a layout that a text says: rows 1, 2, 4 to 6 and 13, in exact whole numbers. Row 7 is given no longer (document
02, ask 6).

Row 3 cannot apply to a text in the form, rows 8 to 11 have no input in one, 12 is the form's and 14 the listing's.
"""

from math import prod

MOST_RANK = 64
MOST_OPERANDS = 8
MOST_CELLS = 1_048_576


def total(layout):
    return prod(layout.extents)


def reach(extents, strides):
    return sum((extent - 1) * abs(stride) for extent, stride in zip(extents, strides))


def applying(layout):
    """The rows that apply, in the order in which they refuse."""
    count = len(layout.operands)
    if len(layout.extents) > MOST_RANK:
        yield 1
    if not 1 <= count <= MOST_OPERANDS:
        yield 2
    if layout.chosen is not None and layout.chosen >= count:
        yield 4
    if 0 in layout.extents:
        return  # the rows below pass
    if total(layout) > 2**64 - 1:
        yield 5
    if any(reach(layout.extents, operand.strides) > 2**63 - 1 for operand in layout.operands):
        yield 6
    if total(layout) > MOST_CELLS:
        yield 13


def wide(layout):
    """Whether a layout that no row refuses was refused by row 7: "size x (1 + reach) above 2^63 - 1"."""
    return 0 not in layout.extents and any(operand.size * (1 + reach(layout.extents, operand.strides)) > 2**63 - 1 for operand in layout.operands)


def refusal(layout):
    """The row that refuses the layout, or None."""
    return next(applying(layout), None)
