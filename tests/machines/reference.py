"""Planning with a machine record, from the words of documents 01 and 02, in exact whole numbers.

It is made to judge the port where no Rust decides, so it shares nothing with either. A rule's sentence is quoted at its head; where this says 64,
32,768, 4,096 or 6, the record's number stands here. `met` collects the names of the branches that are met.
"""

from dataclasses import dataclass

from machine import faults, limits_of
from neighbours import SMALL, Axis, applying, cutting, declined, fit, planning, reading, total, wide

ORDER = 1, 2, 3, 4, 24, 5, 6


@dataclass
class Axes:
    """The axes of a plan before they have blocks."""

    extents: list
    strides: list  # one row for each operand
    sizes: list
    bytes: list  # the byte strides, one row for each operand


def refusal(layout, machine, met):
    """The row that refuses, or None.

    In 01 "the least number wins", in 02 "24: a record outside these bounds, only from entries that plan; after 4, and due at a zero extent too".
    Row 3 is "stride count not rank x operands"; the other rows are those of tests/texts.
    """
    due = set(applying(layout))
    if sum(len(operand.strides) for operand in layout.operands) != len(layout.extents) * len(layout.operands):
        due.add(3)
    outside = list(faults(machine))
    if outside:
        due.add(24)
    row = next((row for row in ORDER if row in due), None)
    if row == 24:
        met.update(f"{fault}, and nothing else" for fault in outside if len(outside) == 1)
        met.update(f"24 before {later}" for later in (5, 6) if later in due)
        if 0 in layout.extents:
            met.add("24 at a zero extent")
    elif row is not None and outside:
        met.add(f"{row} before 24")
    if row is not None:
        met.add(f"row {row}")
    return row


def for_axes(layout):
    """The layout as tools/draw has it, whose ranks, weights, order and fusing are taken."""
    sizes, strides = zip(*((operand.size, operand.strides) for operand in layout.operands))
    return reading.Layout(layout.purpose, layout.chosen, layout.extents, sizes, strides)


def for_blocks(layout):
    """The axes of the layout's plan, from which the blocks follow."""
    sizes = [operand.size for operand in layout.operands]
    found = planning.plan_axes(for_axes(layout))
    rows = [[axis.strides[k] for axis in found] for k in range(len(sizes))]
    return Axes([axis.extent for axis in found], rows, sizes, [cutting.byte_strides(row, size) for row, size in zip(rows, sizes)])


def grows(strides, size):
    """Whether an operand has "size above 0, a nonzero first stride and strictly growing stride sizes"."""
    lengths = [abs(stride) for stride in strides]
    return size > 0 and lengths[0] != 0 and all(inner < outer for inner, outer in zip(lengths, lengths[1:]))


def blocks_of(layout, axes, machine, met):
    """The blocks of the plan.

    "Total at most 1,024: fuse the axes as given, blocks are the full extents. Otherwise order, fuse, then cut." "No cut if rank is 0, the region is
    at most 32,768, or every operand has size above 0, a nonzero first stride and strictly growing stride sizes." "P with a chosen operand and
    exactly two operands: if the cutting rule was run (even if it shortened nothing) and tiles were not declined, fit."
    """
    if not layout.extents:
        met.add("rank 0")
    if total(layout) <= SMALL:
        met.add("total at most 1,024")
        return axes.extents
    size = cutting.region(axes.extents, axes.bytes, machine.line)
    if size <= machine.cache:
        met.add("region just fits" if size == machine.cache else "region fits")
        return axes.extents
    if all(map(grows, axes.strides, axes.sizes)):
        met.add("all grow")
        return axes.extents
    if size >= 2**64:
        met.add("a region beyond 64 bits")
    two_words = any(stride >= 2**64 for row in axes.bytes for stride in row)
    if two_words:
        met.add("a byte stride of two words")
    blocks = cutting.cut(axes, machine, met)
    if declined(axes, blocks, machine.line, met):
        if two_words:
            met.add("a byte stride of two words, declined")
        return axes.extents
    other = "a fold" if layout.purpose == "F" else "none chosen" if layout.chosen is None else "not two operands" if len(layout.operands) != 2 else ""
    if other:
        met.add(f"not fitted: {other}")
        return blocks
    fitted = fit(axes, blocks, layout.chosen, machine, met)
    if fitted != blocks and two_words:
        met.add("a byte stride of two words, fitted")
    if fitted != blocks:
        met.add("fit shortens" if blocks != axes.extents else "fit shortens what cutting left whole")
    return fitted


def plan(layout, machine, met):
    """The plan's axes, or the number of the row that refuses."""
    row = refusal(layout, machine, met)
    if row is not None:
        return row
    axes = for_blocks(layout)
    met.update(limits_of(machine))
    if wide(layout):
        met.add("a span that row 7 refused")
    return [Axis(*axis) for axis in zip(axes.extents, blocks_of(layout, axes, machine, met), zip(*axes.strides))]
