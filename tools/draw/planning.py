"""The papers' rules from a layout to the axes of its plan, and from a plan index back to the original one.

Ranks, weights, loop order and fusing are here. Block sizes are not: they are taken from walklist's lines A. Python's whole numbers are exact, so
the 64-bit limits of the rules are written out.
"""

from bisect import bisect_left
from dataclasses import dataclass
from math import prod

from reading import Malformed

SMALL = 1024  # up to this total axes are fused as given
WORD = 2**64


@dataclass
class PlanAxis:
    extent: int
    strides: list  # one for each operand
    joined: list  # the original axes that it was fused from, the quickest first


def ranks(strides):
    """1 for a stride of 0, else 1 + the count of nonzero strides of smaller size."""
    sizes = sorted(abs(t) for t in strides if t != 0)
    return [1 if s == 0 else 1 + bisect_left(sizes, abs(s)) for s in strides]


def try_weights(layout, lead, width, cap):
    """The weights for one width and cap, or None if a number passes 64 bits."""
    table = [ranks(row) for row in layout.strides]
    weights = []
    for i, extent in enumerate(layout.extents):
        weight = 0
        for k, row in enumerate(layout.strides):
            if extent <= 1 or row[i] == 0:
                continue
            shift = width * min(layout.rank - table[k][i], cap)
            if shift >= 64:
                return None
            weight += (1 << shift) * (2 ** (width + 1) if k == lead else 1)
            if weight >= WORD:
                return None
        weights.append(weight)
    return weights


def weights(layout):
    """The weights of the first try that fits: widths falling without a cap, then width 1 with caps falling."""
    lead = layout.chosen or 0
    widest = (len(layout.sizes) + 1).bit_length()
    tries = [(width, layout.rank) for width in range(widest, 0, -1)] + [(1, cap) for cap in range(63, 0, -1)]
    for width, cap in tries:
        found = try_weights(layout, lead, width, cap)
        if found is not None:
            return found
    raise Malformed("no width gives weights: more than 8 operands?")


def loop_order(layout):
    """The axes with weight falling, on equal weight extent falling, on equal extents the lower axis first (document 02, ask 9); the first is innermost."""
    by = weights(layout)
    return sorted(range(layout.rank), key=lambda axis: (-by[axis], -layout.extents[axis], axis))


def fusing_order(layout):
    """The axes in the order they are fused in: as given up to a total of 1,024, else the loop order."""
    return list(range(layout.rank)) if prod(layout.extents) <= SMALL else loop_order(layout)


def joins(extent, before, stride):
    """One operand lets an axis join the one before it, which has this extent."""
    return before == stride == 0 or (extent < 2**63 and stride == extent * before)


def fuse(axes):
    """From the last axis down, each joins the one before it if every operand lets it."""
    axes = list(axes)
    for i in range(len(axes) - 1, 0, -1):
        a, b = axes[i - 1], axes[i]
        if a.extent * b.extent < WORD and all(map(joins, [a.extent] * len(a.strides), a.strides, b.strides)):
            axes[i - 1] = PlanAxis(a.extent * b.extent, a.strides, a.joined + b.joined)
            axes[i] = PlanAxis(1, b.strides, [])
    return axes


def fused_axes(layout):
    """The layout's axes in the order they are fused in, after fusing; one that joined another has extent 1."""
    return fuse(PlanAxis(layout.extents[i], [row[i] for row in layout.strides], [i]) for i in fusing_order(layout))


def plan_axes(layout):
    """The axes of the plan, axis 0 first."""
    axes = fused_axes(layout)
    kept = [axis for axis in axes if axis.extent != 1]
    if not kept and axes:
        return [PlanAxis(1, axes[0].strides, [])]
    return kept


def original_index(layout, axes, counters):
    """The original index of a plan index: each fused axis is taken apart again, dropped axes have 0."""
    index = [0] * layout.rank
    for axis, counter in zip(axes, counters):
        for i in axis.joined:
            counter, index[i] = divmod(counter, layout.extents[i])
    return tuple(index)


def checked_axes(layout, listing):
    """The plan's axes by the rules above, which must be those that walklist printed."""
    axes = plan_axes(layout)
    if len(axes) != len(listing.axes):
        raise Malformed(f"the listing has {len(listing.axes)} axes, by the rules the plan of this layout has {len(axes)}")
    for number, (axis, listed) in enumerate(zip(axes, listing.axes)):
        for what in ("extent", "strides"):
            due, got = getattr(axis, what), getattr(listed, what)
            if due != got:
                raise Malformed(f"line A,{number}: {what} {got}, by the rules {due}; is this the listing of another layout?")
    return axes
