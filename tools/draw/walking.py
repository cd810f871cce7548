"""The walk over a plan: its blocks in order, and the cells that they meet, each with its original index.

The blocks follow from the extents and block sizes of walklist's lines A by document 01's rule. They are compared with the lines B, so that a
picture never shows an order that walklist did not print.
"""

from dataclasses import dataclass
from itertools import product
from math import prod

from planning import checked_axes, original_index
from reading import Malformed

TILED_RANKS = 8  # from rank 9 only axis 0 is cut
MOST_CELLS = 16384  # more cannot be told apart in a picture


@dataclass
class Cell:
    index: tuple  # the original index
    visit: int  # the number of the visit, from 0
    block: int  # the number of its block, as on the lines B
    tile: int  # the number of its tile
    offsets: list  # one for each operand


def effective_blocks(axes):
    """The block sizes that the walk goes by."""
    sizes = [max(1, min(axis.block, axis.extent)) for axis in axes]
    return sizes if len(axes) <= TILED_RANKS else sizes[:1] + [1] * (len(axes) - 1)


def walk_blocks(axes):
    """The blocks of the walk: the number of the tile, the counters of the first cell, the length."""
    if any(axis.extent == 0 for axis in axes):
        return
    if not axes:
        yield 0, (), 1
        return
    sizes = effective_blocks(axes)
    starts = [range(0, axis.extent, size) for axis, size in zip(axes, sizes)]
    # product() turns its last list quickest, and the outermost axis is slowest: so the lists go in reversed
    for tile, start in enumerate(product(*reversed(starts))):
        start = start[::-1]
        ends = [min(s + size, axis.extent) for s, size, axis in zip(start, sizes, axes)]
        steps = [range(s, end) for s, end in zip(start[1:], ends[1:])]
        for inner in product(*reversed(steps)):
            yield tile, (start[0], *inner[::-1]), ends[0] - start[0]


def offsets_at(axes, counters, operands):
    return [sum(count * axis.strides[k] for count, axis in zip(counters, axes)) for k in range(operands)]


def cells(layout, listing):
    """Every cell in the order of visits. The listing must be the one of the layout."""
    axes = checked_axes(layout, listing)
    total = prod(layout.extents)
    if total > MOST_CELLS:
        raise Malformed(f"{total} cells, {MOST_CELLS} are the most that are drawn")
    operands = len(layout.sizes)
    walked = list(walk_blocks(listing.axes))
    if len(walked) != len(listing.blocks):
        raise Malformed(f"{len(listing.blocks)} lines B, but the walk of this plan has {len(walked)} blocks")
    met = []
    for number, ((tile, counters, length), listed) in enumerate(zip(walked, listing.blocks)):
        due = offsets_at(axes, counters, operands)
        if (length, due) != (listed.length, listed.offsets):
            raise Malformed(f"line B,{number}: length {listed.length}, offsets {listed.offsets}; by the rules {length}, {due}")
        for k in range(length):
            place = (counters[0] + k, *counters[1:]) if counters else ()
            met.append(Cell(original_index(layout, axes, place), len(met), number, tile, offsets_at(axes, place, operands)))
    return met
