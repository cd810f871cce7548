"""Regions, costs and the cutting rule of document 01, "The plan", with the record's line and cache for 64 and 32,768.

Axes of a plan come as lists: the extents or blocks, and for each operand a row with one stride for each axis.
"""

from itertools import islice
from math import prod

STEPS = 200  # single steps of the second phase; what is left then is worked out in one jump


def byte_strides(strides, size):
    """The byte strides of an operand. "A byte stride is stride size x element size, never negative." """
    return [abs(stride) * size for stride in strides]


def region(extents, rows, line):
    """The region of some axes, from the byte strides of each operand.

    "Region of an operand: 64 x (floor(C / 64) + 1) x M. C sums (extent - 1) x byte stride over axes whose byte stride is below 64; M is the product
    of the other extents. Regions add over operands."
    """
    whole = 0
    for row in rows:
        c = sum((extent - 1) * stride for extent, stride in zip(extents, row) if stride < line)
        m = prod(extent for extent, stride in zip(extents, row) if stride >= line)
        whole += line * (c // line + 1) * m
    return whole


def costs(rows):
    """The cost of each axis, None where it has none.

    "Cost is 1 if some operand's stride is 0, else twice the least stride size, at most 2^63 - 1."; in 02 "An axis on which every stride is 0 [...] The
    cost of such an axis shall say that it has none"
    """

    def cost(column):
        if not any(column):
            return None
        return 1 if 0 in column else min(2 * min(map(abs, column)), 2**63 - 1)

    return [cost(column) for column in zip(*rows)]


def ranks(strides):
    """The ranks of an operand's axes. "1 if its stride is 0, else 1 + the count of nonzero strides of smaller size" """
    return [1 if s == 0 else 1 + sum(0 < abs(t) < abs(s) for t in strides) for s in strides]


def plan_ranks(strides, sizes):
    """The ranks that cutting looks at.

    "ranks are those of the plan's axes, taken once over all of them and not afresh (an operand of size 0 has ranks all 1)"
    """
    return [ranks(row) if size else [1] * len(row) for row, size in zip(strides, sizes)]


def greatest(blocks, cost):
    """The block to shorten.

    "Score is (block - 1) x cost over blocks above 1; the last wins ties."; in 02 "cutting shall choose among the others", those with a cost.
    """
    weighed = (i for i, block in enumerate(blocks) if block > 1 and cost[i] is not None)
    return max(weighed, key=lambda i: ((blocks[i] - 1) * cost[i], i))


def halve(blocks, cost, measure, cache):
    """The first phase, a step at a time.

    "while the region is at least 65,536, halve (rounding up) the block with the greatest score"; in 02 "halving stops below twice the cache".
    """
    while (now := measure(blocks)) >= 2 * cache:
        i = greatest(blocks, cost)
        blocks[i] = (blocks[i] + 1) // 2
        yield "halved from just twice the cache" if now == 2 * cache else "halved"


def lessen(blocks, cost, measure, cache):
    """The second phase, a step at a time. "then while it is above 32,768 take 1 off the one with the greatest score, sought anew each time" """
    while measure(blocks) > cache:
        blocks[greatest(blocks, cost)] -= 1
        yield "1 taken off"


def jump(blocks, cost, measure, cache):
    """Takes off blocks that are too much what single steps of the second phase would, but for the last one on each axis.

    A step shortens a block whose score is the greatest. So when every score has come down to some level, a block is the longest with a score of at
    most that, or has never been touched. The least level at which the blocks are still too much is found by halving (at 0 all that have a cost are 1,
    and fit); from there one step an axis is left at most.
    """

    def at(level):
        return [block if each is None else min(block, level // each + 1) for block, each in zip(blocks, cost)]

    fits, over = 0, max((block - 1) * each for block, each in zip(blocks, cost) if each is not None)
    while over - fits > 1:
        middle = (fits + over) // 2
        if measure(at(middle)) > cache:
            over = middle
        else:
            fits = middle
    blocks[:] = at(over)


def shorten(blocks, rows, cost, machine, met):
    """Shortens the blocks of a tail whose first axis is not kept.

    "If the least byte stride in the tail is above 32,768, the tail's blocks become 1. Otherwise [...]"
    """
    least = min(min(row) for row in rows)
    if least > machine.cache:
        met.add("tail to 1")
        return [1] * len(blocks)
    if least == machine.cache:
        met.add("least byte stride is the cache")
    blocks = list(blocks)

    def measure(tried):
        return region(tried, rows, machine.line)

    if None in cost:
        met.add("an axis that nobody moves along")
    rule = blocks, cost, measure, machine.cache
    met.update(halve(*rule))
    met.update(islice(lessen(*rule), STEPS))
    if measure(blocks) > machine.cache:
        met.add("1 taken off, in a jump")
        jump(*rule)
        met.update(lessen(*rule))
    return blocks


def cut(axes, machine, met):
    """The blocks of a plan's axes by the cutting rule.

    "Cutting looks at a tail of axes, at first all. It ends if the tail is empty or its region is at most 32,768. If every operand's first rank equals
    the least rank that any operand has in the tail, the first axis is kept whole and the rule starts over on the rest"
    """
    ranks, cost = plan_ranks(axes.strides, axes.sizes), costs(axes.strides)
    for first in range(len(axes.extents)):
        kept, tail = axes.extents[:first], axes.extents[first:]
        rows = [row[first:] for row in axes.bytes]
        size = region(tail, rows, machine.line)
        if size <= machine.cache:
            met.add("tail just fits" if size == machine.cache else "tail fits")
            return axes.extents
        least = min(min(row[first:]) for row in ranks)
        if any(row[first] != least for row in ranks):
            return kept + shorten(tail, rows, cost[first:], machine, met)
        met.add("first axis kept")
    met.add("tail empty")
    return axes.extents
