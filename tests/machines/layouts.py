"""Seeded layouts, made for a record so that every branch of planning is met.

Their regions are about as large as its cache or larger, and their strides meet multiples of its line and way.
"""

from math import gcd

from neighbours import Layout, Operand, reach
from records import spread

SIZES = 0, 1, 1, 2, 4, 4, 8, 8, 8, 8, 16, 24, 32, 3, 64, 100, 128, 256
RANKS = 1, 2, 2, 2, 3, 3, 3, 3, 4, 4, 5, 6, 8, 10
COUNTS = 1, 2, 2, 2, 2, 2, 2, 2, 2, 3, 4, 8
PURPOSES = "P-", "P", "P", "P", "P", "F"
WIDEST = 2**62


def elements(size, many):
    """So many elements of a size that their bytes are a multiple of a number."""
    return many // gcd(many, size) if size else 1


def up(number, unit):
    return -(-number // unit) * unit


def shape(rng, rank, cells):
    """Extents with about so many cells."""
    shares = [rng.random() + 0.1 for _ in range(rank)]
    extents = [max(2, round(cells ** (share / sum(shares)))) for share in shares]
    if rng.random() < 0.4:
        extents = [1 << (extent - 1).bit_length() for extent in extents]
    elif rng.random() < 0.2:
        extents = [up(extent, 8) for extent in extents]
    return extents


def order(rng, axes):
    """The axes of an operand from the quickest to the slowest: as given, the reverse, with the quickest of those given, or any."""
    kind = rng.randrange(4)
    if kind == 0:
        return axes
    if kind == 1:
        return axes[::-1]
    keep = axes[: kind - 2 or rng.randint(0, 2)]
    others = [axis for axis in axes if axis not in keep]
    rng.shuffle(others)
    return keep + others


def laid(rng, extents, axes, size, machine):
    """The strides of an operand that lies in this order of axes, dense or padded to lines, ways, or farther than the cache."""
    by_line, by_way, far = elements(size, machine.line), elements(size, machine.way), machine.cache // max(size, 1) + rng.randint(0, 1)
    step, strides = rng.choice((1, 1, 1, 1, 1, 2, 3, by_line, by_way, far)), [0] * len(extents)
    padding = rng.choice(("none", "none", "line", "line", "way", "way", "some", "far"))
    for axis in axes:
        strides[axis] = min(step, WIDEST)
        step *= max(1, extents[axis])
        if padding == "line":
            step = up(step, by_line) + rng.choice((0, 0, 0, by_line))
        elif padding == "way" and rng.random() < 0.8:
            step = up(step, by_way)
        elif padding == "some":
            step += rng.randint(0, 9)
        elif padding == "far":
            step = max(step, far)
    return strides


def disturbed(rng, strides, size, machine):
    """Broadcasts, ties, strides of other sizes, negative strides."""
    strides = list(strides)
    if rng.random() < 0.2:
        strides = [0 if rng.random() < 0.35 else stride for stride in strides]
    if rng.random() < 0.15:
        aligned = elements(size, machine.line), elements(size, machine.way), machine.cache // max(size, 1)
        strides[rng.randrange(len(strides))] = rng.choice((1, 2, *aligned, rng.choice(strides), rng.randint(0, 10_000)))
    if rng.random() < 0.2:
        strides = [-stride if rng.random() < 0.5 else stride for stride in strides]
    return strides


def purposed(rng, extents, operands):
    purpose = rng.choice(PURPOSES)
    chosen = None if purpose == "P-" else rng.randrange(len(operands))
    return Layout(purpose[0], chosen, tuple(extents), tuple(operands))


def operands_of(rng, extents, machine, sizes):
    axes = list(range(len(extents)))
    if rng.random() < 0.4:
        rng.shuffle(axes)
    operands = []
    for size in sizes:
        strides = laid(rng, extents, order(rng, axes), size, machine)
        operands.append(Operand(size, tuple(disturbed(rng, strides, size, machine) if strides else strides)))
    return operands


def sizes_of(rng):
    count, size = rng.choice(COUNTS), rng.choice(SIZES)
    return [size if rng.random() < 0.7 else rng.choice(SIZES) for _ in range(count)]


def large(rng, machine):
    """About the cache, or many times as large."""
    sizes = sizes_of(rng)
    cells = max(1_025, int(machine.cache * 2 ** rng.uniform(-3, 6)) // max(1, *sizes))
    extents = shape(rng, rng.choice(RANKS), cells)
    return purposed(rng, extents, operands_of(rng, extents, machine, sizes))


def crowded(rng, machine):
    """Two operands, one of them with byte strides that are multiples of the way: lines that fall into the same sets."""
    size = rng.choice((1, 2, 4, 8, 8, 8, 16))
    extents = shape(rng, rng.randint(2, 5), machine.cache // size * rng.choice((1, 2, 8, 60)))
    axes = list(range(len(extents)))
    far, by_way = [], elements(size, machine.way)
    for axis in axes:
        far.append(by_way * rng.choice((1, 1, 2, 3, 2**axis, 1_000)))
    far[rng.randrange(len(axes))] = rng.choice((1, 1, 1, 0, elements(size, machine.line)))
    near = [0 if rng.random() < 0.2 else stride for stride in laid(rng, extents, order(rng, axes), size, machine)]
    operands = [Operand(size, tuple(near)), Operand(size, tuple(far))]
    rng.shuffle(operands)
    return Layout("P", rng.randrange(2), tuple(extents), tuple(operands))


def huge(rng, machine):
    """One or two long axes with small strides, often 0: regions beyond 64 bits, single steps without end. Some are refused."""
    extents = shape(rng, rng.randint(1, 3), 2_000) + [spread(rng, 2**16, 2 ** rng.choice((24, 40, 60))) for _ in range(rng.choice((1, 1, 2)))]
    rng.shuffle(extents)
    operands = []
    for operand in operands_of(rng, extents, machine, sizes_of(rng)):
        near = 0, 0, 0, 1, elements(operand.size, machine.line), elements(operand.size, machine.way)
        long = [extent >= 2**16 and rng.random() < 0.8 for extent in extents]
        strides = [rng.choice(near) if is_long else stride for is_long, stride in zip(long, operand.strides)]
        operands.append(Operand(operand.size, tuple(strides)))
    return purposed(rng, extents, operands)


def broadcast(rng, machine):
    """A large layout with an axis more, which nobody moves along, or only operands of size 0."""
    good = large(rng, machine)
    place, alone = rng.randint(0, len(good.extents)), rng.choice((0, 0, 0, 1, -7))
    length = rng.choice((2, 9, 100, 1_000, 5_000, 2**20, 2**30))

    def with_one_more(values, more):
        return values[:place] + (more,) + values[place:]

    operands = [Operand(operand.size, with_one_more(operand.strides, 0 if operand.size else alone)) for operand in good.operands]
    return Layout(good.purpose, good.chosen, with_one_more(good.extents, length), tuple(operands))


def high(rng, machine):
    """Many axes."""
    extents = [rng.choice((1, 1, 2, 2, 3, 4)) for _ in range(rng.choice((9, 10, 11, 12, 16, 24)))]
    if rng.random() < 0.1:
        extents += [1] * rng.randint(30, 40)
        rng.shuffle(extents)
    return purposed(rng, extents, operands_of(rng, extents, machine, sizes_of(rng)))


def small(rng, machine):
    """At most about 1,024 cells, also none; rank 0."""
    extents = shape(rng, rng.randint(0, 6), rng.choice((1, 30, 1_024)))
    if extents and rng.random() < 0.3:
        extents[rng.randrange(len(extents))] = rng.choice((0, 1))
    return purposed(rng, extents, operands_of(rng, extents, machine, sizes_of(rng)))


def damaged(rng, machine):
    """Counts and numbers that a row refuses, or just does not."""
    good = rng.choice((large, small))(rng, machine)
    extents, operands, chosen = list(good.extents), list(good.operands), good.chosen
    kind = rng.randrange(6)
    if kind == 0:
        longer = 65 - rng.randint(0, 1) - len(extents)
        extents += [1] * longer
        operands = [Operand(operand.size, operand.strides + (5,) * longer) for operand in operands]
    elif kind == 1:
        operands = rng.choice(([], operands[:1] * 8, operands[:1] * 9, operands[:1] * 20))
    elif kind == 2:
        size, strides = operands[-1].size, operands[-1].strides
        operands[-1] = Operand(size, rng.choice((strides[:-1], strides + (1,), (), strides + strides)))
    elif kind == 3:
        chosen = rng.choice((len(operands) - 1, len(operands), len(operands) + 1, 2**64 - 1))
    elif kind == 4:
        extents += [rng.choice((2**31, 2**32, 2**33)), 2**31]
        operands = [Operand(operand.size, operand.strides + rng.choice(((0, 0), (1, 0), (0, 5)))) for operand in operands]
    else:
        size = operands[-1].size
        operands[-1] = Operand(rng.choice((0, 1, size, 2**62)), tuple(stride * rng.choice((1, 2**30, -(2**44))) for stride in operands[-1].strides))
        if any(abs(stride) >= 2**63 for stride in operands[-1].strides):
            return good
    return Layout(good.purpose, chosen, tuple(extents), tuple(operands))


def wide(rng, machine):
    """Sizes of any 64 bits, and strides up to row 6's limit: byte strides of one word and of two."""
    told = rng.choice((large, crowded, crowded, high))(rng, machine)
    if rng.random() < 0.2:  # whole lines, whatever the strides: tiles may be declined
        operands = [Operand(2 ** rng.randint(50, 63), operand.strides) for operand in told.operands]
        return Layout(told.purpose, told.chosen, told.extents, tuple(operands))
    operands = []
    for operand in told.operands:
        size, strides = operand.size, list(operand.strides)
        if rng.random() < 0.5:
            times = stretch(rng, WIDEST // max(1, reach(told.extents, strides)))
            strides = [stride * times for stride in strides] if rng.random() < 0.3 else strides
            for axis, extent in enumerate(told.extents):
                most = WIDEST // len(strides) // max(1, extent * abs(strides[axis]))
                if rng.random() < 0.4 and most:
                    strides[axis] *= stretch(rng, most)
        if rng.random() < 0.4:
            size = rng.choice((2 ** rng.randint(0, 63), rng.choice((1, 3, 7, 63)) << rng.randint(0, 58), 2**64 - rng.randint(1, 99), rng.getrandbits(64)))
        operands.append(Operand(size, tuple(max(-WIDEST, min(stride, WIDEST)) for stride in strides)))
    return Layout(told.purpose, told.chosen, told.extents, tuple(operands))


def stretch(rng, most):
    """A number of 1 to `most`: a power of two, or any."""
    bits = max(most, 1).bit_length() - 1
    return rng.choice((1 << rng.randint(0, bits), 1 << rng.randint(max(0, bits - 9), bits), rng.randint(1, max(1, most))))


def layout(rng, machine):
    draw = rng.choices((large, crowded, huge, broadcast, high, small, damaged, wide), (56, 16, 6, 6, 4, 4, 4, 10))[0]
    return draw(rng, machine)
