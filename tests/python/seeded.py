"""Where the module is, and seeded layouts for its tests."""

import sys
from math import prod
from pathlib import Path

ROOT = Path(__file__).resolve().parents[2]
sys.path.insert(0, str(ROOT / "python"))

from gougelily import Layout, Machine  # noqa: E402

LAYOUTS = ROOT / "examples" / "layouts"
MACHINES = Machine(64, 32_768, 4_096, 6), Machine(64, 49_152, 4_096, 9), Machine(32, 4_096, 512, 2), Machine(128, 16_384, 128, 1)


def extents_of(rng, most):
    """Extents with at most so many cells, at least one axis."""
    extents = [rng.choice((1, 2, 3, 4, 5, 8, 16, 33, 64)) for _ in range(rng.choice((1, 2, 2, 3, 3, 4, 5, 10)))]
    while prod(extents) > most:
        extents[extents.index(max(extents))] -= 1
    return extents


def row_of(rng, extents):
    """Strides of an operand: dense or padded in some order of axes, sometimes with a broadcast or a reversed axis."""
    axes, step, row = list(range(len(extents))), rng.choice((1, 1, 1, 2, 128)), [0] * len(extents)
    if rng.random() < 0.7:
        rng.shuffle(axes)
    for axis in axes:
        row[axis] = step
        step = max(step * extents[axis] + rng.choice((0, 0, 0, 3, 8)), rng.choice((1, 1, 128, 512)))
    if rng.random() < 0.25:
        row[rng.randrange(len(row))] = 0
    if rng.random() < 0.25:
        row[rng.randrange(len(row))] *= -1
    return row


def layout(rng, most=20_000):
    """A layout that is planned, with at most so many cells."""
    extents = extents_of(rng, most)
    sizes = [rng.choice((0, 1, 4, 8, 8, 8, 32, 64)) for _ in range(rng.choice((1, 2, 2, 2, 2, 3, 8)))]
    strides = [row_of(rng, extents) for _ in sizes]
    purpose = rng.choice("PPPF")
    chosen = None if purpose == "P" and rng.random() < 0.3 else rng.randrange(len(sizes))
    return Layout(extents, sizes, strides, purpose, chosen)
