"""The blocks of a walk and the lines that are printed for a plan, from the words of document 01, "Blocks of the walk" and "The walklist text"."""

import re
from dataclasses import dataclass
from itertools import product

ROOM = 65_536
CUT_RANK = 8  # up to here every axis is cut
AXIS = re.compile(rb"A((?:,(?:0|-?[1-9][0-9]*))+)")
RANK = re.compile(rb"K,(0|[1-9][0-9]?)")


class NotAPlan(Exception):
    """The first lines of an output tell no plan; the words say why."""


@dataclass(frozen=True)
class Axis:
    """An axis of a plan."""

    extent: int
    block: int
    strides: tuple  # one for each operand


def starts(axis):
    """Where the axis's tiles start."""
    return range(0, axis.extent, min(max(axis.block, 1), axis.extent))


def tile(axis, start):
    """The indices of one tile."""
    return range(start, min(start + max(axis.block, 1), axis.extent))


def runs(axes):
    """The blocks in the order of the walk: the plan index of the first cell, and the length."""
    if any(axis.extent == 0 for axis in axes):
        return
    if not axes:
        yield (), 1
        return
    first, *others = axes
    outermost = others[::-1]  # product's first range is its slowest
    if len(axes) <= CUT_RANK:
        for *corner, start in product(*map(starts, outermost), starts(first)):
            for steps in product(*map(tile, outermost, corner)):
                yield (start, *steps[::-1]), len(tile(first, start))
    else:
        for *steps, start in product(*(range(axis.extent) for axis in outermost), starts(first)):
            yield (start, *steps[::-1]), len(tile(first, start))


def offsets(axes, operands, index):
    """Where each operand is at a plan index, from starts 0."""
    return [sum(axis.strides[k] * i for axis, i in zip(axes, index)) for k in range(operands)]


def line(letter, *numbers):
    return (letter + "".join(f",{number}" for number in numbers) + "\n").encode()


def listing(axes, operands, room=ROOM):
    """The output for a plan, or None if it is longer than the room."""
    lines = [line("K", len(axes))]
    lines.extend(line("A", number, axis.extent, axis.block, *axis.strides) for number, axis in enumerate(axes))
    length, blocks, cells = sum(map(len, lines)), 0, 0
    for index, run in runs(axes):
        lines.append(line("B", blocks, run, *offsets(axes, operands, index)))
        length, blocks, cells = length + len(lines[-1]), blocks + 1, cells + run
        if length > room:
            return None
    lines.append(line("Z", blocks, cells))
    return b"".join(lines) if length + len(lines[-1]) <= room else None


def read_axes(output, operands):
    """The axes that the lines K and A of an output tell."""
    head, *lines = output.split(b"\n")
    rank = RANK.fullmatch(head)
    if not rank:
        raise NotAPlan(f"the first line is {head[:60]!r}")
    axes = []
    for told in lines[: int(rank[1])]:
        match = AXIS.fullmatch(told)
        numbers = [int(number) for number in match[1][1:].split(b",")] if match else []
        if len(numbers) != 3 + operands or numbers[0] != len(axes):
            raise NotAPlan(f"line {len(axes)} of the axes is {told[:60]!r}")
        axes.append(Axis(numbers[1], numbers[2], tuple(numbers[3:])))
    return axes
