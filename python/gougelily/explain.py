"""Explains a plan, number by number, from the ranks to the fit; and a refusal, with the line of the text and the reason in words.

Ranks, weights, order, fused extents, costs and the plan come from the library. What stands between them (regions, the steps of cutting, why tiles
are declined, the load) is worked out by the papers' rules, and the blocks that these lead to must be the library's.
"""

from __future__ import annotations

from collections.abc import Iterator, Sequence
from dataclasses import dataclass
from itertools import islice
from math import prod

from .layout import Layout
from .machine import FIXED, Machine
from .parts import Parts, parts_of
from .planning import Plan, plan_layout
from .refusals import REFUSALS, Refused
from .rules import cutting, declining, fitting
from .tables import Row, shown, table
from .texts import NotInForm, read_layout, walklist

SMALL = 1_024
STEPS = 200  # single steps that are taken one by one; what is left is worked out in one jump


@dataclass
class Axes:
    """The axes of a plan as the rules take them."""

    extents: list[int]
    strides: list[list[int]]
    sizes: list[int]
    bytes: list[list[int]]  # the byte strides, a row for each operand


class Explanation:
    """The lines of an explanation, and the blocks that its rules lead to."""

    def __init__(self, layout: Layout, machine: Machine) -> None:
        self.layout, self.machine = layout, machine
        self.plan: Plan = plan_layout(layout, machine)
        self.parts: Parts = parts_of(layout)
        self.total = prod(layout.extents)
        rows = [list(row) for row in self.plan.strides]
        self.axes = Axes(list(self.plan.extents), rows, list(layout.sizes), [cutting.byte_strides(row, size) for row, size in zip(rows, layout.sizes)])
        self.lines: list[str] = []
        self.blocks = self.told()

    def say(self, *lines: str) -> None:
        self.lines.extend(lines)

    def head(self, title: str) -> None:
        self.say("", title)

    def told(self) -> list[int]:
        self.the_layout()
        self.the_order()
        self.the_fusing()
        blocks = self.the_blocks()
        self.head("The plan: axis 0 is the innermost")
        self.say(*("  " + line for line in str(self.plan).splitlines()))
        runs = prod(self.plan.extents[1:]) * -(-self.plan.extents[0] // max(1, self.plan.blocks[0])) if self.plan.rank else 1
        self.say(f"  blocks of a walk: {shown(runs if self.total else 0)}, cells: {shown(self.total)}")
        return blocks

    # ---- the layout, its ranks and weights

    def the_layout(self) -> None:
        layout = self.layout
        aim = {("P", False): "a pointwise loop (P), no operand chosen", ("P", True): f"a pointwise loop (P) into operand {layout.chosen}",
               ("F", True): f"a fold (F), ordered by operand {layout.chosen}"}[layout.purpose, layout.chosen is not None]
        self.say(f"The layout: {aim}; cells: {shown(self.total)}")
        rows = [Row("axis", range(layout.rank)), Row("extent", layout.extents)]
        for k, (size, row, ranks) in enumerate(zip(layout.sizes, layout.strides, self.parts.ranks)):
            rows += [Row(f"stride of operand {k}", row, f"elements of {shown(size)} bytes"), Row("  rank", ranks)]
        self.say(*table(rows))
        self.say("  A rank is 1 for a stride of 0, else 1 + the number of smaller nonzero strides of the operand.")
        line, cache, way, live = map(shown, self.machine)
        self.say("", f"The machine: lines of {line} bytes, a cache of {cache}, ways of {way}, {live} lines of a set in use")

    def tried(self) -> str:
        """The width, and perhaps the cap, that the weights were made with: the first try that gives these numbers."""
        layout, ranks = self.layout, self.parts.ranks
        lead, widest = layout.chosen or 0, (layout.operands + 1).bit_length()

        def weight(axis: int, width: int, cap: int) -> int:
            moved = [k for k, row in enumerate(layout.strides) if layout.extents[axis] > 1 and row[axis] != 0]
            terms = {k: 1 << width * min(layout.rank - ranks[k][axis], cap) for k in moved}
            return sum(term * (2 ** (width + 1) if k == lead else 1) for k, term in terms.items())

        tries = [(width, layout.rank) for width in range(widest, 0, -1)] + [(1, cap) for cap in range(63, 0, -1)]
        for width, cap in tries:
            if [weight(axis, width, cap) for axis in range(layout.rank)] == self.parts.weights:
                return f"width {width}" + (f", levels capped at {cap}" if cap < layout.rank else "") + f"; operand {lead} leads"
        raise AssertionError("no width gives these weights")

    def the_order(self) -> None:
        if self.total <= SMALL or not self.layout.rank:
            self.head("Loop order: the axes stay as they are given, since there are at most 1,024 cells")
            return
        self.head("Loop order: by falling weight, then by falling extent, then the lower axis; the first is innermost")
        places = [self.parts.order.index(axis) for axis in range(self.layout.rank)]
        self.say(*table([Row("axis", range(self.layout.rank)), Row("weight", self.parts.weights, self.tried()), Row("place", places)]))

    def the_fusing(self) -> None:
        rank = self.layout.rank
        order = self.parts.order if self.total > SMALL else list(range(rank))
        extents, fused = [self.layout.extents[axis] for axis in order], self.parts.fused
        self.head("Fused axes: one joins the one on its left if every operand goes on there where that one ends; those of extent 1 go")
        number, kept = 0, []
        for before, after in zip(extents, fused):
            kept.append(str(number) if after != 1 else "gone" if before == 1 else "joined")
            number += after != 1
        if rank and number == 0:
            kept[0] = "0"  # one axis stays
        self.say(*table([Row("axis", order), Row("extent", extents), Row("after fusing", fused), Row("axis of the plan", kept)]))

    # ---- the blocks

    def the_blocks(self) -> list[int]:
        axes, machine = self.axes, self.machine
        if self.total <= SMALL:
            self.head("Blocks: full, since there are at most 1,024 cells")
            return axes.extents
        self.head("Axes of the plan")
        rows = [Row("axis", range(self.plan.rank)), Row("extent", axes.extents)]
        for k, (row, byte_row, ranks) in enumerate(zip(axes.strides, axes.bytes, cutting.plan_ranks(axes.strides, axes.sizes))):
            rows += [Row(f"stride of operand {k}", row), Row("  in bytes", byte_row), Row("  rank", ranks)]
        costs = [cost or "none" for cost in self.parts.costs[: self.plan.rank]]
        self.say(*table([*rows, Row("cost", costs, "twice the least stride size; 1 if some operand does not move, none if no operand does")]))
        line, cache = machine.line, machine.cache
        self.head(f"Region: {line} x (floor(C / {line}) + 1) x M for each operand; C sums (extent - 1) x byte stride over byte strides below {line},")
        self.say("M multiplies the other extents")
        whole = self.region(axes.extents, axes.bytes)
        found = []
        for k, row in enumerate(axes.bytes):
            c = sum((extent - 1) * stride for extent, stride in zip(axes.extents, row) if stride < line)
            m = prod(extent for extent, stride in zip(axes.extents, row) if stride >= line)
            found.append(Row(f"operand {k}", [f"C = {shown(c)}", f"M = {shown(m)}", cutting.region(axes.extents, [row], line)], "bytes"))
        self.say(*table(found))
        if whole <= cache:
            self.say(f"  Together {shown(whole)} bytes, at most the cache's {shown(cache)}: no cut.")
            return axes.extents
        if all(self.grows(row, size) for row, size in zip(axes.strides, axes.sizes)):
            self.say(f"  Together {shown(whole)} bytes, above the cache's {shown(cache)}. But every operand has a size, a first stride that is not 0",
                     "  and strictly growing strides: the loop follows the memory of all. No cut.")
            return axes.extents
        self.say(f"  Together {shown(whole)} bytes, above the cache's {shown(cache)}: cut.")
        blocks = self.the_cutting()
        return axes.extents if self.declines(blocks) else self.the_fit(blocks)

    def region(self, extents: Sequence[int], rows: Sequence[Sequence[int]]) -> int:
        found: int = cutting.region(extents, rows, self.machine.line)
        return found

    @staticmethod
    def grows(row: Sequence[int], size: int) -> bool:
        lengths = [abs(stride) for stride in row]
        return size > 0 and lengths[0] != 0 and all(inner < outer for inner, outer in zip(lengths, lengths[1:]))

    def the_cutting(self) -> list[int]:
        axes, cache = self.axes, self.machine.cache
        self.head("Cutting: the block with the greatest score (block - 1) x cost is shortened, of equal ones the last; without a cost, none")
        ranks = cutting.plan_ranks(axes.strides, axes.sizes)
        for first in range(len(axes.extents)):
            rows = [row[first:] for row in axes.bytes]
            size = self.region(axes.extents[first:], rows)
            if size <= cache:
                self.say(f"  From axis {first} on the region is {shown(size)} bytes, at most {shown(cache)}: the rest stays whole.")
                return axes.extents
            least = min(min(row[first:]) for row in ranks)
            if any(row[first] != least for row in ranks):
                return axes.extents[:first] + self.shortened(first, rows)
            self.say(f"  Axis {first} has the least rank, {least}, in every operand: it is kept whole, and the rule starts over behind it.")
        self.say("  No axis is left to cut.")
        return axes.extents

    def shortened(self, first: int, rows: list[list[int]]) -> list[int]:
        """The blocks of the axes from one on, with a line for each halving and one for the single steps."""
        blocks, cost, cache = list(self.axes.extents[first:]), cutting.costs(self.axes.strides)[first:], self.machine.cache
        least = min(min(row) for row in rows)
        if least > cache:
            self.say(f"  The least byte stride from axis {first} on is {shown(least)}, above the cache's {shown(cache)}: these blocks become 1.")
            return [1] * len(blocks)

        def measure(tried: list[int]) -> int:
            return self.region(tried, rows)

        found = [Row("", ["axis", *range(first, first + len(blocks))]), Row("", ["whole", *blocks, "region", measure(blocks)])]
        rule = blocks, cost, measure, cache
        for _ in cutting.halve(*rule):
            found.append(Row("", ["halved", *blocks, "region", measure(blocks)]))
        before = list(blocks)
        for _ in islice(cutting.lessen(*rule), STEPS):
            pass
        if measure(blocks) > cache:
            cutting.jump(*rule)
            for _ in cutting.lessen(*rule):
                pass
        steps = sum(before) - sum(blocks)
        if steps:
            found.append(Row("", [f"1 off, {shown(steps)} times", *blocks, "region", measure(blocks)]))
        self.say(*table(found))
        self.say(f"  Halved while the region is at least {shown(2 * cache)}, then 1 is taken off while it is above {shown(cache)}.")
        return blocks

    def declines(self, blocks: list[int]) -> bool:
        met: set[str] = set()
        if declining.declined(self.axes, blocks, self.machine.line, met):
            self.head("Tiles are declined: no two blocks share a line. The blocks are full")
            return True
        why = " and ".join(sorted(met - {"an operand of size 0 passes"}))
        self.head(f"Tiles are not declined: {why}")
        return False

    def the_fit(self, blocks: list[int]) -> list[int]:
        layout, axes, machine = self.layout, self.axes, self.machine
        if layout.purpose == "F" or layout.chosen is None or layout.operands != 2:
            other = "a fold" if layout.purpose == "F" else "no operand is chosen" if layout.chosen is None else "not two operands"
            self.head(f"L1 fit: not due ({other})")
            return blocks
        self.head(f"L1 fit: at most {machine.live} lines of one set in use; lines {shown(machine.way)} bytes apart share a set")
        met: set[str] = set()
        entering = fitting.products(axes, machine, met)
        load = fitting.load(blocks, entering)
        fitted: list[int] = fitting.fit(axes, blocks, layout.chosen, machine, met)
        for axis_numbers in entering:
            named = ", ".join(map(str, axis_numbers)) or "none"
            self.say(f"  An operand counts with the product of its blocks on axes: {named}")
        if fitted == blocks:
            self.say(f"  The load is {shown(load)}{'' if load <= machine.live else ', and no axis may be shortened'}: the blocks stay.")
            return blocks
        after = fitting.load(fitted, entering)
        self.say(*table([Row("axis", range(len(blocks))), Row("cut", [*blocks, "load", load]), Row("fitted", [*fitted, "load", after])]))
        return fitted


def explain_layout(layout: Layout, machine: Machine = FIXED) -> str:
    """The explanation of a layout's plan. Raises Refused.

    >>> print(explain_layout(Layout((2, 3), (8,), ((1, 2),))).splitlines()[0])
    The layout: a pointwise loop (P), no operand chosen; cells: 6
    """
    told = Explanation(layout, machine)
    if told.blocks != list(told.plan.blocks):
        raise AssertionError(f"the rules lead to blocks {told.blocks}, the library's plan has {list(told.plan.blocks)}")
    return "\n".join(told.lines) + "\n"


def explain(text: str | bytes, machine: Machine = FIXED) -> str:
    """The explanation of a layout text, or of its refusal.

    >>> print(explain("L,P,1,1,-\\nE,3\\nO,8,4611686018427387904\\n"), end="")
    Refused with 6: an operand's reach is above 2^63 - 1
      line 3: operand 0 reaches 9,223,372,036,854,775,808 = 2 x 4,611,686,018,427,387,904; 9,223,372,036,854,775,807 is the most
    """
    try:
        layout = read_layout(text)
    except NotInForm as wrong:
        return f"Refused with 12: {wrong.sentence}\n  {wrong}\n"
    try:
        told = explain_layout(layout, machine)
    except Refused as refusal:
        return f"Refused with {refusal.number}: {refusal.sentence}\n" + "".join(f"  {line}\n" for line in reasons(layout, machine, refusal.number))
    try:
        walklist(text)
    except Refused as refusal:
        told += f"  The program walklist refuses to list it, with {refusal.number}: {refusal.sentence}.\n"
    return told


def reasons(layout: Layout, machine: Machine, row: int) -> Iterator[str]:
    """The line of the text that a row refuses, with the numbers in question."""
    most = 2**63 - 1
    if row == 1:
        yield f"line 1: the rank is {shown(layout.rank)}"
    elif row == 2:
        yield f"line 1: there are {shown(layout.operands)} operands"
    elif row == 4:
        yield f"line 1: operand {layout.chosen} is chosen, there are 0 to {layout.operands - 1}"
    elif row == 5:
        yield f"line 2: the extents make {shown(prod(layout.extents))} cells; {shown(2**64 - 1)} are the most"
    elif row == 6:
        for k, strides in enumerate(layout.strides):
            terms = [(extent - 1, abs(stride)) for extent, stride in zip(layout.extents, strides) if extent > 1 and stride]
            reach = sum(steps * stride for steps, stride in terms)
            if reach > most:
                summed = " + ".join(f"{shown(steps)} x {shown(stride)}" for steps, stride in terms)
                yield f"line {k + 3}: operand {k} reaches {shown(reach)} = {summed}; {shown(most)} is the most"
    elif row == 24:
        yield f"the record is line {machine.line}, cache {machine.cache}, way {machine.way}, live {machine.live}"
    else:
        yield f"for instance: {REFUSALS[row].instance}"
