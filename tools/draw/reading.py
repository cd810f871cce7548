"""Reads the two texts: a layout, and walklist's listing of it (document 01, "The walklist text").

Both readers are strict. What is not in the form raises Malformed, with the number of the line and what is wrong there.
"""

import re
from dataclasses import dataclass

LONGEST = 16384

# The rows of document 01's refusal table that a text can meet, in a few words each.
REFUSALS = {
    1: "rank above 64",
    2: "operands 0 or above 8",
    4: "chosen operand not there",
    5: "total above 2^64 - 1",
    6: "an operand's reach above 2^63 - 1",
    12: "text not in the form",
    13: "total above 1,048,576",
    14: "output longer than the buffer",
}


class Malformed(Exception):
    """What a user handed over cannot be drawn; the text says why."""


@dataclass
class Layout:
    purpose: str  # P or F
    chosen: "int | None"
    extents: list
    sizes: list
    strides: list  # one list for each operand, one stride for each axis

    @property
    def rank(self):
        return len(self.extents)


@dataclass
class ListedAxis:
    extent: int
    block: int
    strides: list  # one for each operand


@dataclass
class ListedBlock:
    length: int
    offsets: list  # one for each operand


@dataclass
class Listing:
    axes: list
    blocks: list


class Lines:
    """The lines of a text, read one by one; it knows where it is."""

    def __init__(self, text, name):
        self.name = name
        self.at = 0
        try:
            decoded = text.decode("ascii")
        except UnicodeDecodeError:
            raise Malformed(f"{name}: not ASCII") from None
        if not decoded.endswith("\n"):
            raise Malformed(f"{name}: empty, or the last line has no LF")
        self.lines = decoded[:-1].split("\n")

    def wrong(self, what):
        return Malformed(f"{self.name}, line {self.at}: {what}")

    def more(self):
        return self.at < len(self.lines)

    def peek(self):
        return self.lines[self.at].split(",")[0] if self.more() else None

    def fields(self, letter):
        """The fields behind the letter of the next line."""
        if not self.more():
            raise Malformed(f"{self.name}: ends where a line {letter} is due")
        parts = self.lines[self.at].split(",")
        self.at += 1
        if parts[0] != letter:
            raise self.wrong(f"a line {letter} is due here")
        return parts[1:]

    def number(self, field, signed=False):
        form = r"0|-?[1-9][0-9]*" if signed else r"0|[1-9][0-9]*"
        if not re.fullmatch(form, field):
            raise self.wrong(f"'{field[:24]}' is not a number in the form")
        low, high = (-(2**63), 2**63 - 1) if signed else (0, 2**64 - 1)
        if len(field) > 20 or not low <= int(field) <= high:
            raise self.wrong(f"'{field[:24]}' is outside its 64 bits")
        return int(field)

    def numbers(self, fields, count, what, signed=False):
        if len(fields) != count:
            raise self.wrong(f"{len(fields)} {what}, {count} are due")
        return [self.number(field, signed) for field in fields]

    def end(self):
        if self.more():
            self.at += 1
            raise self.wrong("nothing more is due here")


def read_layout(text, name="layout"):
    """The layout that the bytes describe."""
    if len(text) > LONGEST:
        raise Malformed(f"{name}: {len(text)} bytes, {LONGEST} are the most")
    lines = Lines(text, name)
    head = lines.fields("L")
    if len(head) != 4:
        raise lines.wrong("the line is L,purpose,rank,operands,chosen")
    purpose, rank, operands = head[0], lines.number(head[1]), lines.number(head[2])
    if purpose not in ("P", "F"):
        raise lines.wrong("the purpose is P or F")
    if head[3] == "-":
        if purpose == "F":
            raise lines.wrong("a fold (F) needs an ordering operand")
        chosen = None
    else:
        chosen = lines.number(head[3])
    extents = lines.numbers(lines.fields("E"), rank, "extents")
    sizes, strides = [], []
    for _ in range(operands):
        size, *row = lines.fields("O") or [""]
        sizes.append(lines.number(size))
        strides.append(lines.numbers(row, rank, "strides", signed=True))
    lines.end()
    return Layout(purpose, chosen, extents, sizes, strides)


def read_listing(text, operands, name="listing"):
    """The plan and the blocks that walklist printed for a layout of so many operands."""
    lines = Lines(text, name)
    if lines.peek() == "R":
        row = lines.numbers(lines.fields("R"), 1, "numbers")[0]
        lines.end()
        raise Malformed(f"{name}: the layout is refused, R,{row} ({REFUSALS.get(row, 'a row that no text meets')})")
    rank = lines.numbers(lines.fields("K"), 1, "numbers")[0]
    axes, blocks = [], []
    while lines.peek() == "A":
        head, strides = numbered(lines, "A", len(axes), 2, operands)
        axes.append(ListedAxis(*head, strides))
    if len(axes) != rank:
        raise lines.wrong(f"{len(axes)} lines A, {rank} are due")
    while lines.peek() == "B":
        head, offsets = numbered(lines, "B", len(blocks), 1, operands)
        blocks.append(ListedBlock(*head, offsets))
    count, cells = lines.numbers(lines.fields("Z"), 2, "numbers")
    if (count, cells) != (len(blocks), sum(block.length for block in blocks)):
        raise lines.wrong("Z does not count the lines B and their lengths")
    lines.end()
    return Listing(axes, blocks)


def numbered(lines, letter, number, unsigned, operands):
    """A line's unsigned numbers behind its own number, and its signed ones, one for each operand."""
    fields = lines.fields(letter)
    if len(fields) != 1 + unsigned + operands:
        raise lines.wrong(f"{len(fields)} numbers, {1 + unsigned + operands} are due")
    head = [lines.number(field) for field in fields[: 1 + unsigned]]
    if head[0] != number:
        raise lines.wrong(f"number {head[0]}, {number} is due")
    return head[1:], [lines.number(field, signed=True) for field in fields[1 + unsigned :]]
