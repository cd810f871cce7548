"""The form of a layout text, from the words of document 01, "The walklist text".

This reader takes a text apart line by line and field by field, and has its own words for each way in which one is not in the form. It is made to
judge the port's reader, so it shares nothing with it.
"""

import re
from dataclasses import dataclass

MOST_BYTES = 16_384
NATURAL = re.compile(rb"0|[1-9][0-9]*")
WHOLE = re.compile(rb"0|-?[1-9][0-9]*")
MOST_WIDE = 20  # characters of the widest numbers in range, 2^64 - 1 and -2^63


class NotInForm(Exception):
    """The text is not in the form; the words say why."""


@dataclass(frozen=True)
class Operand:
    size: int
    strides: tuple


@dataclass(frozen=True)
class Layout:
    purpose: str  # P or F
    chosen: int | None
    extents: tuple
    operands: tuple


def number(field, form, least, most):
    if not form.fullmatch(field):
        raise NotInForm(f"{field[:40]!r} is no number of the form")
    # a number of thousands of digits is not even read
    if len(field) > MOST_WIDE or not least <= int(field) <= most:
        raise NotInForm(f"{field[:40]!r} is outside its 64 bits")
    return int(field)


def unsigned(field):
    return number(field, NATURAL, 0, 2**64 - 1)


def signed(field):
    return number(field, WHOLE, -(2**63), 2**63 - 1)


def fields(line, letter, count):
    """What stands behind the letter, each behind a comma."""
    first, *others = line.split(b",")
    if first != letter:
        raise NotInForm(f"a line begins with {first[:40]!r} in place of {letter!r}")
    if len(others) != count:
        raise NotInForm(f"a line {letter!r} has {len(others)} fields in place of {count}")
    return others


def read_text(text):
    """The layout that the text says."""
    if len(text) > MOST_BYTES:
        raise NotInForm(f"{len(text)} bytes")
    *lines, rest = text.split(b"\n")
    if rest or not lines:
        raise NotInForm("the last line does not end in LF")
    purpose, rank, operands, chosen = fields(lines[0], b"L", 4)
    if purpose not in (b"P", b"F"):
        raise NotInForm(f"the purpose {purpose[:40]!r}")
    rank, operands = unsigned(rank), unsigned(operands)
    if chosen == b"-":
        if purpose == b"F":
            raise NotInForm("a fold without an operand")
        chosen = None
    else:
        chosen = unsigned(chosen)
    if len(lines) != 2 + operands:
        raise NotInForm(f"{len(lines)} lines in place of {2 + operands}")
    extents = tuple(unsigned(field) for field in fields(lines[1], b"E", rank))
    rows = []
    for line in lines[2:]:
        size, *strides = fields(line, b"O", 1 + rank)
        rows.append(Operand(unsigned(size), tuple(signed(field) for field in strides)))
    return Layout(purpose.decode(), chosen, extents, tuple(rows))


def write_text(layout):
    """The text of a layout."""
    lines = [["L", layout.purpose, len(layout.extents), len(layout.operands), "-" if layout.chosen is None else layout.chosen]]
    lines.append(["E", *layout.extents])
    lines.extend(["O", operand.size, *operand.strides] for operand in layout.operands)
    return "".join(",".join(map(str, line)) + "\n" for line in lines).encode()
