"""The two texts: a layout's, read and written, and walklist's listing of it (document 01, "The walklist text")."""

from __future__ import annotations

import ctypes
import re

from .layout import Layout
from .library import BYTES, library
from .refusals import Refused, served

MOST_BYTES = 16_384
ROOM = 65_536
NUMBER = {False: re.compile(r"0|[1-9][0-9]*"), True: re.compile(r"0|-?[1-9][0-9]*")}


class NotInForm(Refused):
    """A text that is not in the form, refused with 12; `line` is where, from 1 (0: the text as a whole), and `reason` says why."""

    def __init__(self, line: int, reason: str) -> None:
        super().__init__(12)
        self.line, self.reason = line, reason

    def __str__(self) -> str:
        return f"line {self.line}: {self.reason}" if self.line else self.reason


def walklist(text: str | bytes, room: int = ROOM) -> str:
    """The lines of a text's plan and of its blocks: what the program walklist prints. Raises Refused.

    >>> print(walklist("L,P,1,1,-\\nE,4\\nO,8,1\\n"), end="")
    K,1
    A,0,4,4,1
    B,0,4,0
    Z,1,4
    """
    given = text.encode() if isinstance(text, str) else bytes(text)
    lent, out = ctypes.create_string_buffer(given, len(given) + 1), ctypes.create_string_buffer(room + 1)
    length = served(library().gougelily_walklist(ctypes.cast(lent, BYTES), len(given), ctypes.cast(out, BYTES), room))
    return out.raw[:length].decode("ascii")


def write_layout(layout: Layout) -> str:
    """The text of a layout.

    >>> write_layout(Layout((2, 3), (8,), ((1, 2),), purpose="F", chosen=0))
    'L,F,2,1,0\\nE,2,3\\nO,8,1,2\\n'
    """
    chosen = "-" if layout.chosen is None else layout.chosen
    lines: list[list[object]] = [["L", layout.purpose, layout.rank, layout.operands, chosen], ["E", *layout.extents]]
    lines += [["O", size, *row] for size, row in zip(layout.sizes, layout.strides)]
    return "".join(",".join(map(str, line)) + "\n" for line in lines)


def read_layout(text: str | bytes) -> Layout:
    """The layout of a text. Raises NotInForm with the line and the reason.

    >>> read_layout("L,P,1,1,-\\nE,04\\nO,8,1\\n")
    Traceback (most recent call last):
    gougelily.texts.NotInForm: line 2: '04' is not a whole number of 0 or more without leading zeros
    """
    given = text.encode() if isinstance(text, str) else bytes(text)
    if len(given) > MOST_BYTES:
        raise NotInForm(0, f"{len(given):,} bytes; 16,384 are the most")
    *lines, rest = given.decode("latin-1").split("\n")
    if rest or not lines:
        raise NotInForm(len(lines) + 1, "the last line does not end in LF")
    purpose, rank_field, operands_field, chosen_field = fields(lines, 1, "L", 4)
    if purpose not in ("P", "F"):
        raise NotInForm(1, f"the purpose is P or F, not {shown(purpose)}")
    rank, operands = number(1, rank_field), number(1, operands_field)
    if chosen_field == "-" and purpose == "F":
        raise NotInForm(1, "a fold (F) has a chosen operand, not '-'")
    chosen = None if chosen_field == "-" else number(1, chosen_field)
    extents = tuple(number(2, field) for field in fields(lines, 2, "E", rank))
    sizes, strides = [], []
    for line in range(3, min(operands, len(lines)) + 3):
        size, *row = fields(lines, line, "O", rank + 1)
        sizes.append(number(line, size))
        strides.append(tuple(number(line, field, signed=True) for field in row))
    if len(lines) > 2 + operands:
        raise NotInForm(3 + operands, f"a line too many: L tells {operands} operands")
    return Layout(extents, tuple(sizes), tuple(strides), purpose, chosen)


def fields(lines: list[str], line: int, letter: str, count: int) -> list[str]:
    """The fields behind the letter of a line, which is counted from 1."""
    if line > len(lines):
        raise NotInForm(line, f"the text ends where a line {letter} is due")
    first, *others = lines[line - 1].split(",")
    if first != letter:
        raise NotInForm(line, f"it begins with {shown(first)}, a line {letter} is due")
    if len(others) != count:
        raise NotInForm(line, f"{len(others)} fields behind {letter}, {count} are due")
    return others


def number(line: int, field: str, signed: bool = False) -> int:
    """A field as a number of its 64 bits."""
    if not NUMBER[signed].fullmatch(field):
        raise NotInForm(line, f"{shown(field)} is not a whole number {'' if signed else 'of 0 or more '}without leading zeros")
    low, high = (-(2**63), 2**63 - 1) if signed else (0, 2**64 - 1)
    if len(field) > 20 or not low <= int(field) <= high:
        raise NotInForm(line, f"{shown(field)} is outside 64-bit {'signed' if signed else 'unsigned'}")
    return int(field)


def shown(field: str) -> str:
    return repr(field if len(field) <= 24 else field[:24] + "..")
