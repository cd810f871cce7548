"""Tables of numbers for the terminal."""

from __future__ import annotations

from collections.abc import Iterable, Sequence
from typing import NamedTuple


class Row(NamedTuple):
    label: str
    cells: Sequence[object]
    note: str = ""


def shown(cell: object) -> str:
    return f"{cell:,}" if isinstance(cell, int) else str(cell)


def table(rows: Iterable[Row]) -> list[str]:
    """The lines of a table: a label, columns set to the right, a note behind them.

    >>> print("\\n".join(table([Row("axis", [0, 1]), Row("extent", [2, 1000], "cells")])))
      axis    0      1
      extent  2  1,000   cells
    """
    held = [Row(row.label, [shown(cell) for cell in row.cells], row.note) for row in rows]
    label = max((len(row.label) for row in held), default=0)
    count = max((len(row.cells) for row in held), default=0)
    widths = [max((len(str(row.cells[i])) for row in held if i < len(row.cells)), default=0) for i in range(count)]
    lines = []
    for row in held:
        cells = "".join(f"  {cell:>{width}}" for cell, width in zip(row.cells, widths))
        lines.append(f"  {row.label:<{label}}{cells}{'   ' + row.note if row.note else ''}".rstrip())
    return lines
