"""The whole picture: panels with the grid of original indices side by side, and a map of one operand's memory beside them."""

from dataclasses import dataclass
from itertools import product
from math import prod

from canvas import LABEL, MARGIN, Canvas, number_text, text_width
from grid import draw_grid, draw_line, draw_numbers, draw_ticks, draw_tile_numbers
from reading import Malformed

EMPTY = "#f3f3f3"  # a place of memory that no cell is at
MOST_PANELS = 64
MOST_LINES = 256
LINE_BYTES = 64


@dataclass
class Choice:
    """What the picture shows."""

    across: "int | None"  # the axis that runs to the right
    down: "int | None"  # the axis that runs downwards
    fixed: dict  # axis: index, for axes that are not shown
    colour: str  # block or tile
    number: str  # cells, blocks, tiles or none
    line: bool
    offsets: "int | None"  # the operand whose offsets stand in the cells
    memory: "int | None"  # the operand whose memory is drawn
    cell: int
    title: str


class Panels:
    """Which panel and which place in it a cell has."""

    def __init__(self, layout, choice):
        self.choice = choice
        self.columns = layout.extents[choice.across] if choice.across is not None else 1
        self.rows = layout.extents[choice.down] if choice.down is not None else 1
        shown = {choice.across, choice.down, *choice.fixed}
        self.beside = [axis for axis in range(layout.rank) if axis not in shown]
        count = prod(layout.extents[axis] for axis in self.beside)
        if count > MOST_PANELS:
            raise Malformed(f"{count} panels side by side, {MOST_PANELS} are the most; fix more axes with --fix")
        # the first of these axes runs to the right, the others downwards
        self.keys = list(product(*(range(layout.extents[axis]) for axis in reversed(self.beside))))
        self.keys = [key[::-1] for key in self.keys]
        self.in_a_row = layout.extents[self.beside[0]] if self.beside else 1

    def key(self, cell):
        """The panel of a cell, or None if it is in none."""
        if any(cell.index[axis] != index for axis, index in self.choice.fixed.items()):
            return None
        return tuple(cell.index[axis] for axis in self.beside)

    def place(self, cell):
        choice = self.choice
        return (cell.index[choice.across] if choice.across is not None else 0, cell.index[choice.down] if choice.down is not None else 0)


def group_of(cell, choice):
    return cell.tile if choice.colour == "tile" else cell.block


def draw_panel(canvas, x0, y0, panels, key, met, visits):
    """One grid of two axes. x0, y0 is the corner of its cells."""
    choice = panels.choice
    cell = choice.cell
    draw_grid(canvas, x0, y0, cell, {panels.place(c): group_of(c, choice) for c in met}, panels.columns, panels.rows)
    if choice.across is not None:
        draw_ticks(canvas, x0, y0, cell, panels.columns, True)
        canvas.text(x0, y0 - 18, f"axis {choice.across} \u2192", LABEL)
    if choice.down is not None:
        draw_ticks(canvas, x0, y0, cell, panels.rows, False)
        canvas.text(x0 - left_room(panels) + 4, y0, f"axis {choice.down} \u2192", LABEL, turned=True)
    if panels.beside:
        where = ", ".join(f"axis {axis} = {i}" for axis, i in zip(panels.beside, key))
        canvas.text(x0, y0 - 34, where, LABEL)
    if choice.line:
        half = cell / 2
        points = [(c.block, x0 + x * cell + half, y0 + y * cell + half) if c else None for c in visits for x, y in [panels.place(c) if c else (0, 0)]]
        draw_line(canvas, cell, points, bool(met) and met[0].visit == 0)
    labels = {}
    if choice.number == "cells":
        labels = {panels.place(c): str(c.visit) for c in met}
    elif choice.number == "blocks":
        first = {}
        for c in met:
            first.setdefault(c.block, c)
        labels = {panels.place(c): str(c.block) for c in first.values()}
    below = {panels.place(c): str(c.offsets[choice.offsets]) for c in met} if choice.offsets is not None else {}
    draw_numbers(canvas, x0, y0, cell, labels, below)
    if choice.number == "tiles":
        places = {}
        for c in met:
            places.setdefault(c.tile, []).append(panels.place(c))
        draw_tile_numbers(canvas, x0, y0, cell, places)


def left_room(panels):
    """The room left of a panel's cells: the name of the axis and its indices."""
    if panels.choice.down is None:
        return 0
    return LABEL + 10 + text_width(str(max(panels.rows - 1, 0)), LABEL - 2)


def draw_memory(canvas, x0, y0, layout, choice, met, rows_high):
    """The memory of one operand, a row for each line of 64 bytes that holds a cell, counted from offset 0."""
    size = layout.sizes[choice.memory]
    per_line = LINE_BYTES // size if size and LINE_BYTES % size == 0 else 8
    at = {}
    for c in met:
        at.setdefault(c.offsets[choice.memory], []).append(c)
    lines = sorted({offset // per_line for offset in at})
    if len(lines) > MOST_LINES:
        raise Malformed(f"the cells of operand {choice.memory} are on {len(lines)} lines of memory, {MOST_LINES} are the most that are drawn")
    what = f"operand {choice.memory} in memory, {per_line} elements a row" + (" (a line of 64 bytes)" if per_line * size == LINE_BYTES else "")
    canvas.text(x0, y0 - 18, what, LABEL)
    cell = choice.cell
    left = text_width(max((str(number * per_line) for number in lines), key=len), LABEL - 2) + 6
    labels = {offset: str(cs[0].visit) + ("+" if len(cs) > 1 else "") for offset, cs in at.items()}
    # stretches of neighbouring lines, each at most as high as the panels are
    stretches = []
    for number in lines:
        if stretches and stretches[-1][-1] == number - 1 and len(stretches[-1]) < rows_high:
            stretches[-1].append(number)
        else:
            stretches.append([number])
    x, y, gap = x0 + left, y0, 6
    for stretch in stretches:
        if y > y0 and y + len(stretch) * cell > y0 + rows_high * cell + gap * rows_high:
            x, y = x + per_line * cell + left + 10, y0
        first = stretch[0] * per_line
        places = {o: ((o - first) % per_line, (o - first) // per_line) for o in at if first <= o < first + len(stretch) * per_line}
        groups = {place: group_of(at[o][0], choice) for o, place in places.items()}
        canvas.path([f"M{number_text(x)} {number_text(y)}h{per_line * cell}v{len(stretch) * cell}h{-per_line * cell}z"], fill=EMPTY)
        draw_grid(canvas, x, y, cell, groups, per_line, len(stretch))
        for i, number in enumerate(stretch):
            canvas.text(x - 4, y + (i + 0.5) * cell + 3, str(number * per_line), LABEL - 2, "e s")
        if choice.number == "cells":
            draw_numbers(canvas, x, y, cell, {place: labels[o] for o, place in places.items()}, {})
        y += len(stretch) * cell + gap


def caption(choice, repeats):
    """What the picture shows, in words. repeats: the map of memory has a place that several cells are at."""
    parts = [f"colours: {choice.colour}s"]
    if choice.number == "cells":
        parts.append("number: visit")
    elif choice.number != "none":
        parts.append(f"number: {choice.number[:-1]}")
    if choice.offsets is not None:
        parts.append(f"grey number: offset of operand {choice.offsets}")
    if choice.line:
        parts.append("line: order of visits")
    if repeats:
        parts.append("+: met again")
    if choice.fixed:
        parts.append(", ".join(f"axis {axis} = {i}" for axis, i in sorted(choice.fixed.items())))
    return "; ".join(parts)


def picture(layout, cells, choice):
    """The whole picture as a text of SVG."""
    canvas = Canvas()
    top = MARGIN
    if choice.title:
        top += LABEL + 4
        canvas.text(MARGIN, top, choice.title, LABEL + 2)
        top += 8
    if not cells:
        canvas.text(MARGIN, top + LABEL, "no cell: an extent is 0", LABEL)
        return canvas.svg(choice.title)
    panels = Panels(layout, choice)
    by_panel = {key: [] for key in panels.keys}
    visits = {key: [] for key in panels.keys}
    for cell in cells:
        here = panels.key(cell)
        if here is not None:
            by_panel[here].append(cell)
        for key in panels.keys:
            if key == here:
                visits[key].append(cell)
            elif visits[key] and visits[key][-1] is not None:
                visits[key].append(None)
    left = left_room(panels)
    label_room = text_width("axis 00 -", LABEL)
    named = max((text_width(", ".join(f"axis {a} = {i}" for a, i in zip(panels.beside, key)), LABEL) for key in panels.keys), default=0)
    wide = max(panels.columns * choice.cell, label_room if choice.across is not None else 0, named) + left + 14
    head = (18 if panels.beside else 0) + (34 if choice.across is not None else 8)
    high = max(panels.rows * choice.cell, label_room if choice.down is not None else 0) + head + 8
    for number, key in enumerate(panels.keys):
        column, row = number % panels.in_a_row, number // panels.in_a_row
        draw_panel(canvas, MARGIN + column * wide + left, top + row * high + head, panels, key, by_panel[key], visits[key])
    shown_rows = -(-len(panels.keys) // panels.in_a_row)
    repeats = False
    if choice.memory is not None:
        shown = [cell for key in panels.keys for cell in by_panel[key]]
        shown.sort(key=lambda cell: cell.visit)
        rows_high = max(8, int((shown_rows * high - head) // choice.cell))
        draw_memory(canvas, MARGIN + panels.in_a_row * wide + 12, top + head, layout, choice, shown, rows_high)
        repeats = choice.number == "cells" and len({cell.offsets[choice.memory] for cell in shown}) < len(shown)
    canvas.reach(0, top + shown_rows * high)
    canvas.text(MARGIN, canvas.height + LABEL + 4, caption(choice, repeats), LABEL - 1, "s")
    return canvas.svg(choice.title)
