"""What is drawn inside one grid of cells: the colours of its groups, indices along the edges, numbers, and the line of visits.

A group is a number that cells share: their block or their tile. Places are (x, y), counted from the corner of the grid.
"""

from canvas import LABEL, font_for, number_text, text_width

COLOURS = ["#bcd9f0", "#f8d3a4", "#c4e3b5", "#efc1cf", "#d6cdeb", "#f1ea9f", "#b9e2dc"]


def rectangles(groups, columns, rows):
    """The grid as few rectangles of one group each: (group, x, y, width, height). Places without a group are left out."""
    done, growing = [], {}
    for y in range(rows + 1):
        strips = {}
        x = 0
        while y < rows and x < columns:
            group, start = groups.get((x, y)), x
            while x < columns and groups.get((x, y)) == group:
                x += 1
            if group is not None:
                strips[group, start, x - start] = y
        for key in list(growing):
            if key in strips:
                strips[key] = growing[key]
            else:
                done.append((key[0], key[1], growing[key], key[2], y - growing[key]))
        growing = strips
    return done


def edges(groups, columns, rows):
    """The lines between places of different groups, as (x, y, length, is it across)."""
    found = []
    for across, lanes, places in ((True, rows, columns), (False, columns, rows)):
        for lane in range(lanes + 1):
            start = None
            for place in range(places + 1):
                here, there = ((place, lane), (place, lane - 1)) if across else ((lane, place), (lane - 1, place))
                differs = place < places and groups.get(here) != groups.get(there)
                if differs and start is None:
                    start = place
                if not differs and start is not None:
                    found.append((start, lane, place - start, True) if across else (lane, start, place - start, False))
                    start = None
    return found


def draw_grid(canvas, x0, y0, cell, groups, columns, rows):
    """Colours, the faint grid and the borders of the groups."""
    n = number_text
    by_colour = {}
    for group, x, y, width, height in rectangles(groups, columns, rows):
        steps = by_colour.setdefault(COLOURS[group % len(COLOURS)], [])
        steps.append(f"M{n(x0 + x * cell)} {n(y0 + y * cell)}h{n(width * cell)}v{n(height * cell)}h{n(-width * cell)}z")
    for colour, steps in by_colour.items():
        canvas.path(steps, fill=colour)
    if cell >= 5:
        lanes = [f"M{n(x0)} {n(y0 + y * cell)}h{n(columns * cell)}" for y in range(1, rows)]
        lanes += [f"M{n(x0 + x * cell)} {n(y0)}v{n(rows * cell)}" for x in range(1, columns)]
        canvas.path(lanes, "grid")
    borders = edges(groups, columns, rows)
    canvas.path([f"M{n(x0 + x * cell)} {n(y0 + y * cell)}{'h' if across else 'v'}{n(length * cell)}" for x, y, length, across in borders], "edge")
    canvas.reach(x0 + columns * cell, y0 + rows * cell)


def draw_ticks(canvas, x0, y0, cell, count, across):
    """Indices along an edge, as many as have room."""
    room = text_width(str(max(count - 1, 0)), LABEL - 2) + 4 if across else LABEL
    step = 1
    while step * cell < room:
        step *= 2
    for i in range(0, count, step):
        middle = (i + 0.5) * cell
        if across:
            canvas.text(x0 + middle, y0 - 4, str(i), LABEL - 2, "c s")
        else:
            canvas.text(x0 - 4, y0 + middle + 3, str(i), LABEL - 2, "e s")


def draw_numbers(canvas, x0, y0, cell, labels, below):
    """Labels in cells, and smaller ones below them."""
    both = bool(labels) and bool(below)
    if labels:
        size = font_for(labels.values(), cell - 3, cell * (0.42 if both else 0.55))
        for (x, y), label in labels.items():
            middle = y0 + (y + (0.34 if both else 0.5)) * cell
            canvas.text(x0 + (x + 0.5) * cell, middle + size * 0.36, label, size, "c")
    if below:
        size = font_for(below.values(), cell - 3, cell * (0.32 if both else 0.55))
        for (x, y), label in below.items():
            middle = y0 + (y + (0.76 if both else 0.5)) * cell
            canvas.text(x0 + (x + 0.5) * cell, middle + size * 0.36, label, size, "c s")


def draw_tile_numbers(canvas, x0, y0, cell, places):
    """The number of each tile, in the middle of its places if these are one rectangle, else at its first place."""
    for tile, met in places.items():
        xs, ys = [x for x, _ in met], [y for _, y in met]
        x, y, width, height = min(xs), min(ys), max(xs) - min(xs) + 1, max(ys) - min(ys) + 1
        if width * height != len(met):
            (x, y), width, height = met[0], 1, 1
        size = font_for([str(tile)], width * cell - 2, height * cell - 1)
        canvas.text(x0 + (x + width / 2) * cell, y0 + (y + height / 2) * cell + size * 0.36, str(tile), size, "c")


def arrow_head(x, y, dx, dy, size):
    """A triangle with its tip at x, y that points along dx, dy."""
    n = number_text
    length = (dx * dx + dy * dy) ** 0.5
    dx, dy = dx / length * size, dy / length * size
    left, right = (x - dx - dy * 0.5, y - dy + dx * 0.5), (x - dx + dy * 0.5, y - dy - dx * 0.5)
    return f"M{n(x)} {n(y)}L{n(left[0])} {n(left[1])}L{n(right[0])} {n(right[1])}z"


def draw_line(canvas, cell, visits, begins):
    """The walk: a line with an arrow head for each block, thin where the block goes on elsewhere, and a broken one from block to block. visits
    holds (block, x, y) of cell centres, or None where the walk is in another panel; begins says that the whole walk begins with the first of
    them, which gets a dot."""
    n = number_text
    runs, turns, jumps, heads = [], [], [], []
    dot = max(1.2, cell * 0.09)
    run = []  # the points of the straight piece that is under way
    for here, behind in zip(visits, visits[1:] + [None]):
        if here is None:
            continue
        block, x, y = here
        run.append((x, y))
        if behind and behind[0] == block and abs(behind[1] - x) + abs(behind[2] - y) < 1.5 * cell:
            continue
        points = straightened(run)
        run = []
        if len(points) > 1:
            runs.append("M" + "L".join(f"{n(px)} {n(py)}" for px, py in points))
        if behind is None or behind[0] != block:
            before = points[-2] if len(points) > 1 else None
            heads.append(arrow_head(x, y, x - before[0], y - before[1], max(3, min(7, cell * 0.3))) if before else round_dot(x, y, dot))
        if behind:
            (turns if behind[0] == block else jumps).append(f"M{n(x)} {n(y)}L{n(behind[1])} {n(behind[2])}")
    if begins:
        heads.append(round_dot(visits[0][1], visits[0][2], dot * 1.6))
    canvas.path(jumps, "jump")
    canvas.path(turns, "turn")
    canvas.path(runs, "run")
    canvas.path(heads, "head")


def round_dot(x, y, r):
    n = number_text
    return f"M{n(x - r)} {n(y)}a{n(r)} {n(r)} 0 1 0 {n(2 * r)} 0a{n(r)} {n(r)} 0 1 0 {n(-2 * r)} 0z"


def straightened(points):
    """The same line without the points that lie between two others on it."""
    kept = points[:1]
    for before, here, behind in zip(points, points[1:], points[2:]):
        first = (here[0] - before[0], here[1] - before[1])
        second = (behind[0] - here[0], behind[1] - here[1])
        turned = first[0] * second[1] - first[1] * second[0]
        if abs(turned) > 0.01 or first[0] * second[0] + first[1] * second[1] < 0:
            kept.append(here)
    return kept + points[1:][-1:]
