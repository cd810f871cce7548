"""What is due of each call that host.c prints, by the rules in Python of the other folders.

Each function takes a told call and gives what is due: the row that refuses, or a dictionary with the answer and what is handed out, under the names
that the host prints.
"""

import importlib.util
import struct
import sys
from math import isnan, prod
from pathlib import Path

TESTS = Path(__file__).resolve().parents[1]
sys.path.extend(str(TESTS / folder) for folder in ("machines", "texts"))

import reference  # noqa: E402
from machine import FIXED, Machine  # noqa: E402
from neighbours import Layout, NotInForm, Operand, planning, read_text  # noqa: E402
from rows import refusal as text_refusal  # noqa: E402
from walk import listing  # noqa: E402

RANK, OPERANDS = 64, 8
LEAST, MOST = -(2**63), 2**63 - 1
LISTED = 5_000  # blocks that are counted one by one


def of(folder):
    """tests/FOLDER/rules.py: every folder's has the same name."""
    spec = importlib.util.spec_from_file_location(f"{folder}_rules", TESTS / folder / "rules.py")
    module = importlib.util.module_from_spec(spec)
    spec.loader.exec_module(module)
    return module


judging, describing, windowing, viewing, copying, summing, sessions = map(of, ("judge", "descriptions", "windows", "views", "export", "summary", "sessions"))


def filled(numbers, places):
    return [*numbers, *[0] * (places - len(numbers))]


def rows(strides, rank, operands, apart):
    return [strides[k * apart : k * apart + rank] for k in range(operands)]


def layout_of(call):
    """The layout of a call. Of strides that are wrong in number all stand in the first row, for which row 3 is due."""
    rank, operands, strides = len(call["extents"]), len(call["sizes"]), call["strides"]
    cut = rows(strides, rank, operands, rank) if len(strides) == rank * operands else [strides] + [[]] * (operands - 1)
    purpose, chosen = "F" if call["purpose"] > 1 else "P", None if call["purpose"] == 0 else call["chosen"]
    return Layout(purpose, chosen, tuple(call["extents"]), tuple(Operand(size, tuple(row)) for size, row in zip(call["sizes"], cut)))


def plain_refusal(call):
    """Rows 1 to 6 of a layout, where no machine is asked for."""
    return viewing.layout_refusal(call["extents"], call["sizes"], call["strides"], call["purpose"], call["chosen"], 0, 1)


# ---- texts

def walklist(call):
    text = bytes.fromhex(call["text"])
    try:
        layout = read_text(text)
    except NotInForm:
        return 12
    row = text_refusal(layout)
    if row is not None:
        return row
    output = listing(reference.plan(layout, FIXED, set()), len(layout.operands))
    return 14 if output is None else {"answer": len(output), "output": output.hex()}


def judge(call):
    due = judging.judge(call["extents"], bytes.fromhex(call["text"]), len(call["marks"]) // 2)
    return due if isinstance(due, int) else {"answer": due[0], "marks": due[1].hex()}


def from_numpy(call):
    due = describing.from_numpy(bytes.fromhex(call["text"]))
    if isinstance(due, int):
        return due
    size, extents, strides = due
    return {"answer": 0, "size": [size], "rank": [len(extents)], "extents": filled(extents, RANK), "strides": filled(strides, RANK)}


def to_numpy(call):
    due = describing.to_numpy(call["size"], call["extents"], call["strides"], call["room"])
    return due if isinstance(due, int) else {"answer": len(due), "text": due.hex()}


# ---- plans and walks

def plan(call):
    layout = layout_of(call)
    axes = reference.plan(layout, Machine(*call["machine"]), set())
    if isinstance(axes, int):
        return axes
    operands = len(layout.operands)
    moved = [filled([axis.strides[k] for axis in axes], RANK) for k in range(operands)]
    return {
        "answer": 0,
        "plan_rank": len(axes),
        "plan_operands": operands,
        "plan_extents": filled([axis.extent for axis in axes], RANK),
        "blocks": filled([axis.block for axis in axes], RANK),
        "plan_strides": filled(sum(moved, []), RANK * OPERANDS),
    }


def own_plan(call):
    """Extents, block sizes and rows of the plan that is lent; None if rows 1 or 2 refuse it, and then their number."""
    rank, operands = call["plan_rank"], call["plan_operands"]
    if rank > RANK:
        return None, 1
    if not 1 <= operands <= OPERANDS:
        return None, 2
    return (call["plan_extents"][:rank], call["blocks"][:rank], rows(call["plan_strides"], rank, operands, RANK)), 0


def far(extents, strides):
    """Row 6."""
    return 0 not in extents and sum((extent - 1) * abs(stride) for extent, stride in zip(extents, strides)) > MOST


def begin(call):
    told, row = own_plan(call)
    if told is None:
        return row
    extents, _, strides = told
    starts, empty = call["starts"], 0 in extents
    if prod(extents) > 2**64 - 1:
        return 5
    if any(far(extents, each) for each in strides):
        return 6
    if len(starts) != len(strides):
        return 8
    spans = [viewing.span(extents, each) for each in strides]
    if not empty and any(start + low < LEAST or start + high > MOST for start, (low, high) in zip(starts, spans)):
        return 9
    return {"answer": 0, "ended": int(empty), "counters": [0] * RANK, "offsets": filled(starts, OPERANDS)}


def widths(extents, blocks):
    """What the block sizes act as: "A block size of 0 acts as 1, one above the extent as the extent", "Rank 9 up: only axis 0 is cut"."""
    acting = [max(1, min(block, extent)) for extent, block in zip(extents, blocks)]
    return acting[:1] + [1] * (len(acting) - 1) if len(acting) > 8 else acting


def reached(told, call):
    """Whether some walk begun on the plan comes to the state."""
    extents, blocks, strides = told
    rank, operands = len(extents), len(strides)
    counters, offsets = call["counters"], call["offsets"]
    if any(counters[rank:]) or any(offsets[operands:]) or prod(extents) > 2**64 - 1 or any(far(extents, each) for each in strides):
        return False
    here = counters[:rank]
    if call["ended"]:
        if any(here):
            return False
    elif any(at >= extent for at, extent in zip(here, extents)) or rank and here[0] % widths(extents, blocks)[0]:
        return False
    for each, offset in zip(strides, offsets):
        start, (low, high) = offset - viewing.dot(here, each), viewing.span(extents, each)
        if not LEAST <= start <= MOST or 0 not in extents and not LEAST <= start + low <= start + high <= MOST:
            return False
    return True


def following(extents, blocks, here):
    """The counters of the block after this one, or None: in a tile axis 1 steps quickest, then tile by tile, axis 0's quickest."""
    if not extents:
        return None
    acting = widths(extents, blocks)
    starts = [at // width * width for at, width in zip(here, acting)]
    ends = [min(start + width, extent) for start, width, extent in zip(starts, acting, extents)]
    for axis in range(1, len(extents)):
        if here[axis] + 1 < ends[axis]:
            return [here[0], *starts[1:axis], here[axis] + 1, *here[axis + 1 :]]
    for axis, (end, extent) in enumerate(zip(ends, extents)):
        if end < extent:
            return [0] * axis + [end] + starts[axis + 1 :]
    return None


def stepped(told, call):
    """What a step from a reached state that has not ended hands out."""
    extents, blocks, strides = told
    here = call["counters"][: len(extents)]
    length = min(widths(extents, blocks)[0], extents[0] - here[0]) if extents else 1
    after = following(extents, blocks, here)
    moved = [offset - viewing.dot(here, each) + viewing.dot(after or [], each) for offset, each in zip(call["offsets"], strides)]
    return {
        "answer": 1,
        "block_counters": filled(here, RANK),
        "length": length,
        "block_offsets": call["offsets"],
        "block_strides": filled([each[0] if each else 0 for each in strides], OPERANDS),
        "ended_after": int(after is None),
        "counters_after": filled(after or [], RANK),
        "offsets_after": filled(moved, OPERANDS),
    }


def step(call):
    told, row = own_plan(call)
    if told is None:
        return row
    if not reached(told, call):
        return 10
    return {"answer": 0} if call["ended"] else stepped(told, call)


def axes_and_layout(call):
    layout = reference.for_axes(layout_of(call))
    return planning.plan_axes(layout), layout


def visit(call):
    row = viewing.layout_refusal(call["extents"], call["sizes"], call["strides"], call["purpose"], call["chosen"], call["plan_rank"], call["plan_operands"])
    if row:
        return row
    told, _ = own_plan(call)
    if not reached(told, call):
        return 10
    if call["ended"]:
        return {"answer": 0}
    axes, layout = axes_and_layout(call)
    here = call["counters"][: len(told[0])]
    if len(axes) != len(here) or any(at >= axis.extent for at, axis in zip(here, axes)):
        return 11
    first = planning.original_index(layout, axes, here)
    due = {**stepped(told, call), "first_count": len(first), "first": filled(first, RANK)}
    if prod(told[0]) <= LISTED:
        due["number"] = [list(counters) for counters, _ in viewing.blocks(told[0], told[1])].index(here)
    return due


def original_index(call):
    row = plain_refusal(call)
    if row:
        return row
    axes, layout = axes_and_layout(call)
    counters = call["counters"]
    if len(counters) != len(axes) or any(at >= axis.extent for at, axis in zip(counters, axes)):
        return 11
    return {"answer": 0, "count": layout.rank, "index": filled(planning.original_index(layout, axes, counters), RANK)}


def plan_index(call):
    row = plain_refusal(call)
    if row:
        return row
    axes, layout = axes_and_layout(call)
    given = call["counters"]
    if len(given) != layout.rank or any(at >= extent for at, extent in zip(given, layout.extents)):
        return 11
    # of the joined axes the first is the quickest
    index = []
    for axis in axes:
        place = 0
        for i in reversed(axis.joined):
            place = place * layout.extents[i] + given[i]
        index.append(place)
    return {"answer": 0, "count": len(axes), "index": filled(index, RANK)}


# ---- the others

def window(call):
    due = windowing.window(call["extents"], call["sizes"], call["strides"], call["firsts"], call["counts"], call["steps"])
    if isinstance(due, int):
        return due
    return {"answer": 0, "window_extents": filled(call["counts"], RANK), "window_strides": filled(due[0], 512), "shifts": filled(due[1], OPERANDS)}


def copy(call):
    before, source = bytes.fromhex(call["before"]), bytes.fromhex(call["source"])
    given = call["extents"], call["sizes"], call["strides"]
    row = copying.refusal(*given, call["machine"], call["starts"], len(before), len(source))
    return row or {"answer": 0, "after": copying.afterwards(*given, call["starts"], before, source).hex()}


def summary(call):
    extents, strides, (start,) = call["extents"], call["strides"], call["start"]
    cells = [cell for (cell,) in struct.iter_unpack("<d", bytes.fromhex(call["cells"]))]
    row = summing.refusal(extents, strides, call["machine"], start, len(cells))
    if row is not None:
        return row
    axes = reference.plan(Layout("F", 0, tuple(extents), (Operand(8, tuple(strides)),)), Machine(*call["machine"]), set())
    met = [] if 0 in extents else viewing.blocks([axis.extent for axis in axes], [axis.block for axis in axes])
    rows_of = [axis.strides[0] for axis in axes]
    firsts = [(start + viewing.dot(counters, rows_of), length) for counters, length in met]
    visited = [cells[first + k * (rows_of[0] if rows_of else 0)] for first, length in firsts for k in range(length)]
    total, least, greatest, count, nans, extremes = summing.summary(visited)
    due = {"answer": 0, "count": count, "nans": nans, "extremes": extremes}
    # of a sum that is not a number the bits are left open
    given = struct.unpack("<3d", bytes.fromhex(call["doubles"]))
    due["doubles"] = struct.pack("<3d", given[0] if isnan(total) and isnan(given[0]) else total, least, greatest).hex()
    return due


def session_of(words):
    at, session = 0, {}
    for name, places in sessions.PLACES.items():
        cut = words[at : at + places]
        session[name] = [word - 2**64 if name in sessions.SIGNED and word >= 2**63 else word for word in cut]
        at += places
    return session


def words_of(due):
    return due if isinstance(due, int) else {"answer": 0, "after": [number % 2**64 for name in sessions.PLACES for number in due[name]]}


def session_begin(call):
    return words_of(sessions.begin(layout_of(call), Machine(*call["machine"]), set()))


def session_join(call):
    return words_of(sessions.join(session_of(call["before"]), call["size"], call["strides"], set()))


def session_leave(call):
    return words_of(sessions.leave(session_of(call["before"]), call["operand"], set()))


def mark(call):
    extents, strides = call["extents"], call["strides"]
    if len(extents) > RANK:
        return 1
    if len(strides) != len(extents):
        return 3
    if prod(extents) > 2**64 - 1:
        return 5
    if far(extents, strides):
        return 6
    return {"answer": ("no", "yes", "undecided").index(copying.mark(extents, strides))}


RULES = {
    rule.__name__: rule
    for rule in (
        walklist, judge, from_numpy, to_numpy, plan, begin, step, visit, original_index, plan_index,
        window, copy, summary, session_begin, session_join, session_leave, mark,
    )
}  # fmt: skip


def difference(call):
    """What is wrong with a told call; None if nothing is."""
    due = RULES[call["call"]](call)
    if isinstance(due, int):
        return None if call["answer"] == -due else f"the answer is {call['answer']}, due is {-due}"
    wrong = [name for name, value in due.items() if list_of(call[name]) != list_of(value)]
    return f"{wrong[0]} is {call[wrong[0]]}, due is {due[wrong[0]]}" if wrong else None


def list_of(value):
    return list(value) if isinstance(value, (tuple, list)) else value
