"""Whether walklist's answer to a text is right, by the test's own reader, refusal table and walk."""

from form import NotInForm, read_text
from plan import SMALL, may_be_long, same_cells, small_plan
from rows import refusal, total
from walk import NotAPlan, listing, read_axes


class Wrong(Exception):
    """An answer is not right; the words say why."""


def refused(number):
    return b"R,%d\n" % number


def due(text):
    """The row that has to refuse the text before a plan is made, or None; and the layout that the text says, or why it says none."""
    try:
        layout = read_text(text)
    except NotInForm as reason:
        return 12, str(reason)
    return refusal(layout), layout


def equal(answer, expected):
    """Raises Wrong with the first lines that differ."""
    if answer == expected:
        return
    given, wanted = answer.split(b"\n"), expected.split(b"\n")
    at = next((i for i, pair in enumerate(zip(given, wanted)) if pair[0] != pair[1]), min(len(given), len(wanted)))
    shown = [lines[at][:80].decode("ascii", "backslashreplace") if at < len(lines) else "no more" for lines in (given, wanted)]
    raise Wrong(f"line {at + 1} of the answer is {shown[0]!r}, due is {shown[1]!r}")


def judge_plan(layout, answer):
    """A layout of more than 1,024 cells that no row before 14 refuses."""
    operands = len(layout.operands)
    if answer == refused(14):
        if not may_be_long(layout):
            raise Wrong("R,14, but any listing of this layout fits")
        return "R,14"
    try:
        axes = read_axes(answer, operands)
    except NotAPlan as reason:
        raise Wrong(str(reason)) from None
    if not all(1 <= axis.block <= axis.extent for axis in axes):
        raise Wrong("a block is 0 or above its extent")
    if not same_cells(layout, axes):
        raise Wrong("the plan's cells are not the layout's")
    expected = listing(axes, operands)
    if expected is None:
        raise Wrong("the listing of these axes is longer than the room")
    equal(answer, expected)
    return "listed, above 1,024 cells"


def judge(text, answer):
    """Raises Wrong, or tells in a word what the right answer was."""
    row, layout = due(text)
    if row is not None:
        if answer != refused(row):
            raise Wrong(f"due is R,{row}" + (f": {layout}" if row == 12 else ""))
        return f"R,{row}"
    if total(layout) > SMALL:
        return judge_plan(layout, answer)
    expected = listing(small_plan(layout), len(layout.operands))
    equal(answer, refused(14) if expected is None else expected)
    if expected is None:
        return "R,14"
    return "listed, up to 1,024 cells" if total(layout) else "listed, no cell"
