"""Judges walklist's answer to the layout of a view: which offsets it meets, and what a copy by its blocks leaves."""

import re
from dataclasses import dataclass

import numpy as np

LINE = re.compile(r"([KABZR])((?:,-?[0-9]+)+)")


class Wrong(Exception):
    """The answer is not that of the view; the text says why."""


@dataclass
class Answer:
    axes: list  # extent, block, stride of the destination, stride of the view
    blocks: list  # length, offset in the destination, offset in the view


def read_answer(text):
    """The lines A and B, with their counts checked against K and Z."""
    rows = {letter: [] for letter in "KABZR"}
    for line in text.splitlines():
        match = LINE.fullmatch(line)
        if not match:
            raise Wrong(f"the line {line!r}")
        rows[match[1]].append([int(number) for number in match[2][1:].split(",")])
    if rows["R"]:
        raise Wrong(f"refused with {rows['R'][0][0]}")
    if len(rows["K"]) != 1 or len(rows["Z"]) != 1:
        raise Wrong("not one line K and one line Z")
    for letter, width in (("A", 5), ("B", 4)):
        for number, row in enumerate(rows[letter]):
            if len(row) != width or row[0] != number:
                raise Wrong(f"the line {letter},{number}")
    answer = Answer([row[1:] for row in rows["A"]], [row[1:] for row in rows["B"]])
    if rows["K"][0] != [len(answer.axes)]:
        raise Wrong("K is not the number of lines A")
    if rows["Z"][0] != [len(answer.blocks), sum(block[0] for block in answer.blocks)]:
        raise Wrong("Z is not the number of lines B and the sum of their lengths")
    return answer


def judge(case, text):
    """Raises Wrong unless the answer visits the view's elements, each index once, and copies them. Returns the answer."""
    answer = read_answer(text)
    total = case.view.size
    steps = answer.axes[0][2:] if answer.axes else [0, 0]
    written, read = [], []
    copied = np.zeros(total, case.buffer.dtype)
    start = int(case.twin[(0,) * case.twin.ndim]) if total else 0
    for number, (length, *offsets) in enumerate(answer.blocks):
        if length < 1:
            raise Wrong(f"block {number} is empty")
        there, here = (offset + step * np.arange(length) for offset, step in zip(offsets, steps))
        if there.min() < 0 or there.max() >= total or start + here.min() < 0 or start + here.max() >= case.buffer.size:
            raise Wrong(f"block {number} leaves its operand")
        written.append(there)
        read.append(here)
        copied[there] = case.buffer[start + here]
    written, read = (np.concatenate(parts) if parts else np.zeros(0, int) for parts in (written, read))
    # the destination is packed, so that its offsets name the indices
    if not np.array_equal(np.sort(written), np.arange(total)):
        raise Wrong("some index is not visited exactly once")
    due = case.twin.ravel(order=case.order) - start
    if not np.array_equal(np.sort(read), np.sort(due)):
        raise Wrong("the offsets met are not those of the view's elements")
    if not np.array_equal(read, due[written]):
        raise Wrong("an offset is met at another index than its own")
    if copied.tobytes() != case.view.copy(order=case.order).ravel(order="K").tobytes():
        raise Wrong("the copy by blocks is not NumPy's copy")
    return answer
