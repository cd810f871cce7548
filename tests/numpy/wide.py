"""Views of very large items, made of addresses alone: no memory lies behind them, and none is read.

NumPy takes items of up to 2^31 - 1 bytes and byte strides of 64 bits, so it can say arrays that span more than 2^63 - 1 bytes. Where an item lies it
tells by slicing the view; addresses are compared modulo 2^64, as NumPy counts them.
"""

from dataclasses import dataclass
from itertools import product

import numpy as np

from judge import Wrong, read_answer

MOST_CELLS = 1250  # above 1,024, so that axes are cut; an answer stays within 65,536 bytes
WORD = 2**64
BASE = 2**40 + 1  # NumPy takes 0 for no address; no item of a view comes to lie there


class Described:
    """What NumPy makes an array of: a shape, an item size, byte strides."""

    def __init__(self, shape, size, strides):
        self.__array_interface__ = {"shape": shape, "typestr": f"|V{size}", "data": (BASE, True), "strides": strides, "version": 3}


@dataclass
class Wide:
    size: int
    view: np.ndarray
    purpose: str
    chosen: str

    def text(self):
        """The layout text: operand 0 is packed over the view's indices, the last axis quickest, with size 1; operand 1 is the view."""
        packed, row = 1, []
        for extent in reversed(self.view.shape):
            row.append(packed)
            packed *= extent
        lines = [["L", self.purpose, self.view.ndim, 2, self.chosen], ["E", *self.view.shape], ["O", 1, *reversed(row)]]
        lines.append(["O", self.size, *(stride // self.size for stride in self.view.strides)])
        return "".join(",".join(map(str, line)) + "\n" for line in lines)

    def spans(self):
        """The bytes from the first to the last."""
        return self.size + sum((extent - 1) * abs(stride) for extent, stride in zip(self.view.shape, self.view.strides))


def drawn(rng):
    """A shape, and strides in items of a size, each up to what 64 bits of bytes hold."""
    size = int(rng.choice([2**31 - 1, 2**30, 3 * 2**20, 4096, 64, 8, 1]))
    shape, strides, cells = [], [], 1
    for _ in range(int(rng.integers(1, 5))):
        extent = int(rng.integers(2, max(3, min(60, MOST_CELLS // cells) + 1)))
        cells *= extent
        most = (2**63 - 1) // size // (extent - 1)
        bits = int(rng.integers(0, most.bit_length() + 1)) if rng.random() < 0.5 else most.bit_length()
        shape.append(extent)
        strides.append(min(most, (1 << bits) - int(rng.integers(0, 2))) * int(rng.choice([1, 1, -1])))
        if cells > MOST_CELLS // 2:
            break
    return size, shape, strides


def wide_case(rng):
    """A view of large items that row 6 does not refuse."""
    size, shape, strides = drawn(rng)
    while sum((extent - 1) * abs(stride) for extent, stride in zip(shape, strides)) > 2**63 - 1:
        size, shape, strides = drawn(rng)
    purpose, chosen = [("P", "-"), ("P", "0"), ("P", "1"), ("F", "0"), ("F", "1")][int(rng.integers(0, 5))]
    view = np.asarray(Described(tuple(shape), size, tuple(stride * size for stride in strides)))
    return Wide(size, view, purpose, chosen)


def address(view, index):
    """Where NumPy has the item, from the first on."""
    return view[tuple(slice(i, i + 1) for i in index)].__array_interface__["data"][0] - BASE


def judge_wide(case, text):
    """Raises Wrong unless each index is met once, and each at the address where NumPy has it. Returns the answer."""
    answer = read_answer(text)
    steps = answer.axes[0][2:] if answer.axes else [0, 0]
    found = {}
    for length, there, here in answer.blocks:
        for k in range(length):
            at = there + k * steps[0]
            if at in found:
                raise Wrong(f"index {at} is visited twice")
            found[at] = (here + k * steps[1]) * case.size % WORD
    due = {at: address(case.view, index) % WORD for at, index in enumerate(product(*map(range, case.view.shape)))}
    if found.keys() != due.keys():
        raise Wrong("some index is not visited")
    if found != due:
        raise Wrong("an item lies elsewhere in NumPy's view")
    return answer
