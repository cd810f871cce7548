"""Judging from document 02's words, with sets and whole numbers of any size: the verdict and the marks of a text, or the number it is refused with."""

import re
from collections import Counter
from itertools import product
from math import prod

ACCEPTED, SHORT, DOUBLE, OUTSIDE = range(4)
NUMBER = r"(?:0|[1-9][0-9]{0,19})"


def read(text, rank):
    """The visits of a text, as axis, length and index; None if it is not in the form."""
    line = re.compile(rf"V,({NUMBER}),({NUMBER})((?:,{NUMBER}){{{rank}}})".encode())
    if text and not text.endswith(b"\n"):
        return None
    visits = []
    for given in text.split(b"\n")[:-1]:
        told = line.fullmatch(given)
        if told is None:
            return None
        axis, length, index = int(told[1]), int(told[2]), [int(field) for field in told[3].split(b",")[1:]]
        if max(axis, length, *index) >= 2**64 or length == 0 or axis >= rank:
            return None
        visits.append((axis, length, index))
    return visits


def leaves(extents, axis, length, index):
    last = list(index)
    last[axis] += length - 1
    return any(at >= extent for at, extent in zip(last, extents))


def verdict(extents, visits):
    """The verdict, and the bytes of the mark buffer."""
    if any(leaves(extents, *visit) for visit in visits):
        return OUTSIDE, bytes(prod(extents))
    met = Counter()
    for axis, length, index in visits:
        met.update(tuple(index[:axis]) + (index[axis] + k,) + tuple(index[axis + 1 :]) for k in range(length))
    # axis 0 quickest: the last one that is counted up is the first of the index
    indices = [index[::-1] for index in product(*map(range, reversed(extents)))] if prod(extents) else []
    marks = bytes(index in met for index in indices)
    if max(met.values(), default=0) > 1:
        return DOUBLE, marks
    return (ACCEPTED if all(marks) else SHORT), marks


def judge(extents, text, room):
    """A number, or the verdict and the marks."""
    if len(extents) > 64:
        return 1
    if prod(extents) > 2**64 - 1:
        return 5
    if prod(extents) > 65_536:
        return 13
    if not extents or room != prod(extents):
        return 23
    visits = read(text, len(extents))
    return 23 if visits is None else verdict(extents, visits)
