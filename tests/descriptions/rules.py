"""Ask 5 from document 02's words, with whole numbers of any size: what a description says and the way back, or the number that refuses it."""

import re
from math import prod

NUMBER = rb"(?:0|[1-9][0-9]{0,19})"
SIGNED = rb"(?:0|-?[1-9][0-9]{0,18})"
U64, I64 = range(2**64), range(-(2**63), 2**63)


def fields(line, letter, number):
    """The numbers of a line with this letter; None if it is not such a line."""
    if re.fullmatch(letter + rb"(?:," + number + rb")*", line) is None:
        return None
    return [int(field) for field in line.split(b",")[1:]]


def read(text):
    """Size, shape and byte strides, these None without a T line; None if the text is not in the form."""
    if len(text) > 16_384 or not text.endswith(b"\n"):
        return None
    lines = text[:-1].split(b"\n")
    if len(lines) not in (2, 3):
        return None
    head, shape = fields(lines[0], b"N", NUMBER), fields(lines[1], b"S", NUMBER)
    strides = fields(lines[2], b"T", SIGNED) if len(lines) == 3 else None
    if head is None or len(head) != 2 or shape is None or len(lines) == 3 and strides is None:
        return None
    if any(number not in U64 for number in head + shape) or any(stride not in I64 for stride in strides or []):
        return None
    if any(len(row) != head[1] for row in (shape, strides) if row is not None):
        return None
    return head[0], shape, strides


def packed(size, shape):
    """An axis's byte stride is the size times the extents after it."""
    return [size * prod(shape[axis + 1 :]) for axis in range(len(shape))]


def packed_fits(size, shape):
    """Whether each of them is within 64-bit signed: from the last axis back, so that a text with thousands of axes takes no long time."""
    stride = size
    for extent in reversed(shape):
        if stride not in I64:
            return False
        stride *= extent
    return True


def from_numpy(text):
    """The size, our extents and our strides; or the refusal's number."""
    told = read(text)
    if told is None:
        return 12
    size, shape, strides = told
    if size == 0 or not (packed_fits(size, shape) if strides is None else all(stride % size == 0 for stride in strides)):
        return 19
    if len(shape) > 64:
        return 1
    if strides is None:
        strides = packed(size, shape)
    return size, shape[::-1], [stride // size for stride in reversed(strides)]


def write(size, shape, strides):
    lines = [("N", size, len(shape)), ("S", *shape)] + ([] if strides is None else [("T", *strides)])
    return "".join(",".join(map(str, line)) + "\n" for line in lines).encode()


def to_numpy(size, extents, strides, room):
    """The text; or the refusal's number."""
    strides_in_bytes = [size * stride for stride in strides]
    if size == 0 or any(stride not in I64 for stride in strides_in_bytes):
        return 19
    if len(extents) > 64:
        return 1
    if len(strides) != len(extents):
        return 3
    text = write(size, extents[::-1], strides_in_bytes[::-1])
    return 14 if len(text) > room else text
