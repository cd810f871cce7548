"""Descriptions of arrays in the words of the NumPy array interface, as text (document 02, ask 5). NumPy itself is not needed."""

from __future__ import annotations

import ctypes
from collections.abc import Sequence
from typing import Any, NamedTuple

from .library import BYTES, I64, MAX_RANK, SIZE, U64, library, signed, unsigned
from .refusals import served

# no text that goes back is longer
ROOM = 2_720


class Described(NamedTuple):
    """The size of an element in bytes, and extents and element strides in our order: NumPy's last axis is axis 0."""

    size: int
    extents: tuple[int, ...]
    strides: tuple[int, ...]


def describe(array: Any) -> str:
    """The description of anything that has `__array_interface__`. Where that has no strides the text has no T line.

    >>> class Packed:
    ...     __array_interface__ = {"shape": (3, 4), "typestr": "<f8", "strides": None}
    >>> describe(Packed())
    'N,8,2\\nS,3,4\\n'
    """
    told = array.__array_interface__
    kind, count = told["typestr"][1], int(told["typestr"][2:])
    size = count * 4 if kind == "U" else count
    shape, strides = told["shape"], told.get("strides")
    lines = [("N", size, len(shape)), ("S", *shape)] + ([] if strides is None else [("T", *strides)])
    return "".join(",".join(map(str, line)) + "\n" for line in lines)


def from_numpy(text: str | bytes) -> Described:
    """What a text of lines N,size,rank, S,shape and perhaps T,byte strides says. Raises Refused with 12, 19 or 1.

    >>> from_numpy("N,8,2\\nS,3,4\\nT,-32,8\\n")
    Described(size=8, extents=(4, 3), strides=(1, -4))
    >>> from_numpy("N,8,2\\nS,3,4\\n")
    Described(size=8, extents=(4, 3), strides=(1, 4))
    >>> from_numpy("N,8,1\\nS,3\\nT,12\\n")
    Traceback (most recent call last):
    gougelily.refusals.Refused: refused with 19: size 0, or a byte stride that is no multiple of it or too big
    """
    given = text.encode() if isinstance(text, str) else bytes(text)
    said = ctypes.create_string_buffer(given, len(given) + 1)
    size, rank, extents, strides = (U64 * 1)(), (SIZE * 1)(), (U64 * MAX_RANK)(), (I64 * MAX_RANK)()
    served(library().gougelily_from_numpy(ctypes.cast(said, BYTES), len(given), size, rank, extents, strides))
    return Described(size[0], tuple(extents[: rank[0]]), tuple(strides[: rank[0]]))


def to_numpy(size: int, extents: Sequence[int], strides: Sequence[int]) -> str:
    """The text of an operand, always with its T line. Raises Refused with 19, 1 or 3.

    >>> to_numpy(8, (4, 3), (1, -4))
    'N,8,2\\nS,3,4\\nT,-32,8\\n'
    >>> to_numpy(16, (), ())
    'N,16,0\\nS\\nT\\n'
    """
    unsigned((size,), "size")
    es, ss, room = unsigned(extents, "extents"), signed(strides, "strides"), ctypes.create_string_buffer(ROOM)
    length = served(library().gougelily_to_numpy(size, es, len(es), ss, len(ss), ctypes.cast(room, BYTES), ROOM))
    return room.raw[:length].decode()
