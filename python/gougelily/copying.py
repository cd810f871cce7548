"""The copy itself (document 02, ask 3): the cells of one strided buffer moved to those of another, as a plan's walk meets them."""

from __future__ import annotations

import ctypes
from collections.abc import Iterator, Sequence
from contextlib import contextmanager
from typing import Any, NamedTuple

from .layout import Layout
from .library import library, signed
from .machine import FIXED, Machine
from .refusals import served

STRIDED, WRITABLE = 0x18, 0x01


class Buffer(ctypes.Structure):
    """Py_buffer: how an object lends its memory"""

    _fields_ = [
        ("buf", ctypes.c_void_p),
        ("obj", ctypes.c_void_p),
        ("len", ctypes.c_ssize_t),
        ("itemsize", ctypes.c_ssize_t),
        ("readonly", ctypes.c_int),
        ("ndim", ctypes.c_int),
        ("format", ctypes.c_char_p),
        ("shape", ctypes.POINTER(ctypes.c_ssize_t)),
        ("strides", ctypes.POINTER(ctypes.c_ssize_t)),
        ("suboffsets", ctypes.POINTER(ctypes.c_ssize_t)),
        ("internal", ctypes.c_void_p),
    ]


class Lent(NamedTuple):
    """The bytes from an array's first cell in memory to its last, and the start of the cell with index 0 on every axis, in elements."""

    address: int
    length: int
    start: int

    def meets(self, other: Lent) -> bool:
        return self.address < other.address + other.length and other.address < self.address + self.length


@contextmanager
def lent(view: memoryview, writable: bool = False) -> Iterator[Lent]:
    """What a view lends, for as long as it is held."""
    get, release = ctypes.pythonapi.PyObject_GetBuffer, ctypes.pythonapi.PyBuffer_Release
    held = Buffer()
    get(ctypes.py_object(view), ctypes.byref(held), STRIDED | (WRITABLE if writable else 0))
    try:
        ways = [(extent - 1) * stride for extent, stride in zip(view.shape or (), view.strides or ())]
        low, high = sum(way for way in ways if way < 0), sum(way for way in ways if way > 0)
        cells = 0 not in (view.shape or ())
        yield Lent((held.buf or 0) + low * cells, (high - low + view.itemsize) * cells, -low * cells // (view.itemsize or 1))
    finally:
        release(ctypes.byref(held))


def copy(destination: Any, source: Any, machine: Machine = FIXED) -> None:
    """Copies the cells of one array to those of another: NumPy arrays, memoryviews, or whatever lends its bytes.

    Both have one shape, and elements of one size, 1 to 16 bytes; what the elements mean is not looked at. The destination can be written, and no two
    of its indices share a cell. The two share no memory. Raises Refused with 1, 24, 16 or 18.

    >>> room, held = bytearray(8), bytes(range(4))
    >>> copy(memoryview(room)[::2], memoryview(held)[::-1])
    >>> list(room)
    [3, 0, 2, 0, 1, 0, 0, 0]
    """
    to, of = memoryview(destination), memoryview(source)
    with lent(to, writable=True) as into, lent(of) as held:
        if into.meets(held):
            raise ValueError("destination and source share memory; copy the source first")
        call(Layout.of(to, of), (into.start, held.start), machine, (into.address, into.length), (held.address, held.length))


def copy_layout(layout: Layout, starts: Sequence[int], destination: Any, source: Any, machine: Machine = FIXED) -> None:
    """The copy for a layout in numbers: operand 0 in `destination`, operand 1 in `source`, both flat bytes. A cell starts at offset * size.

    Raises Refused with 1, 2, 24, 5, 6, 8, 9, 16, 17 or 18; then the destination keeps every byte.

    >>> turned = Layout(extents=(2, 3), sizes=(1, 1), strides=((1, 2), (3, 1)))
    >>> room = bytearray(6)
    >>> copy_layout(turned, (0, 0), room, b"abcdef")
    >>> room
    bytearray(b'adbecf')
    >>> copy_layout(turned, (1, 0), room, b"abcdef")
    Traceback (most recent call last):
    gougelily.refusals.Refused: refused with 17: some cell lies outside its buffer
    """
    to, of = memoryview(destination).cast("B"), memoryview(source).cast("B")
    with lent(to, writable=True) as into, lent(of) as held:
        if into.meets(held):
            raise ValueError("destination and source share memory; copy the source first")
        call(layout, starts, machine, (into.address, into.length), (held.address, held.length))


def call(layout: Layout, starts: Sequence[int], machine: Machine, into: tuple[int, int], held: tuple[int, int]) -> None:
    """The library's function on addresses and lengths."""
    begins = signed(starts, "starts")
    served(library().gougelily_copy(*layout.lent()[:6], *machine, begins, len(begins), *into, *held))
