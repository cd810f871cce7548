"""Seeded NumPy views: slices, negative steps, broadcasts, transposes, windows and as_strided.

Every view is made twice by the same steps: over a buffer of random bytes, and over a twin that holds its own element offsets 0, 1, 2, ... So the
twin tells which element of the buffer each index of the view means, and nothing here multiplies an index by a stride.
"""

from dataclasses import dataclass

import numpy as np
from numpy.lib.stride_tricks import as_strided, sliding_window_view

SIZES = (1, 2, 3, 4, 8, 8, 8, 16, 24, 32, 64)
MOST_CELLS = 2000  # an answer stays well within 65,536 bytes
MOST_RANK = 12
ELEMENTS = 60000


@dataclass
class Case:
    how: str  # the steps that made the view
    size: int  # of an element, in bytes
    buffer: np.ndarray  # the elements, one axis
    view: np.ndarray
    twin: np.ndarray  # the view of the offsets
    order: str  # the order of the fresh destination, C or F
    purpose: str
    chosen: str

    def text(self):
        """The layout text: operand 0 is the fresh destination, operand 1 the view."""
        fresh = np.empty(self.view.shape, self.view.dtype, order=self.order)
        lines = [["L", self.purpose, self.view.ndim, 2, self.chosen], ["E", *self.view.shape]]
        for array in (fresh, self.view):
            lines.append(["O", self.size, *(stride // self.size for stride in array.strides)])
        return "".join(",".join(map(str, line)) + "\n" for line in lines)


def factors(rng, elements, rank):
    """A shape of so many axes with at most so many elements."""
    shape, room = [], elements
    for _ in range(rank):
        extent = int(rng.integers(1, max(2, min(room, 40) + 1)))
        shape.append(extent)
        room //= extent
    rng.shuffle(shape)
    return tuple(shape)


def random_slice(rng, extent):
    """A slice of an axis, often with a step, often backwards."""
    step = int(rng.choice([1, 1, 1, 2, 3, -1, -1, -2, -5]))
    first, last = sorted(int(i) for i in rng.integers(0, extent + 1, 2))
    if rng.random() < 0.7:
        first, last = 0, extent
    if step > 0:
        return slice(first, last, step)
    return slice(last - 1 if last else 0, first - 1 if first else None, step)


def change(rng, view):
    """One random change of a view: its name, and a function that makes it. The function serves the view and its twin."""
    rank = view.ndim
    kind = rng.choice(["slice", "slice", "transpose", "newaxis", "broadcast", "index", "flip", "diagonal", "window", "slice"])
    if kind == "newaxis" and rank < MOST_RANK:
        place = int(rng.integers(0, rank + 1))
        return f"expand_dims({place})", lambda a: np.expand_dims(a, place)
    if kind == "broadcast" and rank < MOST_RANK:
        shape = (int(rng.integers(2, 5)), *(int(rng.integers(2, 5)) if e == 1 else e for e in view.shape))
        return f"broadcast_to({shape})", lambda a: np.broadcast_to(a, shape)
    if rank == 0:
        return "[...]", lambda a: a[...]
    axis = int(rng.integers(0, rank))
    if kind == "transpose":
        axes = tuple(int(i) for i in rng.permutation(rank))
        return f"transpose({axes})", lambda a: a.transpose(axes)
    if kind == "index" and view.shape[axis]:
        where = (slice(None),) * axis + (int(rng.integers(0, view.shape[axis])),)
        return f"[{':,' * axis}{where[-1]}]", lambda a: a[where]
    if kind == "flip":
        return f"flip({axis})", lambda a: np.flip(a, axis)
    if kind == "diagonal" and rank > 1:
        other = (axis + 1) % rank
        return f"diagonal(0,{axis},{other})", lambda a: a.diagonal(0, axis, other)
    if kind == "window" and view.shape[axis] > 3 and rank < MOST_RANK:
        width = int(rng.integers(2, 4))
        return f"sliding_window_view({width},{axis})", lambda a: sliding_window_view(a, width, axis)
    cut = tuple(random_slice(rng, e) for e in view.shape)
    return f"[{', '.join(f'{c.start}:{c.stop}:{c.step}' for c in cut)}]", lambda a: a[cut]


def strided(rng):
    """A shape and strides of any kind, and the element of index 0, all within the buffer."""
    if rng.random() < 0.25:
        rank = int(rng.integers(9, MOST_RANK + 1))
        shape = [int(e) for e in rng.choice([1, 2, 2, 2, 3], rank)]
    else:
        shape = list(factors(rng, MOST_CELLS, int(rng.integers(1, 6))))
    while np.prod(shape) > MOST_CELLS:
        shape[int(np.argmax(shape))] -= 1
    strides, span = [], ELEMENTS - 1
    for extent in shape:
        furthest = span // max(1, extent - 1)
        reach = int(rng.choice([0, 1, 2, 8, 40, 128, 600, 4096, 10000]))
        stride = int(rng.choice([reach, int(rng.integers(0, reach + 1))]))
        stride = min(stride, furthest)
        span -= (extent - 1) * stride
        strides.append(stride * int(rng.choice([1, 1, -1])))
    first = sum((extent - 1) * -stride for extent, stride in zip(shape, strides) if stride < 0)
    return shape, strides, first + int(rng.integers(0, span + 1))


def trimmed(view, twin, steps):
    """The view without what goes beyond MOST_CELLS."""
    while view.size > MOST_CELLS:
        axis = int(np.argmax(view.shape))
        cut = (slice(None),) * axis + (slice(0, view.shape[axis] * MOST_CELLS // view.size or 1),)
        steps.append(f"[{':,' * axis}:{cut[-1].stop}]")
        view, twin = view[cut], twin[cut]
    return view, twin


def case(rng):
    """A random view with its twin, and what the layout is planned for."""
    size = int(rng.choice(SIZES))
    buffer = rng.integers(0, 256, ELEMENTS * size, dtype=np.uint8).view(np.dtype(f"V{size}"))
    offsets = np.arange(ELEMENTS)
    if rng.random() < 0.4:
        shape, strides, first = strided(rng)
        steps = [f"as_strided from {first}, shape {shape}, strides {strides}"]
        view = as_strided(buffer[first:], shape, [s * size for s in strides])
        twin = as_strided(offsets[first:], shape, [s * offsets.itemsize for s in strides])
    else:
        shape = factors(rng, int(rng.choice([50, 1500, ELEMENTS])), int(rng.integers(0, 6)))
        order = str(rng.choice(["C", "F"]))
        steps = [f"reshape({shape}, {order})"]
        view, twin = (array[: int(np.prod(shape))].reshape(shape, order=order) for array in (buffer, offsets))
        for _ in range(int(rng.integers(0, 5))):
            name, make = change(rng, view)
            steps.append(name)
            view, twin = make(view), make(twin)
    view, twin = trimmed(view, twin, steps)
    purpose, chosen = [("P", "-"), ("P", "0"), ("P", "0"), ("P", "1"), ("F", "0"), ("F", "1")][int(rng.integers(0, 6))]
    return Case(" ".join(steps), size, buffer, view, twin, str(rng.choice(["C", "F"])), purpose, chosen)
