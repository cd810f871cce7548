"""Times gougelily_copy by ratio: beside NumPy's copyto on the same buffers, memcpy, the original's replay_copy_raw and a plain Rust loop.

All columns take turns in one process. A turn warms up by one batch of calls and times a few; the best batch of all turns counts. A batch has as many
calls as take about a millisecond. All but NumPy are called in batches by the Rust side, NumPy from here: a call costs it some 200 ns more.
The last columns have the plain loop block by block: over the blocks of the plan that the copy follows (P, destination chosen), to which the copy is held,
and over those of the F plan, which are not fitted to the L1 cache: what the fit gains. Every column's result is compared with NumPy's once. A ratio above
its goal has a !.

With --sizes it times square arrays of 8-byte cells from 4 KB to 256 MB, whole and transposed, and prints their rates. With --kernels it times some
transposes with other loops inside the plan's blocks: eight runs at once, and, where a cell has 1, 2 or 4 bytes, tiles of cells turned in registers by
masks.
"""

import argparse
import ctypes
import os
import sys
import time
from dataclasses import dataclass
from pathlib import Path

try:
    import numpy as np
except ImportError:
    sys.exit("bench/export: NumPy is not there (Debian's package python3-numpy)")

sys.path.insert(0, str(Path(__file__).resolve().parents[2] / "python"))

import gougelily as g  # noqa: E402
from gougelily.library import library  # noqa: E402


class Operand(ctypes.Structure):
    _fields_ = [("bytes", ctypes.c_void_p), ("len", ctypes.c_size_t), ("start", ctypes.c_ssize_t), ("strides", ctypes.POINTER(ctypes.c_ssize_t))]


class Job(ctypes.Structure):
    _fields_ = [
        ("width", ctypes.c_size_t),
        ("rank", ctypes.c_size_t),
        ("extents", ctypes.POINTER(ctypes.c_size_t)),
        ("blocks", ctypes.POINTER(ctypes.c_size_t)),
        ("to", Operand),
        ("from_", Operand),
    ]


RUST = ctypes.CDLL(os.environ["COPYING_LIBRARY"])
for timed, arguments in {
    "time_port": [ctypes.c_void_p, ctypes.POINTER(Job), ctypes.POINTER(ctypes.c_uint64), ctypes.c_size_t],
    "time_original": [ctypes.POINTER(Job), ctypes.c_size_t],
    "time_plain": [ctypes.POINTER(Job), ctypes.c_size_t],
    "time_blocks": [ctypes.POINTER(Job), ctypes.c_size_t],
    "time_words": [ctypes.POINTER(Job), ctypes.c_size_t],
    "time_eight": [ctypes.POINTER(Job), ctypes.c_size_t],
    "time_memcpy": [ctypes.c_void_p, ctypes.c_void_p, ctypes.c_size_t, ctypes.c_size_t],
}.items():
    getattr(RUST, timed).argtypes = arguments
    getattr(RUST, timed).restype = ctypes.c_double

KINDS = {1: "u1", 2: "u2", 3: "V3", 4: "u4", 8: "u8", 12: "V12", 16: "c16"}


@dataclass
class Case:
    """A copy: the whole buffers, the views of them, the greatest ratio to NumPy (or to memcpy) that is aimed at."""

    name: str
    to: np.ndarray
    source: np.ndarray
    goal: float | None = None
    memcpy: bool = False


def filled(shape, width):
    """An array whose pages are its own."""
    array = np.empty(shape, KINDS[width])
    bytes_of(array)[:] = np.arange(array.nbytes, dtype=np.uint64).astype(np.uint8) if array.nbytes < 1 << 24 else 7
    return array


def bytes_of(array):
    """All bytes of an array whose cells lie without gaps, forwards or backwards."""
    while array.base is not None and not array.flags.c_contiguous:
        array = array.base
    return np.frombuffer(memoryview(array).cast("B"), np.uint8) if array.dtype.kind != "V" else array.reshape(-1).view("u1")


def transpose_goal(n, width):
    """The goals that were set for transposes, as ratios to NumPy."""
    if n < 256:
        return None
    if width == 16:
        return 1.0
    if n & (n - 1) == 0:
        return 0.35
    return 0.75 if width == 8 else 0.6


def cases(quick):
    for name, size in (("1 KB", 1 << 10), ("16 KB", 1 << 14), ("1 MB", 1 << 20), ("64 MB", 1 << 26)):
        if not (quick and size > 1 << 20):
            yield Case(f"contiguous, {name}", filled(size // 8, 8), filled(size // 8, 8), 1.1, memcpy=True)
    for width in (1, 2, 4, 8, 16):
        for n in (64, 256, 1000, 1024, 4096):
            if not (quick and n > 1024):
                yield Case(f"transpose {n} x {n}, {width} bytes", filled((n, n), width), filled((n, n), width).T, transpose_goal(n, width))
    for width in (1, 8):
        cube = filled((128, 128, 128), width)
        yield Case(f"rotation of 128^3, {width} bytes", filled((128, 128, 128), width), cube.transpose(1, 2, 0))
        yield Case(f"axes of 128^3 reversed, {width} bytes", filled((128, 128, 128), width), cube.T)
        yield Case(f"128^3 backwards, {width} bytes", filled((128, 128, 128), width), cube[::-1, ::-1, ::-1])
        yield Case(f"128^3, both backwards, {width} bytes", filled((128, 128, 128), width)[::-1, ::-1, ::-1], cube[::-1, ::-1, ::-1])
    for width in (1, 2, 3, 4, 8, 12, 16):
        goal = 0.4 if width in (3, 12) else 1.0
        yield Case(f"every second cell of 65,536, {width} bytes", filled(1 << 15, width), filled(1 << 16, width)[::2], goal)
        yield Case(f"every second cell of 1,000 rows, {width} bytes", filled((1000, 500), width), filled((1000, 1000), width)[:, ::2], goal)
    for width in (3, 12):
        yield Case(f"transpose 1000 x 1000, {width} bytes", filled((1000, 1000), width), filled((1000, 1000), width).T, 0.4)
    yield Case("rank 6 (8^6), axes reversed, 8 bytes", filled((8,) * 6, 8), filled((8,) * 6, 8).T)
    yield Case("rank 6 (8^6), axes in pairs turned, 4 bytes", filled((8,) * 6, 4), filled((8,) * 6, 4).transpose(1, 0, 3, 2, 5, 4))


def operand(view):
    """The operand of a view: its bytes from the lowest cell on, the cell of index 0, strides in cells with the last axis first."""
    strides = [stride // view.itemsize for stride in view.strides[::-1]]
    low = sum(min(0, stride * (extent - 1)) for stride, extent in zip(strides, view.shape[::-1]))
    high = sum(max(0, stride * (extent - 1)) for stride, extent in zip(strides, view.shape[::-1]))
    first = view.__array_interface__["data"][0]
    kept = (ctypes.c_ssize_t * max(1, len(strides)))(*strides)
    return Operand(first + low * view.itemsize, (high - low + 1) * view.itemsize, -low, kept), kept


def job_of(extents, to, source, width, blocks=None):
    sizes = (ctypes.c_size_t * max(1, len(extents)))(*extents)
    cut = (ctypes.c_size_t * max(1, len(extents)))(*(blocks or extents))
    return Job(width, len(extents), sizes, cut, to, source), (sizes, cut)


def blocked(case, purpose, to, source, record):
    """The job of the plain loop over a plan's blocks."""
    plan = g.plan(case.to, case.source, purpose=purpose, chosen=0, machine=record)
    rows = [(ctypes.c_ssize_t * max(1, plan.rank))(*row) for row in plan.strides]
    job, kept = job_of(list(plan.extents), Operand(to.bytes, to.len, to.start, rows[0]), Operand(source.bytes, source.len, source.start, rows[1]), case.to.itemsize, list(plan.blocks))
    return job, (rows, kept), plan


def squares():
    """Two square arrays of 8-byte cells for each size, of 4 KB to 256 MB; no side is a power of two."""
    for power in range(12, 29, 2):
        n = round((2**power / 8) ** 0.5)
        yield filled((n, n), 8), filled((n, n), 8)


def columns(case, record, kernels=False):
    """The name of each column, and a function that makes so many calls and answers the seconds."""
    to, kept = operand(case.to)
    source, kept_too = operand(case.source)
    job, kept_job = job_of(case.to.shape[::-1], to, source, case.to.itemsize)
    port = ctypes.cast(library().gougelily_copy, ctypes.c_void_p)
    p_job, kept_p, plan = blocked(case, "P", to, source, record)
    f_job, kept_f, _ = blocked(case, "F", to, source, record)
    numbers = (ctypes.c_uint64 * 4)(*record)
    keep = (kept, kept_too, kept_job, kept_p, kept_f, numbers)

    def numpy(calls, to=case.to, source=case.source, copyto=np.copyto):
        begun = time.perf_counter()
        for _ in range(calls):
            copyto(to, source)
        return time.perf_counter() - begun

    made = {
        "NumPy": numpy,
        "port": lambda calls: RUST.time_port(port, job, numbers, calls),
        "original": lambda calls: RUST.time_original(job, calls),
        "plain": lambda calls: RUST.time_plain(job, calls),
        "P": lambda calls: RUST.time_blocks(p_job, calls),
        "F": lambda calls: RUST.time_blocks(f_job, calls),
    }
    if kernels:
        made["eight"] = lambda calls: RUST.time_eight(p_job, calls)
        if case.to.itemsize <= 4:
            made["words"] = lambda calls: RUST.time_words(p_job, calls)
    if case.memcpy:
        made["memcpy"] = lambda calls: RUST.time_memcpy(to.bytes, source.bytes, to.len, calls)
    return made, plan, keep


def measured(case, record, seconds, kernels=False):
    made, plan, keep = columns(case, record, kernels)
    want = case.source.tobytes()
    calls = {}
    for name, run in made.items():
        bytes_of(case.to)[:] = 0
        if run(1) < 0:
            sys.exit(f"bench/export: {case.name} was refused")
        if case.to.tobytes() != want:
            sys.exit(f"bench/export: {name} copied {case.name} wrongly")
        calls[name] = max(1, int(0.001 / max(run(1), 1e-9)))
    best = dict.fromkeys(made, float("inf"))
    end = time.perf_counter() + seconds
    while True:
        for name, run in made.items():
            run(calls[name])
            for _ in range(3):
                best[name] = min(best[name], run(calls[name]) / calls[name])
        if time.perf_counter() > end:
            return best, plan


def print_kernels(record, seconds):
    """Ratios to NumPy of the copy, a plain loop, and loops inside the plan's blocks."""
    print("| layout | plan blocks | NumPy µs | copy | plain loop | plain loop in the blocks | eight runs at once | turned in registers |")
    print("|---|---|---|---|---|---|---|---|")
    for n, width in ((256, 1), (256, 2), (256, 4), (1024, 1), (1000, 1), (1000, 8), (1000, 12), (1000, 16)):
        best, plan = measured(Case(f"transpose {n} x {n}, {width} bytes", filled((n, n), width), filled((n, n), width).T), record, seconds, True)
        ratios = [f"{best[way] / best['NumPy']:.2f}" if way in best else "-" for way in ("port", "plain", "P", "eight", "words")]
        print(f"| {n} x {n}, {width} bytes | {' x '.join(map(str, plan.blocks))} | {best['NumPy'] * 1e6:.2f} | {' | '.join(ratios)} |", flush=True)


def print_rates(record, seconds):
    """GB/s for each size: an array's bytes over the time of its copy."""
    print("## The copy, by size\n\n| bytes | whole, port | whole, NumPy | memcpy | transposed, port | transposed, NumPy |\n|---|---|---|---|---|---|")
    for to, source in squares():
        whole, _ = measured(Case("whole", to, source, memcpy=True), record, seconds)
        turned, _ = measured(Case("transposed", to, source.T), record, seconds)
        rates = [to.nbytes / time / 1e9 for time in (whole["port"], whole["NumPy"], whole["memcpy"], turned["port"], turned["NumPy"])]
        print(f"| {to.nbytes} | {' | '.join(f'{rate:.3g}' for rate in rates)} |", flush=True)


def main():
    options = argparse.ArgumentParser(description=__doc__, formatter_class=argparse.RawDescriptionHelpFormatter)
    options.add_argument("--seconds", type=float, default=2.0, help="for each layout (2)")
    options.add_argument("--only", default="", help="layouts whose name has this in it")
    options.add_argument("--quick", action="store_true", help="leave out what is above L3")
    options.add_argument("--machine", action="store_true", help="this machine's record in place of the fixed one")
    options.add_argument("--kernels", action="store_true", help="transposes with other loops in place of the table")
    options.add_argument("--sizes", action="store_true", help="the rates of arrays of 4 KB to 256 MB in place of the table")
    given = options.parse_args()
    if not hasattr(library(), "gougelily_copy"):
        sys.exit("bench/export: this library has no gougelily_copy")
    record = g.machine() if given.machine else g.FIXED
    if given.kernels:
        print_kernels(record, given.seconds)
        return
    if given.sizes:
        print_rates(record, given.seconds)
        return
    print("## The copy\n\n| layout | plan blocks | NumPy µs | to NumPy | goal | to memcpy | to the original | to the plain loop | to it in P blocks | plain loop, F blocks to P blocks |")
    print("|---|---|---|---|---|---|---|---|---|---|")
    for case in cases(given.quick):
        if given.only not in case.name:
            continue
        best, plan = measured(case, record, given.seconds)
        port = best["port"]
        judged = port / best["memcpy" if case.memcpy else "NumPy"]
        over = " !" if case.goal is not None and judged > case.goal else ""
        print(
            f"| {case.name} | {' x '.join(map(str, plan.blocks)) or '-'} | {best['NumPy'] * 1e6:.2f} | {port / best['NumPy']:.2f}"
            f" | {'-' if case.goal is None else f'{case.goal:.2f}'}{over} | {format(port / best['memcpy'], '.2f') if case.memcpy else '-'}"
            f" | {port / best['original']:.2f} | {port / best['plain']:.2f} | {port / best['P']:.2f} | {best['F'] / best['P']:.2f} |",
            flush=True,
        )


if __name__ == "__main__":
    main()
