"""Lengths at their limits: texts of 16,384 bytes and one more, outputs of 65,536 bytes and one more."""

from bisect import bisect_left
from functools import partial

from form import MOST_BYTES, write_text
from judge import equal, refused
from limits import compare, layout, text
from plan import small_plan
from walk import ROOM, Axis, listing


def many_axes(length):
    """A text of so many bytes with a rank far above 64. A longer first stride fills it up."""
    rank = (length - len("L,P,1000,1,-\nE\nO,8\n")) // len(",1,1") - 1
    made = f"L,P,{rank},1,-\nE" + ",1" * rank + "\nO,8" + ",1" * rank + "\n"
    return made.replace("O,8,1,", f"O,8,{'1' * (1 + length - len(made))},").encode()


def many_operands(length):
    """A text of so many bytes with far more than 8 operands. A longer extent fills it up."""
    count = (length - len("L,P,1,1000,-\nE,1\n")) // len("O,8,1\n") - 1
    made = f"L,P,1,{count},-\nE,1\n" + "O,8,1\n" * count
    return made.replace("E,1", "E," + "1" * (1 + length - len(made))).encode()


def texts():
    """Texts by their length, with the row that is due."""
    for length in (MOST_BYTES - 1, MOST_BYTES, MOST_BYTES + 1, MOST_BYTES + 2):
        for make, row in ((many_axes, 1), (many_operands, 2)):
            made = make(length)
            assert len(made) == length
            yield f"a text of {length} bytes", made, row if length <= MOST_BYTES else 12
    good = text([2, 3], (8, [1, 2]))
    yield "bytes far behind a good text", good + b"\n" * (MOST_BYTES + 1 - len(good)), 12
    yield "a good text behind 16,384 bytes", b"\n" * MOST_BYTES + good, 12
    yield "a good text again and again", good * (1_000_000 // len(good)), 12
    yield "a million digits", b"L,P,1,1,-\nE," + b"1" * 1_000_000 + b"\nO,8,1\n", 12
    yield "16,384 LF", b"\n" * MOST_BYTES, 12
    yield "no byte", b"", 12
    for byte in range(256):
        yield f"the byte {byte}", bytes([byte]), 12


def greatest(fits, most):
    """The greatest count at which a listing fits; they get longer with the count."""
    return bisect_left(range(1, most + 1), True, key=lambda count: not fits(count))


def small_layout(length):
    """A layout of at most 1,024 cells whose output has so many bytes, and its plan. A stride on axis 0 shows in its line A alone, so that each digit
    more is one byte more."""
    inner, outer = [1] * 8, [10**12, 10**13, 10**12, 10**11, 10**10, 10**13, 10**12, 10**12]

    def made(count):
        return layout([2, count], *((1, strides) for strides in zip(inner, outer)))

    def output(count):
        return listing(small_plan(made(count)), 8, length)

    count = greatest(output, 512)
    missing = length - len(output(count))
    for k in range(8):
        digits = min(missing, 17)
        inner[k], missing = 10**digits, missing - digits
    return made(count), small_plan(made(count))


def large_layout(length):
    """The same with more than 1,024 cells. The operand has size 0, so its region is 64 bytes and no block is cut; the greater stride belongs to the
    outer axis, so the axes keep their order."""

    def plan(inner, count, outer):
        return [Axis(2, 2, (inner,)), Axis(count, count, (outer,))]

    for outer in range(10**15, 2 * 10**15, 10**14):
        count = greatest(lambda count: listing(plan(1, count, outer), 1, length), 3000)
        missing = length - len(listing(plan(1, count, outer), 1, length))
        if missing <= 14:
            inner = 10**missing
            return layout([2, count], (0, [inner, outer])), plan(inner, count, outer)
    raise AssertionError(f"no layout with an output of {length} bytes")


def compare_output(expected, text, answer):
    """The whole output, or 14 if it is too long."""
    fits = len(expected) <= ROOM
    equal(answer, expected if fits else refused(14))
    return f"an output of {len(expected)} bytes" + ("" if fits else ": R,14")


def run(subject, given):
    for name, made, row in texts():
        subject.compare(name, made, partial(compare, row))
    for length in (ROOM - 1, ROOM, ROOM + 1):
        for make in (small_layout, large_layout):
            made, axes = make(length)
            expected = listing(axes, len(made.operands), length)
            assert len(expected) == length
            subject.compare(f"an output of {length} bytes", write_text(made), partial(compare_output, expected))
