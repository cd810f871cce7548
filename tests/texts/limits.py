"""Every refusal that a text can reach, at its limit and one past it, and the limits of joining axes and of cutting by rank. What is due is written
by hand: a row's number, or None for a listing."""

from functools import partial

from form import Layout, Operand, write_text
from judge import Wrong, due, judge
from walk import read_axes

MOST = 2**63 - 1
LONG = "1" + "0" * 6000


def layout(extents, *operands, purpose="P", chosen=None):
    """Each operand is its size and its strides."""
    return Layout(purpose, chosen, tuple(extents), tuple(Operand(size, tuple(strides)) for size, strides in operands))


def text(extents, *operands, **others):
    return write_text(layout(extents, *operands, **others))


def ranks():
    """Row 1."""
    for rank in (0, 1, 8, 9, 63, 64, 65, 66, 300):
        row = 1 if rank > 64 else None
        yield f"rank {rank}, every extent 1", text([1] * rank, (8, [3] * rank)), row
        yield f"rank {rank}, every extent 0", text([0] * rank, (8, [3] * rank)), row
    yield "rank 64, 1,024 cells", text([1] * 54 + [2] * 10, (8, range(64))), None
    yield "rank 64, 2,048 cells", text([2] * 11 + [1] * 53, (1, range(64))), None


def operands():
    """Rows 2 and 4."""
    pair = 8, [1, 5]
    for count in (0, 1, 2, 7, 8, 9, 10, 100):
        row = None if 1 <= count <= 8 else 2
        yield f"{count} operands", text([2, 3], *[pair] * count), row
        yield f"{count} operands, rank 0", text([], *[(8, [])] * count), row
    for purpose in "PF":
        for count in (1, 2, 8):
            for chosen, row in ((0, None), (count - 1, None), (count, 4), (count + 1, 4), (2**64 - 1, 4), (2**64, 12)):
                yield f"{purpose}, operand {chosen} of {count}", text([2, 3], *[pair] * count, purpose=purpose, chosen=chosen), row
    yield "P, none chosen", text([2, 3], pair), None
    yield "F, none chosen", text([2, 3], pair, purpose="F"), 12


def totals():
    """Rows 5 and 13. With strides of 0 no reach is in the way."""
    factors = 3, 5, 17, 257, 641, 65_537, 6_700_417  # of 2^64 - 1
    for extents, row in (
        ([2**64 - 1], 13),
        (factors, 13),
        ([2**64 - 1, 1], 13),
        ([2] * 63, 13),
        ([2] * 64, 5),
        ([2**63, 2], 5),
        ([2**32, 2**32], 5),
        ([*factors, 2], 5),
        ([2**64 - 1] * 64, 5),
        ([2**64 - 1, 2, 0], None),
        ([0, 2**32, 2**32], None),
        ([1_048_577, 0], None),
        ([1_048_576], None),
        ([1_048_577], 13),
        ([2**10, 2**10], None),
        ([17, 61_681], 13),
        ([2] * 20, None),
        ([2] * 21, 13),
    ):
        still = [0] * len(extents)
        yield f"extents {extents}, strides 0", text(extents, (8, still)), row
        yield f"extents {extents}, strides 0, size 0", text(extents, (0, still), purpose="F", chosen=0), row
    for extent, row in ((1_048_576, None), (1_048_577, 13)):
        yield f"extent {extent}, stride 1", text([extent], (8, [1])), row
        yield f"extent {extent}, strides -1 and 1", text([extent], (8, [-1]), (4, [1]), chosen=1), row


def reaches():
    """Row 6."""
    for extents, strides, row in (
        ([2], [MOST], None),
        ([2], [-MOST], None),
        ([2], [-MOST - 1], 6),
        ([3], [2**62 - 1], None),
        ([3], [2**62], 6),
        ([3], [-(2**62)], 6),
        ([2, 2], [2**62, 2**62 - 1], None),
        ([2, 2], [2**62, 2**62], 6),
        ([2, 2], [-(2**62), 2**62], 6),
        ([2, 2], [MOST, 0], None),
        ([2, 2], [MOST, 1], 6),
        ([2, 1], [MOST, -MOST - 1], None),
        ([8], [MOST // 7], None),
        ([8], [MOST // 7 + 1], 6),
        ([1], [-MOST - 1], None),
        ([1, 1], [-MOST - 1, -MOST - 1], None),
        ([0, 3], [2**62, 2**62], None),
        ([2**63], [1], 13),
        ([2**63 + 1], [1], 6),
        ([2**63 + 1], [-1], 6),
        ([2**64 - 1], [1], 6),
    ):
        yield f"extents {extents}, strides {strides}, size 0", text(extents, (0, strides)), row
        yield f"extents {extents}, strides {strides}, size 0, second operand", text(extents, (0, [0] * len(extents)), (0, strides), chosen=0), row


def sizes():
    """Spans of 2^63 - 1 bytes and just above, where row 7 was, and up to all that row 6 allows."""
    for extents, size, strides, row in (
        ([], MOST, [], None),
        ([], MOST + 1, [], None),
        ([], 2**64 - 1, [], None),
        ([1], MOST, [5], None),
        ([1], MOST + 1, [5], None),
        ([5], MOST, [0], None),
        ([5], MOST + 1, [0], None),
        ([2], 1, [MOST - 1], None),
        ([2], 1, [MOST], None),
        ([2], 1, [1 - MOST], None),
        ([2], 1, [-MOST], None),
        ([2], 7, [MOST // 7 - 1], None),
        ([2], 7, [MOST // 7], None),
        ([2], 8, [2**60 - 2], None),
        ([2], 8, [2**60 - 1], None),
        ([2], 8, [2**60], None),
        ([2, 3], 49, [MOST // 49 - 3, 1], None),
        ([2, 3], 49, [MOST // 49 - 2, 1], None),
        ([2, 2], 2**64 - 1, [2**62, 2**62 - 1], None),
        ([600, 2], 2**64 - 1, [1, 2**62], None),
        ([600, 2], 8, [-(2**53), 2**61], None),
        ([2, 0], 2**64 - 1, [MOST, -MOST - 1], None),
        ([2**62], 1, [1], 13),
        ([2**62], 2, [1], 13),
    ):
        name = f"extents {extents}, size {size}, strides {strides}"
        yield name, text(extents, (size, strides)), row
        yield f"{name}, second operand", text(extents, (0, [0] * len(extents)), (size, strides), purpose="F", chosen=1), row


def ranges():
    """Row 12 by a number: in its range, one past it, and far beyond. An extent of 0 keeps the other rows quiet."""
    for number, row in (
        (0, None), (2**63, None), (2**64 - 1, None), (2**64, 12), (10**20, 12), (LONG, 12), (-1, 12), ("-0", 12), ("00", 12), ("01", 12), ("", 12),
    ):
        name = str(number)[:24]
        yield f"extent {name}", f"L,P,2,1,-\nE,0,{number}\nO,8,1,1\n".encode(), row
        yield f"size {name}", f"L,P,2,1,-\nE,0,1\nO,{number},1,1\n".encode(), row
    for number, row in (
        (0, None), (MOST, None), (2**63, 12), (2**64, 12), (LONG, 12), (-1, None), (-(2**63), None), (-(2**63) - 1, 12), (-(2**64), 12),
        (f"-{LONG}", 12), ("-0", 12), ("+1", 12), ("01", 12), ("-01", 12), ("--1", 12), ("-", 12), ("", 12),
    ):
        yield f"stride {str(number)[:24]}", f"L,P,2,1,-\nE,0,1\nO,8,1,{number}\n".encode(), row
    # 2^64 + 1 would be the right count if it wrapped
    for number in (0, 2, 2**64 - 1, 2**64, 2**64 + 1, LONG, -1, "01", "-", ""):
        name = str(number)[:24]
        yield f"rank {name} told of 1", f"L,P,{number},1,-\nE,2\nO,8,1\n".encode(), 12
        yield f"operands {name} told of 1", f"L,P,1,{number},-\nE,2\nO,8,1\n".encode(), 12
    yield "operands 2^64 told of 0", f"L,P,1,{2**64},-\nE,2\n".encode(), 12


def orders():
    """Which of two rows refuses."""
    wide = [2] * 65
    yield "1 before 2", text(wide), 1
    yield "1 before 4", text(wide, (8, [0] * 65), chosen=1), 1
    yield "1 before 5", text(wide, (8, [0] * 65)), 1
    yield "1 before 6", text(wide, (0, [MOST] * 65)), 1
    yield "1 before 13", text([2] * 21 + [1] * 44, (0, [0] * 65)), 1
    yield "2 before 4", text([2], chosen=0), 2
    yield "2 before 5", text([2**64 - 1, 2]), 2
    yield "2 before 6", text([3], *[(8, [2**62])] * 9), 2
    yield "2 before 13", text([1_048_577]), 2
    yield "4 before 5", text([2**64 - 1, 2], (8, [0, 0]), chosen=1), 4
    yield "4 before 6", text([3], (0, [2**62]), chosen=1), 4
    yield "4 before 13", text([1_048_577], (8, [1]), chosen=1), 4
    yield "5 before 6", text([2**64 - 1, 2], (0, [MOST, 0])), 5
    yield "6 before 13", text([2**63 + 1], (0, [1])), 6
    yield "13, where row 7 was before it", text([1_048_577], (2**63, [0])), 13
    yield "13, where row 7 was before it by the reach", text([1_048_577], (8, [2**40])), 13
    yield "13 before 14", text([2, 524_289], (8, [1, 3])), 13
    yield "14", text([2, 524_288], (8, [1, 3])), 14
    for row, good in (
        (1, text(wide, (8, [0] * 65))),
        (2, text([2])),
        (4, text([2], (8, [1]), chosen=1)),
        (5, text([2**64 - 1, 2], (8, [0, 0]))),
        (6, text([3], (8, [2**62]))),
        (13, text([1_048_577], (8, [1]))),
        (14, text([2, 524_288], (8, [1, 3]))),
    ):
        yield f"{row}, in the form", good, row
        yield f"12 before {row}: no last LF", good[:-1], 12
        yield f"12 before {row}: a leading zero", good.replace(b"E,", b"E,0"), 12
        yield f"12 before {row}: a line more", good + b"O,8,1\n", 12


def joins():
    """Axes that just join, and that just do not. A third axis of extent 0 keeps the rows quiet; the line K tells which it is."""
    for extents, strides, rank in (
        ([3, (2**64 - 1) // 3], [0, 0], 2),
        ([2, 2**63], [0, 0], 3),
        ([2**64 - 1, 2], [0, 0], 3),
        ([2**62, 2], [1, 2**62], 2),
        ([2**62, 2], [-2, -(2**63)], 2),
        ([2**62, 2], [2, -(2**63)], 3),
        ([2**32, 2**31], [2**30, 2**62], 2),
        ([2**32, 2**31], [2**31, -(2**63)], 3),
        ([2**63 - 1, 2], [1, MOST], 2),
        ([2**63 - 1, 0], [1, MOST], 2),
        ([2**63, 0], [-1, -(2**63)], 3),
        ([2**64 - 1, 0], [1, -1], 3),
        ([2**64 - 1, 0], [-1, 1], 3),
        ([2**64 - 1, 0], [0, 0], 2),
        ([5, 7], [3, 15], 2),
        ([5, 7], [3, -15], 3),
        ([5, 7], [-3, -15], 2),
        ([5, 7], [0, 1], 3),
        ([5, 7], [3, 0], 3),
    ):
        yield f"extents {extents}, strides {strides}", text([*extents, 0], (8, [*strides, 5])), rank
        yield f"extents {extents}, strides {strides} and others", text([*extents, 0], (8, [*strides, 5]), (8, [*strides, 5]), (4, [1, 1, 1])), 3


def cuts():
    """Plans with cut axes at and around the rank where only axis 0 is cut: two operands in opposite orders, with gaps so that no axes join."""
    for rank in (8, 9, 10):
        extents = [64] + [2] * (rank - 2) + [3]
        rising, falling = [1], [1]
        for extent in extents[:-1]:
            rising.append(rising[-1] * extent + 7)
        for extent in extents[:0:-1]:
            falling.append(falling[-1] * extent + 5)
        yield f"rank {rank}, cut", text(extents, (8, rising), (8, falling[::-1]), chosen=0), rank


def compare_rank(rank, text, answer):
    """The plan's rank is the one written here."""
    word = judge(text, answer)
    if not answer.startswith(b"K,%d\n" % rank):
        raise Wrong(f"due is a plan of rank {rank}")
    return word


def compare_cut(rank, text, answer):
    """The same, and blocks are cut on axis 0 and above it."""
    word = compare_rank(rank, text, answer)
    first, *others = read_axes(answer, 2)
    if first.block == first.extent or all(axis.block == axis.extent for axis in others):
        raise Wrong("due is a plan that is cut on axis 0 and above it")
    return word


def compare(row, text, answer):
    """The answer is right, and it is the one written here; so is the test's own table."""
    told = due(text)[0]
    if told != (None if row == 14 else row):
        raise Wrong(f"the test's own table says {told} in place of {row}")
    word = judge(text, answer)
    if (f"R,{row}" if row else "listed") != word.split(", ")[0]:
        raise Wrong(f"due is {row}")
    return word


def run(subject, given):
    rows = {cases: compare for cases in (ranks, operands, totals, reaches, sizes, ranges, orders)}
    for cases, how in {**rows, joins: compare_rank, cuts: compare_cut}.items():
        for name, text, due_there in cases():
            subject.compare(name, text, partial(how, due_there))
