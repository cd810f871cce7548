"""Damaged copies of good texts. Most are not in the form; some are, and say another layout. Each answer is judged by the test's own reader."""

import random
from collections import Counter
from pathlib import Path

from damages import BREAKING, BYTES, DAMAGES, KEEPING
from form import Layout, Operand, write_text
from recorded import read_cases

EXAMPLES = Path(__file__).resolve().parents[2] / "examples" / "layouts"
SHORT = b"L,P,1,2,0\nE,3\nO,8,-1\nO,0,20\n"
MOST_STACKED = 3
ENOUGH = 2000  # so many texts show every answer


def each_place():
    """A short text with each place changed, and with a byte put before each place: every byte that texts are made of, and their neighbours."""
    for at in range(len(SHORT) + 1):
        yield f"no byte {at}", SHORT[:at] + SHORT[at + 1 :]
        for byte in BYTES:
            put = bytes([byte])
            yield f"{put} for byte {at}", SHORT[:at] + put + SHORT[at + 1 :]
            yield f"{put} before byte {at}", SHORT[:at] + put + SHORT[at:]


def drawn(rng):
    """A small good text; its axes often join, and some have an extent of 0 or 1."""
    rank, count = rng.choice((0, 1, 2, 2, 3, 3, 4, 6, 9, 12)), rng.randint(1, 4)
    most = {0: 1, 1: 2000, 2: 50, 3: 14, 4: 7}.get(rank, 3)
    extents = [rng.choice((0, 1, 2)) if rng.random() < 0.1 else rng.randint(1, most) for _ in range(rank)]
    operands = []
    for _ in range(count):
        packed, strides = rng.choice((1, 1, 2, -1)), []
        for extent in extents:
            strides.append(packed if rng.random() < 0.8 else rng.choice((0, 1, -1, 3, 64, -100, 512, 4096, rng.randint(-9, 9))))
            packed *= extent
        if rng.random() < 0.3:
            rng.shuffle(strides)
        operands.append(Operand(rng.choice((0, 1, 2, 4, 8, 8, 16, 24)), tuple(strides)))
    purpose = rng.choice("PPF")
    chosen = rng.randrange(count) if purpose == "F" or rng.random() < 0.5 else None
    return write_text(Layout(purpose, chosen, tuple(extents), tuple(operands)))


def damaged(rng, good):
    """A damaged copy: the names of the damages, and the text."""
    names = rng.choices(list(rng.choice((BREAKING, KEEPING, KEEPING, DAMAGES))), k=rng.choice((1, 1, 1, 2, MOST_STACKED)))
    for name in names:
        good = DAMAGES[name](rng, good)
    return names, good


def run(subject, given):
    for name, text in each_place():
        subject.compare(name, text)
    rng = random.Random(given.seed)
    cases = [case.text for case in read_cases()] + [path.read_bytes() for path in sorted(EXAMPLES.glob("*.txt"))]
    done, formed = Counter(), Counter()
    for number in range(given.count):
        good = rng.choice(cases) if rng.random() < 0.3 else drawn(rng)
        names, text = damaged(rng, good)
        outcome = subject.compare(f"text {number}: {', '.join(names)}", text)
        done.update(names)
        formed.update(names if outcome != "R,12" else ())
    if given.count >= ENOUGH:
        subject.require(*(f"R,{row}" for row in (1, 2, 4, 5, 6, 12, 13, 14)))
        subject.require("listed, no cell", "listed, up to 1,024 cells", "listed, above 1,024 cells")
    subject.notes = [f"{done[name]:6}  {name}, {formed[name]} still in the form" for name in DAMAGES]
