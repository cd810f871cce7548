"""The recorded answers of the original Rust (oracle/recorded/answers.txt): each layout goes through walklist as a text of its own."""

from dataclasses import dataclass
from functools import partial
from pathlib import Path

from judge import Wrong, due, equal, judge_plan, refused
from plan import SMALL, same_cells, small_plan
from rows import total
from walk import line, listing, offsets, read_axes, runs

ANSWERS = Path(__file__).resolve().parents[2] / "oracle" / "recorded" / "answers.txt"
REQUEST = (b"L", b"E", b"O")


@dataclass
class Case:
    name: str
    text: bytes
    answer: dict  # the lines of the recorded answer by their first word

    def lines(self, *words):
        return b"".join(row for word in words for row in self.answer.get(word, []))


def read_cases(path=ANSWERS):
    """The recorded cases. A comment line names a case, a dot ends it."""
    name, text, answer = "", b"", {}
    for row in path.read_bytes().splitlines(keepends=True):
        word = row.rstrip(b"\n").split(b",")[0]
        if row.startswith(b"#"):
            name = row[1:].strip().decode()
        elif word in REQUEST:
            text += row
        elif word == b".":
            yield Case(name, text, answer)
            text, answer = b"", {}
        else:
            answer.setdefault(word, []).append(row)


def check_walk(case, axes, operands):
    """The test's own walk has the recorded blocks: all of them if Z is recorded, else the first."""
    known = len(case.answer.get(b"B", []))
    walked = [(index, run) for _, (index, run) in zip(range(known + 1), runs(axes))]
    lines = [line("B", n, run, *offsets(axes, operands, index)) for n, (index, run) in enumerate(walked)]
    if b"".join(lines[:known]) != case.lines(b"B") or (len(lines) > known) != (b"more" in case.answer):
        raise Wrong("the test's walk of the recorded axes is not the recorded walk")


def compare(case, text, answer):
    """Against the record. The test's own arithmetic is held to it as well."""
    row, layout = due(text)
    if row not in (None, 13) or b"R" in case.answer:
        equal(case.lines(b"R"), refused(row or 0))
        equal(answer, case.lines(b"R"))
        return f"R,{row}"
    if row == 13:
        equal(answer, refused(13))
        return "R,13"
    if b"cap" in case.answer:
        return judge_plan(layout, answer) + ", no plan recorded"
    operands = len(layout.operands)
    axes = read_axes(case.lines(b"K", b"A"), operands)
    check_walk(case, axes, operands)
    if total(layout) <= SMALL and axes != small_plan(layout) or total(layout) and not same_cells(layout, axes):
        raise Wrong("the recorded axes are not those that the test expects")
    expected = listing(axes, operands)
    if expected is None:
        equal(answer, refused(14))
        return "R,14"
    equal(answer, expected)
    if b"Z" not in case.answer:
        return "listed, the first blocks recorded"
    equal(answer, case.lines(b"K", b"A", b"B", b"Z"))
    return "listed, every block recorded"


def run(subject, given):
    for case in read_cases():
        subject.compare(case.name, case.text, partial(compare, case))
    subject.require("R,1", "R,2", "R,4", "R,5", "R,6", "R,13", "R,14", "listed, every block recorded", "listed, the first blocks recorded")
