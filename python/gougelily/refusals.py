"""Why a call is refused: the numbers of the papers, each with the sentence that include/gougelily.h has for it, and an instance."""

from __future__ import annotations

from typing import NamedTuple


class Row(NamedTuple):
    """One row of the table of refusals."""

    sentence: str
    instance: str


REFUSALS = {
    1: Row("the rank is above 64", "65 axes"),
    2: Row("there is no operand, or there are more than 8", "9 operands"),
    3: Row("the number of strides is not rank times operands", "rank 2, 2 operands, 3 strides"),
    4: Row("the chosen operand is not there", "operand 2 is chosen, there are 0 and 1"),
    5: Row("the product of the extents is above 2^64 - 1", "extents 2^32, 2^32"),
    6: Row("an operand's reach is above 2^63 - 1", "extent 3, stride 2^62; reach is the sum of (extent - 1) x stride size over the axes"),
    8: Row("the number of starts is not the number of operands", "one start, 2 operands"),
    9: Row("some offset from the start is outside 64-bit signed", "extent 2, stride 1, start 2^63 - 1"),
    10: Row("no walk begun on this plan, or no session, comes to this state", "counter 5, extent 5; a session with a weight that its layout does not give"),
    11: Row("the counters or the index are wrong in number or out of range", "index 5 on an axis of extent 5"),
    12: Row("the text is not in the form", "a number with a leading zero, a last line without LF"),
    13: Row("more than 1,048,576 cells in a text, or 65,536 in judging", "extent 1,048,577"),
    14: Row("the output is longer than the room lent for it", "8,000 blocks in the 65,536 bytes of walklist"),
    15: Row("a window's list, step, index or new stride is wrong", "a step of 0, index 5 on an axis of extent 5"),
    16: Row("a copy has two operands of one size, of 1 to 16 bytes", "sizes 8 and 4, or 3 operands"),
    17: Row("some cell lies outside its buffer", "100 cells of 8 bytes in 799 bytes"),
    18: Row("the destination's mark is not no: two indices may share a cell", "a destination with stride 0 on an axis of extent 2"),
    19: Row("size 0, or a byte stride that is no multiple of it or too big", "size 8, byte stride 12"),
    20: Row("a ninth operand is to join a session", "joining a session of 8 operands"),
    21: Row("the operand that is to leave is not there, or the only one", "operand 2 of 2, or operand 0 of 1"),
    22: Row("a cell lies outside the slice of cells that is lent", "extent 5, stride 1, start 0, 4 cells"),
    23: Row("visits not in the form, rank 0, or a mark buffer of another length", "a length of 0, an axis that is not there"),
    24: Row("the machine record is outside its bounds", "a line of 48 bytes"),
}


def refusal_text(number: int) -> str:
    """The sentence of a refusal's number.

    >>> refusal_text(6)
    "an operand's reach is above 2^63 - 1"
    """
    row = REFUSALS.get(number)
    return row.sentence if row else "no refusal has this number"


class Refused(Exception):
    """A call was refused: `number` is the papers' number, `sentence` says it in words.

    >>> raise Refused(4)
    Traceback (most recent call last):
    gougelily.refusals.Refused: refused with 4: the chosen operand is not there
    """

    def __init__(self, number: int) -> None:
        self.number = number
        self.sentence = refusal_text(number)
        super().__init__(f"refused with {number}: {self.sentence}")


def served(answer: int) -> int:
    """An answer of the library as it comes; a refusal is raised."""
    if answer < 0:
        raise Refused(-answer)
    return answer
