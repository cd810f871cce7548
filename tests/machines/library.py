"""The port by its C function gougelily_plan (include/gougelily.h): the archive is linked into a shared library of its own, and called by ctypes.

The five lent arrays stand in one memory with a word between any two. It is filled with a pattern before each call, so that what is due is told for
every byte: on a refusal the pattern, else the plan, zeros behind its counts, and the pattern between the arrays.
"""

import ctypes
import subprocess
from array import array

from neighbours import Axis

WORD = 8
MOST_RANK = 64
ARRAYS = {"rank": 1, "operands": 1, "extents": MOST_RANK, "blocks": MOST_RANK, "strides": 8 * MOST_RANK}
PURPOSES = {("P", False): 0, ("P", True): 1, ("F", True): 2}


def placed():
    """Where each array stands, and how many bytes there are in all."""
    at, places = WORD, {}
    for name, count in ARRAYS.items():
        places[name] = slice(at, at + count * WORD)
        at = places[name].stop + WORD
    return places, at


PLACES, LENGTH = placed()
PATTERN = bytes((17 + 29 * i) % 251 + 1 for i in range(LENGTH))


class NoLibrary(Exception):
    """The library cannot be made or called; the words say why."""


def link(archive, folder):
    """A shared library of everything in the archive."""
    made = folder / "libgougelily.so"
    command = ["cc", "-shared", "-o", str(made), "-Wl,--whole-archive", str(archive), "-Wl,--no-whole-archive"]
    try:
        ran = subprocess.run(command, stdout=subprocess.PIPE, stderr=subprocess.STDOUT, check=False)
    except OSError as failure:
        raise NoLibrary(f"cc: {failure}") from None
    if ran.returncode:
        raise NoLibrary(ran.stdout.decode(errors="replace"))
    return made


def memory_of(answer, operands):
    """The lent memory after a call with this answer: a row that refuses, or the plan's axes."""
    if isinstance(answer, int):
        return PATTERN
    memory = bytearray(PATTERN)
    behind = [0] * (MOST_RANK - len(answer))
    strides = array("q", bytes(WORD * ARRAYS["strides"]))
    for i, axis in enumerate(answer):
        for k, stride in enumerate(axis.strides):
            strides[k * MOST_RANK + i] = stride
    for name, words in (
        ("rank", array("Q", [len(answer)])),
        ("operands", array("Q", [operands])),
        ("extents", array("Q", [axis.extent for axis in answer] + behind)),
        ("blocks", array("Q", [axis.block for axis in answer] + behind)),
        ("strides", strides),
    ):
        memory[PLACES[name]] = words.tobytes()
    return bytes(memory)


def words_of(memory, name):
    words = array("q" if name == "strides" else "Q")
    words.frombytes(memory[PLACES[name]])
    return words


def axes_of(memory):
    """The plan that stands in the memory, as far as its counts may be true."""
    rank, operands = min(words_of(memory, "rank")[0], MOST_RANK), min(words_of(memory, "operands")[0], 8)
    extents, blocks, strides = (words_of(memory, name) for name in ("extents", "blocks", "strides"))
    return [Axis(extents[i], blocks[i], tuple(strides[k * MOST_RANK + i] for k in range(operands))) for i in range(rank)]


def first_difference(memory, due):
    """The array and the place in it of the first byte that is not as due."""
    at = next(i for i, pair in enumerate(zip(memory, due)) if pair[0] != pair[1])
    for name, place in PLACES.items():
        if place.start <= at < place.stop:
            return f"{name}, place {(at - place.start) // WORD}"
    return f"byte {at} of the memory, between two arrays"


class Library:
    def __init__(self, path):
        try:
            self.function = ctypes.CDLL(str(path)).gougelily_plan
        except (OSError, AttributeError) as failure:
            raise NoLibrary(str(failure)) from None
        word, pointer = ctypes.c_uint64, ctypes.c_void_p
        self.function.argtypes = [pointer, ctypes.c_size_t] * 3 + [word] * 6 + [pointer] * 5
        self.function.restype = ctypes.c_int64
        self.memory = ctypes.create_string_buffer(LENGTH)
        start = ctypes.addressof(self.memory)
        self.lent = [start + place.start for place in PLACES.values()]

    def plan(self, layout, machine):
        """The number that planning answers, and the lent memory after the call."""
        inputs = [
            array("Q", layout.extents),
            array("Q", (operand.size for operand in layout.operands)),
            array("q", (stride for operand in layout.operands for stride in operand.strides)),
        ]
        pointers = [part for numbers in inputs for part in numbers.buffer_info()]
        purpose = PURPOSES[layout.purpose, layout.chosen is not None]
        ctypes.memmove(self.memory, PATTERN, LENGTH)
        number = self.function(*pointers, purpose, layout.chosen or 0, *machine.numbers(), *self.lent)
        return number, self.memory.raw
