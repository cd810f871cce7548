"""The kept inputs: one file for each subject in corpus/, an input a line. Printable bytes stand for themselves, a line's end as \\n, others as \\xNN."""

import re
from pathlib import Path

FOLDER = Path(__file__).resolve().parent / "corpus"
SUBJECTS = "text", "judge", "numpy", "calls"
MOST_BYTES = 200


def line(data):
    return "".join("\\n" if byte == 10 else chr(byte) if 32 <= byte < 127 and byte != 92 else f"\\x{byte:02x}" for byte in data)


def data(line):
    return re.sub(rb"\\(n|x..)", lambda found: b"\n" if found[1] == b"n" else bytes.fromhex(found[1][1:].decode()), line.encode("ascii"))


def read(subject):
    path = FOLDER / subject
    return [data(line) for line in path.read_text("ascii").split("\n")[:-1]] if path.exists() else []


def write(subject, inputs):
    """Short ones first, so that a change of one input is a change of one line."""
    FOLDER.mkdir(exist_ok=True)
    ordered = sorted(set(inputs), key=lambda given: (len(given), given))
    (FOLDER / subject).write_text("".join(line(given) + "\n" for given in ordered), "ascii")
