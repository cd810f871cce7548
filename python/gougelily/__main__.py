"""python3 -m gougelily: a plan explained number by number, a refusal in words, a listing, the record of this processor."""

from __future__ import annotations

import argparse
import sys
from pathlib import Path

from .explain import explain
from .machine import FIXED, Machine, machine
from .refusals import REFUSALS, Refused, refusal_text
from .texts import walklist
from .version import VERSION


def options() -> argparse.Namespace:
    parser = argparse.ArgumentParser(prog="python3 -m gougelily", description="Plans of loops over strided arrays, in the terminal.")
    parser.add_argument("--version", action="version", version=VERSION)
    commands = parser.add_subparsers(dest="command", required=True)
    told = commands.add_parser("explain", help="every number of a layout's plan, from ranks to fit; or why it is refused")
    told.add_argument("file", nargs="?", help="the layout's text; standard input without it")
    told.add_argument("--machine", metavar="LINE,CACHE,WAY,LIVE", help="the record to plan for; 'this' is that of this processor (64,32768,4096,6)")
    listed = commands.add_parser("walklist", help="the plan and its blocks, as the program walklist prints them")
    listed.add_argument("file", nargs="?", help="the layout's text; standard input without it")
    row = commands.add_parser("refusal", help="what the number of a refusal says")
    row.add_argument("number", nargs="?", type=int, help="the number, as on a line R or as a C function answers it, negated; all of them without it")
    commands.add_parser("machine", help="the record of this processor: line, cache, way, live")
    given = parser.parse_args()
    if given.command == "explain":
        try:
            given.record = machine() if given.machine == "this" else Machine(*map(int, given.machine.split(","))) if given.machine else FIXED
        except (TypeError, ValueError):
            parser.error("--machine: four numbers with commas between them, or 'this'")
    return given


def text_of(file: str | None) -> bytes:
    return sys.stdin.buffer.read() if file is None else Path(file).read_bytes()


def rows(number: int | None) -> str:
    """The sentence of a row with an instance, or all rows."""
    if number is None:
        return "".join(f"{row:3}  {told.sentence}\n" for row, told in REFUSALS.items())
    told = REFUSALS.get(abs(number))
    return f"{abs(number)}: {told.sentence}\n  for instance: {told.instance}\n" if told else f"{abs(number)}: {refusal_text(abs(number))}\n"


def main() -> int:
    given = options()
    try:
        if given.command == "explain":
            print(explain(text_of(given.file), given.record), end="")
        elif given.command == "walklist":
            print(walklist(text_of(given.file)), end="")
        elif given.command == "refusal":
            print(rows(given.number), end="")
        else:
            print(",".join(map(str, machine())))
    except Refused as refusal:
        print(f"R,{refusal.number}")
        print(refusal, file=sys.stderr)
    except OSError as wrong:
        print(wrong, file=sys.stderr)
        return 1
    return 0


if __name__ == "__main__":
    sys.exit(main())
