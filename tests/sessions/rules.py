"""What a session is, by the words of document 02, ask 8, in exact whole numbers.

A session is a dictionary with the words that each lent array holds. The plan is that of tests/machines, the ranks and weights are those of tools/draw
and the costs those of python/gougelily/rules, each written from document 01 without a look at the port.
"""

import sys
from dataclasses import replace
from functools import lru_cache
from pathlib import Path

ROOT = Path(__file__).resolve().parents[2]
sys.path.append(str(ROOT / "tests" / "machines"))

import reference  # noqa: E402
from machine import Machine  # noqa: E402
from neighbours import Layout, Operand, cutting, planning, reach  # noqa: E402

RANK, OPERANDS = 64, 8
MOST = 2**63 - 1
NONE = 0  # the cost that says there is none

# the lent arrays, in the order of the C functions
PLACES = {
    "purpose": 1,
    "chosen": 1,
    "machine": 4,
    "rank": 1,
    "operands": 1,
    "extents": RANK,
    "sizes": OPERANDS,
    "strides": OPERANDS * RANK,
    "ranks": OPERANDS * RANK,
    "weights": RANK,
    "costs": RANK,
    "plan_counts": 2,
    "plan_extents": RANK,
    "blocks": RANK,
    "plan_strides": OPERANDS * RANK,
}
SIGNED = "strides", "plan_strides"


def rows(table):
    """Operand k's row from place k * 64 on, 0 behind it."""
    return [number for row in table for number in [*row, *[0] * (RANK - len(row))]]


@lru_cache(maxsize=256)
def kept(layout, machine):
    """What the layout gives, and the names of the branches of planning that it meets."""
    met = set()
    axes = reference.plan(layout, machine, met)
    strides = [operand.strides for operand in layout.operands]
    moved = [[axis.strides[k] for axis in axes] for k in range(len(strides))]
    words = {
        "purpose": [2 if layout.purpose == "F" else 0 if layout.chosen is None else 1],
        "chosen": [layout.chosen or 0],
        "machine": machine.numbers(),
        "rank": [len(layout.extents)],
        "operands": [len(strides)],
        "extents": layout.extents,
        "sizes": [operand.size for operand in layout.operands],
        "strides": [stride for row in strides for stride in row],
        "ranks": rows(planning.ranks(row) for row in strides),
        "weights": planning.weights(reference.for_axes(layout)),
        "costs": [NONE if cost is None else cost for cost in cutting.costs(moved)],
        "plan_counts": [len(axes), len(strides)],
        "plan_extents": [axis.extent for axis in axes],
        "blocks": [axis.block for axis in axes],
        "plan_strides": rows(moved),
    }
    if NONE in words["costs"]:
        met.add("an axis without a cost")
    return {name: [*words[name], *[0] * (places - len(words[name]))] for name, places in PLACES.items()}, met


def fresh(layout, machine, met):
    """The session that the layout gives. "It keeps the ranks and weights of the layout's axes, the costs of the plan's axes, and the plan." """
    words, branches = kept(layout, machine)
    met |= branches
    return {name: list(places) for name, places in words.items()}


def present(session):
    """The layout and the record that the numbers of a session say, or None if its counts are more than there is room for."""
    (rank,), (operands,), (purpose,), (chosen,) = (session[name] for name in ("rank", "operands", "purpose", "chosen"))
    if rank > RANK or operands > OPERANDS:
        return None
    cut = [tuple(session["strides"][k * rank : (k + 1) * rank]) for k in range(operands)]
    told = Layout("F" if purpose > 1 else "P", None if purpose == 0 else chosen, tuple(session["extents"][:rank]), tuple(map(Operand, session["sizes"], cut)))
    return told, Machine(*session["machine"])


def reached(session):
    """Whether some beginning and accepted calls lead to the session: the beginning with its own layout does, or none."""
    told = present(session)
    return told is not None and reference.refusal(*told, set()) is None and kept(*told)[0] == session


def first(due, met):
    """The row that refuses, of those that apply in this order; 0 if there is none."""
    met.update(f"{due[0]} before {later}" for later in due[1:])
    return due[0] if due else 0


def begin(layout, machine, met):
    """The session, or the row that refuses: "A session begins with any layout that planning accepts"."""
    return reference.refusal(layout, machine, set()) or fresh(layout, machine, met)


def join(session, size, strides, met):
    """The session with an operand more, or the row that refuses: 10, 20, 3, 6."""
    rank, operands = session["rank"][0], session["operands"][0]
    extents = session["extents"][:rank]
    above = 0 not in extents and reach(extents, strides) > MOST
    due = [row for row, applies in ((10, not reached(session)), (20, operands >= OPERANDS), (3, len(strides) != rank), (6, above)) if applies]
    if first(due, met):
        return due[0]
    layout, machine = present(session)
    return fresh(replace(layout, operands=(*layout.operands, Operand(size, tuple(strides)))), machine, met)


def leave(session, operand, met):
    """The session with an operand less, or the row that refuses: 10, 21."""
    (operands,) = session["operands"]
    due = [row for row, applies in ((10, not reached(session)), (21, operand >= operands or operands == 1)) if applies]
    if first(due, met):
        return due[0]
    layout, machine = present(session)
    # "The chosen operand moves with its data. Dropping the chosen one leaves none for P, operand 0 for F."
    chosen = layout.chosen
    if chosen == operand:
        chosen = 0 if layout.purpose == "F" else None
        met.add(f"the chosen one left, {layout.purpose}")
    elif chosen is not None and chosen > operand:
        chosen -= 1
        met.add("the chosen one moved up")
    stay = [each for k, each in enumerate(layout.operands) if k != operand]
    return fresh(replace(layout, operands=tuple(stay), chosen=chosen), machine, met)
