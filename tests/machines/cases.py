"""The cases of a run: pairs of a layout and a record, subject by subject."""

from dataclasses import replace

import records
from layouts import layout
from neighbours import NotInForm, cutting, limits, read_cases, read_text
from reference import for_blocks, refusal

PER_LAYOUT = 5  # records for each known layout


def known(texts, rng):
    """Layouts that texts say, each with drawn records and a refused one."""
    for text in texts:
        try:
            told = read_text(text)
        except NotInForm:
            continue
        drawn = [records.allowed(rng) for _ in range(PER_LAYOUT)]
        for machine in (*drawn, records.refused(rng, drawn[0])):
            yield told, machine


def at_bounds():
    """Every bound of a record, with a layout that is cut and fitted, without a cell, and one that each row refuses."""
    cut = (8, [1, 64]), (8, [512, 1])
    for told in (
        limits.layout([64, 64], *cut, chosen=0),
        limits.layout([64, 0], *cut, chosen=0),
        limits.layout([0, 2**63], (2**64 - 1, [2**62, 2**62])),
        limits.layout([1] * 65, (8, [1] * 65)),
        limits.layout([64, 64], chosen=0),
        limits.layout([64, 64], (8, [1, 64]), (8, [512])),
        limits.layout([64, 64], *cut, chosen=2),
        limits.layout([2**32, 2**32], (8, [0, 0])),
        limits.layout([3], (8, [2**62])),
        limits.layout([2], (8, [2**60])),
    ):
        for machine in records.bounds():
            yield told, machine


def to_the_byte(rng, told, machine):
    """The record with a cache that the layout's region just fits, just does not, or is twice as large as."""
    if refusal(told, machine, set()) is not None:
        return machine
    axes = for_blocks(told)
    whole = cutting.region(axes.extents, axes.bytes, machine.line)
    cache = rng.choice((whole, whole - 1, whole // 2, whole // 2 + 1, whole // 4, whole // 8))
    return replace(machine, cache=cache) if max(records.LEAST, machine.way) <= cache <= records.MOST else machine


def seeded(rng, count):
    for _ in range(count):
        machine = records.allowed(rng)
        told = layout(rng, machine)
        kind = rng.random()
        if kind < 0.04:
            machine = records.refused(rng, machine)
        elif kind < 0.2:
            machine = to_the_byte(rng, told, machine)
        yield told, machine


def subjects(rng, count):
    lists = limits.ranks, limits.operands, limits.totals, limits.reaches, limits.sizes, limits.orders, limits.joins, limits.cuts
    yield "limits of layouts", known((text for cases in lists for _, text, _ in cases()), rng)
    yield "recorded", known((case.text for case in read_cases()), rng)
    yield "bounds of records", at_bounds()
    yield "seeded", seeded(rng, count)
