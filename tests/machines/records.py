"""Seeded machine records: allowed ones over the whole range, refused ones at each bound and past it."""

from dataclasses import replace
from math import log2

from machine import FIXED, NUMBERS, Machine

LINES = 32, 64, 128, 256
LEAST, MOST = 4_096, 1_048_576  # bytes of the cache
LIVE = 16
WIDE = 2**63, 2**64 - 1
NO_LINES = 0, 1, 2, 8, 16, 31, 33, 48, 63, 65, 96, 127, 129, 192, 255, 257, 320, 512, 1_024, *WIDE
NO_CACHES = 0, 1, 256, 2_048, LEAST - 1, MOST + 1, 2 * MOST, 2**32, *WIDE
NO_LIVES = 0, LIVE + 1, LIVE + 2, 32, 256, *WIDE


def spread(rng, least, most):
    """A number whose length in digits is drawn, so that small ones are as many as large ones."""
    return min(most, max(least, round(2 ** rng.uniform(log2(least), log2(most)))))


def way(rng, line, cache):
    """Small ways often: the fit looks at byte strides that are multiples of the way."""
    most = cache // line
    return line * min(most, rng.choice((1, 1, 2, 3, 4, 5, 8, 16, 64, most, rng.randint(1, most), spread(rng, 1, most))))


def one_other(rng):
    """The fixed four but for one number."""
    name = rng.choice(NUMBERS)
    draw = {
        "line": lambda: rng.choice((32, 128, 256)),
        "cache": lambda: spread(rng, LEAST, MOST),
        "way": lambda: way(rng, FIXED.line, FIXED.cache),
        "live": lambda: rng.randint(1, LIVE),
    }
    return replace(FIXED, **{name: draw[name]()})


def allowed(rng):
    kind = rng.random()
    if kind < 0.05:
        return FIXED
    if kind < 0.4:
        return one_other(rng)
    line = rng.choice(LINES)
    cache = rng.choice((LEAST, MOST)) if rng.random() < 0.1 else spread(rng, LEAST, MOST)
    if rng.random() < 0.2:
        cache = cache // line * line
    live = rng.choice((1, LIVE)) if rng.random() < 0.15 else rng.randint(1, LIVE)
    return Machine(line, cache, way(rng, line, cache), live)


def refused(rng, machine):
    """An allowed record with one number outside its bounds; its way stays a multiple of the line, within the cache, where that is possible."""
    line, cache, bytes_of_way, live = machine.numbers()
    number = rng.choice(NUMBERS)
    if number == "line":
        line = rng.choice(NO_LINES)
        bytes_of_way = max(line, cache // max(line, 1) * line)
    elif number == "cache":
        cache = rng.choice(NO_CACHES)
        bytes_of_way = min(bytes_of_way, max(line, cache // line * line))
    elif number == "way":
        above = cache // line * line + line
        bytes_of_way = rng.choice((0, 1, line // 2, line - 1, line + 1, bytes_of_way + 1, bytes_of_way - 1, above, above + line, 2**64 - line, *WIDE))
    else:
        live = rng.choice(NO_LIVES)
    return Machine(line, cache, bytes_of_way, live)


def bounds():
    """Each bound, at it and one past it, with the other numbers out of its way."""
    for line in (*LINES, *NO_LINES):
        yield Machine(line, 65_536, max(line, 1_024 // max(line, 1) * line), 6)
    for cache in (LEAST, LEAST + 1, MOST - 1, MOST, *NO_CACHES):
        yield Machine(64, cache, 64, 6)
    for line in LINES:
        for cache in (LEAST, LEAST + line - 1, 40_000, MOST):
            most = cache // line * line
            for each in (0, 1, line - 1, line, line + 1, 2 * line, most - line, most, most + 1, most + line, cache, cache + 1, 2**64 - line, *WIDE):
                yield Machine(line, cache, each, 6)
    for live in (1, 2, LIVE - 1, LIVE, *NO_LIVES):
        yield Machine(64, 32_768, 4_096, live)
