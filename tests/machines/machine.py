"""The machine record of document 02, request 13, and its bounds."""

from dataclasses import dataclass, fields, replace


@dataclass(frozen=True)
class Machine:
    line: int  # bytes of a cache line
    cache: int  # bytes of the cache
    way: int  # bytes of a way of the L1 cache
    live: int  # lines that may be live

    def numbers(self):
        return self.line, self.cache, self.way, self.live


NUMBERS = tuple(field.name for field in fields(Machine))
# "The plan section's fixed 64, 32,768, 4,096 and 6 give way to it"
FIXED = Machine(64, 32_768, 4_096, 6)


def faults(machine):
    """The bounds that a record is outside of.

    "line (a power of two, 32 to 256 bytes), cache bytes (4,096 to 1,048,576), way bytes (a multiple of the line, from the line up to the cache) and
    live lines (1 to 16)"
    """
    line, cache, way, live = machine.numbers()
    if line.bit_count() != 1:
        yield "line no power of two"
    if line < 32:
        yield "line below 32"
    if line > 256:
        yield "line above 256"
    if cache < 4_096:
        yield "cache below 4,096"
    if cache > 1_048_576:
        yield "cache above 1,048,576"
    if line and way % line:
        yield "way no multiple of the line"
    if way < line:
        yield "way below the line"
    if way > cache:
        yield "way above the cache"
    if live < 1:
        yield "live below 1"
    if live > 16:
        yield "live above 16"


def limits_of(machine):
    """The bounds that an allowed record just keeps."""
    if machine.line == 32:
        yield "line 32"
    if machine.line == 256:
        yield "line 256"
    if machine.cache == 4_096:
        yield "cache 4,096"
    if machine.cache == 1_048_576:
        yield "cache 1,048,576"
    if machine.way == machine.line:
        yield "way equal to the line"
    if machine.way == machine.cache:
        yield "way equal to the cache"
    if machine.live == 1:
        yield "live 1"
    if machine.live == 16:
        yield "live 16"


def only_difference(machine):
    """The one number in which a record is not the fixed one, or None."""
    others = [name for name in NUMBERS if replace(machine, **{name: getattr(FIXED, name)}) != machine]
    return others[0] if len(others) == 1 else None
