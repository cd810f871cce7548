"""The machine that a plan is made for: four numbers of its L1 data cache."""

from __future__ import annotations

from pathlib import Path
from typing import NamedTuple

CACHES = Path("/sys/devices/system/cpu/cpu0/cache")


class Machine(NamedTuple):
    """A machine record; outside its bounds planning is refused with 24."""

    line: int  # bytes of a cache line: 32, 64, 128 or 256
    cache: int  # bytes that blocks may take, 4,096 to 1,048,576: the cache's size
    way: int  # bytes of a way, the cache's size divided by its ways: a multiple of the line, from the line up to the cache
    live: int  # lines of one set that may be in use at a time, 1 to 16: the ways less a quarter

    def allowed(self) -> bool:
        """Whether the record is within its bounds.

        >>> FIXED.allowed(), FIXED._replace(line=48).allowed()
        (True, False)
        """
        return (
            self.line in (32, 64, 128, 256)
            and 4_096 <= self.cache <= 1_048_576
            and self.line <= self.way <= self.cache
            and self.way % self.line == 0
            and 1 <= self.live <= 16
        )


FIXED = Machine(64, 32_768, 4_096, 6)
"""32 KiB with 8 ways: the machine of the text, and that of every plan that names no other."""


def machine(caches: Path = CACHES) -> Machine:
    """The record of this processor, as the system tells it; where it does not, or the numbers are outside the bounds, FIXED.

    A plan for it is a plan for this processor alone: sums that are to be the same everywhere take one record everywhere.

    >>> machine().allowed()
    True
    """
    for folder in sorted(caches.glob("index*")):
        try:
            level, kind = (folder / "level").read_text().strip(), (folder / "type").read_text().strip()
            if level != "1" or kind not in ("Data", "Unified"):
                continue
            line = int((folder / "coherency_line_size").read_text())
            cache = in_bytes((folder / "size").read_text().strip())
            ways = int((folder / "ways_of_associativity").read_text())
        except (OSError, ValueError):
            continue
        found = Machine(line, cache, cache // ways, min(16, ways - ways // 4)) if ways > 0 else FIXED
        if found.allowed():
            return found
    return FIXED


def in_bytes(size: str) -> int:
    """A size as sysfs writes it.

    >>> in_bytes("48K")
    49152
    """
    unit = {"K": 1_024, "M": 1_048_576}.get(size[-1:], 1)
    return int(size.rstrip("KM")) * unit
