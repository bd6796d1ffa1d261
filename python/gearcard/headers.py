"""What a header's cell says: a name, and a unit in any bracket, or after a space or an underscore. web/src/headers.js has the same rules."""

from __future__ import annotations

import re
from typing import NamedTuple

#: The unit of a speed, as sheets write it, and others that would make it another trace.
KMH = ("km/h", "kmh", "kph", "kmph", "km/hr", "kmperh", "kmh-1")
OTHER = ("mph", "mi/h", "mi/hr", "milesperhour", "m/s", "mps", "ms", "ms-1", "m/sec", "kn", "kt", "kts", "knot", "knots", "fps", "ft/s", "rpm")

#: The unit of a time, and others; a clock's has a colon, as hh:mm:ss.
SECONDS = ("s", "sec", "secs", "second", "seconds", "sek")
OTHER_TIMES = ("ms", "msec", "us", "ns", "min", "mins", "minutes", "h", "hr", "hrs", "hours", "d", "days")

#: The columns that are times where none is said to be.
TIMES = ("time", "t", "second", "seconds", "timestamp", "elapsed", "elapsed time", "zeit", "sec", "clock")

_BRACKET = re.compile(r"(.*?)[\s_/,:-]*[\[({<]([^\[\](){}<>]*)[\])}>]")
_BREAK = re.compile(r"[\s_,:/-]+(?:in[\s_]+)?")
_GLUED = re.compile(r".*?(kmph|km/h|kmh|kph|mph|mps|fps|m/s|knots)")


class Heading(NamedTuple):
    """A name, the unit behind it, if any, and whether that stands in brackets: there it can be nothing else."""

    name: str
    unit: str = ""
    bracket: bool = False


def bare(word: str) -> str:
    """A unit as it is compared."""
    return re.sub(r"[\s·*^]", "", word.lower().replace("⁻¹", "-1")).strip("[](){}<>")


def is_known(word: str) -> bool:
    return bare(word) in KMH or bare(word) in OTHER


def is_speed(word: str) -> bool:
    """Whether it is the unit of a speed, km/h or another."""
    return is_known(word) or re.fullmatch("[a-z]{1,5}/[a-z]{1,5}", word.lower().strip("[](){}<> ")) is not None


def is_time(word: str) -> bool:
    return bare(word) in SECONDS or bare(word) in OTHER_TIMES


def heading(cell: str) -> Heading:
    found = _BRACKET.fullmatch(cell)
    if found:
        return Heading(found[1], bare(found[2]), True)
    if is_known(cell):
        return Heading(cell, bare(cell))
    for each in _BREAK.finditer(cell):
        name, word = cell[: each.start()], cell[each.end() :]
        if is_known(word) or (is_time(word) and name.lower() in TIMES):
            return Heading(name, bare(word))
    last = re.split(r"[\s_,:]+", cell)[-1]
    if is_speed(last):
        return Heading(cell[: -len(last)].rstrip(" _,:") or cell, bare(last))
    glued = _GLUED.fullmatch(cell.lower())
    return Heading(cell, glued[1] if glued else next((word for word in _BREAK.split(cell.lower()) if word in OTHER), ""))


def is_called(cell: str, name: str) -> bool:
    """Whether a header's cell is that name, with a unit behind it or not."""
    return name.lower() in (cell.lower(), heading(cell).name.lower())
