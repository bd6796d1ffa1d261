"""Numbers and files as a word of a command, or of a line of edits, gives them. Nothing is cut or rounded to fit."""

from __future__ import annotations

import re
from pathlib import Path
from typing import Callable

from . import units
from .edits import Edit, Hold, Mend, Release
from .errors import BadText, Misuse
from .output import short
from .units import NotExact, Unit, number_of

#: The greatest second that can be asked for; whether the trace has it is for the engine to say.
_SECONDS = 2**64 - 1


def whole(what: str, most: int) -> Callable[[str], int]:
    """A whole number from 0 to `most`."""

    def of(word: str) -> int:
        if not re.fullmatch("[0-9]{1,20}", word) or int(word) > most:
            raise Misuse(f"'{short(word)}' is no {what} from 0 to {most}")
        return int(word)

    return of


second = whole("second", _SECONDS)
gear = whole("gear", 255)


def file(word: str) -> Path:
    """A file's name. One that ends with a slash is a folder's, which `Path` would forget."""
    if re.search(r"/\.?\Z", word):
        raise Misuse(f"'{short(word)}' is a folder, and no file")
    return Path(word)


def seconds(word: str) -> range:
    """One second, or the first and the last of several: `120-135`."""
    first, dash, last = word.partition("-")
    if not dash or not first:
        return range(second(word), second(word) + 1)
    if second(last) < second(first):
        raise Misuse(f"'{short(word)}' has its last second before its first")
    return range(second(first), second(last) + 1)


def number(what: str, word: str, unit: Unit) -> int:
    """A word that is a number of that unit."""
    found = number_of(word)
    if found is None:
        comma = ": a decimal point is read, and no comma" if number_of(word, ",") is not None else ""
        raise Misuse(f"{what} {short(word)} is no number{comma}")
    try:
        return unit.whole(found)
    except NotExact as why:
        raise Misuse(f"{what} {short(word)} {why}") from None


def speed(word: str) -> int:
    """A speed in km/h."""
    return number("the speed", word, units.SPEED)


def wait(word: str) -> float:
    """Seconds to wait, at most an hour."""
    found = number_of(word)
    if found is None or not 0 <= found <= 3600:
        raise Misuse(f"'{short(word)}' is no time to wait from 0 to 3600 s")
    return float(found)


#: What a line of edits begins with, and what follows.
_LINES: dict[str, tuple[Callable[..., Edit], tuple[Callable[[str], object], ...]]] = {
    "hold": (Hold, (seconds, gear)),
    "release": (Release, (seconds,)),
    "mend": (Mend, (seconds, speed)),
}


def edits(name: str, data: bytes) -> tuple[list[Edit], list[int]]:
    """The edits of a text, one a line, and the line of each. What follows a # is a remark."""
    try:
        text = data.decode("utf-8-sig")
    except UnicodeDecodeError as why:
        raise BadText(name, data.count(b"\n", 0, why.start) + 1, "it is no text in UTF-8") from None
    found, lines = [], []
    for line, words in enumerate(text.split("\n"), 1):
        if given := words.partition("#")[0].split():
            found.append(_edit(name, line, given))
            lines.append(line)
    return found, lines


def _edit(name: str, line: int, given: list[str]) -> Edit:
    make, takes = _LINES.get(given[0], (None, ()))
    if make is None or len(given) != 1 + len(takes):
        raise BadText(name, line, f"'{short(' '.join(given))}' is no edit: hold SECONDS GEAR, release SECONDS or mend SECONDS SPEED")
    try:
        return make(*(of(word) for of, word in zip(takes, given[1:])))
    except Misuse as why:
        raise BadText(name, line, str(why)) from None
