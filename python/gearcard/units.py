"""Numbers as people write them, and document 01's whole numbers: exact both ways, nothing is rounded."""

from __future__ import annotations

import re
from dataclasses import dataclass
from decimal import Decimal
from fractions import Fraction
from math import floor
from typing import NamedTuple

from . import words

#: A decimal number as a text or a spreadsheet has it.
_NUMBER = re.compile(r"[+-]?([0-9]+(\.[0-9]*)?|\.[0-9]+)([eE][+-]?[0-9]{1,9})?")

#: Digits before or after the point that a number may have: more is no number of a bench, and would only take time.
_DIGITS = 30


class NotExact(ValueError):
    """A number that is not what its unit, or a job, can carry; the text says why."""


@dataclass(frozen=True)
class Unit:
    """A unit of document 01: `10 ** decimals` of it are one of the unit that people use. A job carries `least` to `most` of it."""

    decimals: int
    people: str
    paper: str
    least: int = 0
    most: int = 65535

    def whole(self, number: Decimal | int) -> int:
        """The number in document 01's unit, where it is a whole number of it that a job can carry."""
        if not isinstance(number, int):
            if not number.is_finite():
                raise NotExact("is no finite number")
            if number and (number.adjusted() > _DIGITS or number.adjusted() < -_DIGITS or len(number.as_tuple().digits) > 2 * _DIGITS):
                raise NotExact("is not a number of a size that can be carried")
        exact = Fraction(number) * 10**self.decimals
        low: int = floor(exact)
        if exact != low:
            raise NotExact(f"is no whole number of {self.paper}: the nearest that are, are {self.text(low)} and {self.text(low + 1)}")
        if not self.least <= low <= self.most:
            raise NotExact(f"is not from {self.text(self.least)} to {self.text(self.most)} {self.people}, which is what a job can carry")
        return low

    def text(self, whole: int) -> str:
        """A whole number of document 01's unit as people write it, with all the decimals of the unit."""
        if not self.decimals:
            return str(whole)
        digits = str(abs(whole)).rjust(self.decimals + 1, "0")
        return f"{'-' if whole < 0 else ''}{digits[: -self.decimals]}.{digits[-self.decimals :]}"


def number_of(word: str, mark: str = ".") -> Decimal | None:
    """The decimal number that a word writes, in ASCII digits and with that decimal mark; None where it writes none, or one of a size that nothing has."""
    if mark != ".":
        if "." in word:
            return None
        word = word.replace(mark, ".", 1)
    return Decimal(word) if _NUMBER.fullmatch(word) else None


def _unit(name: str) -> Unit:
    """A unit of words.toml."""
    found = words.UNITS[name]
    return Unit(found["decimals"], found["people"], found["paper"], found.get("least", 0), found.get("most", 65535))


RATIO = _unit("ratio")
ENGINE_SPEED = _unit("engine_speed")
F0 = _unit("f0")
F1 = _unit("f1")
F2 = _unit("f2")
MASS = _unit("mass")
PER_CENT = _unit("per_cent")
POWER = _unit("power")
SPEED = _unit("speed")
TIME = _unit("time")
FACTOR = _unit("factor")


class Scalar(NamedTuple):
    """A field of the vehicle that is one number: its key, its name in `Vehicle`, its unit, and the version of the job from which on there is one."""

    key: str
    name: str
    unit: Unit
    since: int


SCALARS = tuple(Scalar(each.key, each.name, _unit(each.unit), each.since) for each in sorted(words.FIELDS, key=lambda each: each.since) if each.name)
