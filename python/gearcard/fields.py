"""Written by scripts/boundary from include/gearcard.h and words.toml: change that, and run it."""

from __future__ import annotations

from dataclasses import dataclass
from typing import NamedTuple, Sequence


class Point(NamedTuple):
    """A point of the full-load power curve."""

    n: int
    """engine speed, min^-1, 1 to 16,000, rising by 1 to 1,000"""
    p: int
    """full-load power, tenths of kW, 0 to 5,000"""
    m: int = 0
    """the point's own safety margin, per cent, 0 to 50, and at most 90 with margin"""


@dataclass(frozen=True)
class VehicleFields:
    """The vehicle of document 01, in its units. Gear count and point count are the lengths of the lists."""

    ratios: Sequence[int]
    """engine speed over road speed, hundredths of min^-1 per km/h, 1 to 50,000, falling"""
    idle: int
    """min^-1, 300 to 3,000"""
    rated: int
    """min^-1, above idle, at most 12,000"""
    nmax: int
    """min^-1, from rated to 15,000"""
    f0: int
    """tenths of N, 0 to 10,000"""
    f1: int
    """thousandths of N/(km/h), -5,000 to 5,000"""
    f2: int
    """hundred-thousandths of N/(km/h)^2, 0 to 20,000"""
    tm: int
    """test mass, kg, 400 to 4,000"""
    margin: int
    """safety margin, per cent, 0 to 50"""
    curve: Sequence[Point | Sequence[int]]
    """the power curve"""
    profile: int = 0
    """1 where first gear is a crawler that is not driven, as in some vans, else 0"""
