"""The vehicle record of document 01, in its whole numbers, and as the functions take it."""

from __future__ import annotations

import functools
from ctypes import Array, c_int32, c_uint16
from dataclasses import dataclass
from operator import index
from typing import Any, Sequence

from . import structs
from .fields import Point, VehicleFields
from .units import SCALARS

__all__ = ["Point", "Vehicle"]

#: What a place of the record can carry.
_BOUNDS: dict[Any, tuple[int, int]] = {c_uint16: (0, 65535), c_int32: (-(2**31), 2**31 - 1)}

#: The numbers of a vehicle that have the same name in the record, with their bounds there.
_NUMBERS = {each.name: _BOUNDS[kind] for each in SCALARS for name, kind in structs.Vehicle._fields_ if name == each.name}


@dataclass(frozen=True)
class Vehicle(VehicleFields):
    """A vehicle in document 01's units. Gear count and point count are the lengths of the lists; a point may be given as a plain tuple or list, and is a
    `Point` then.

    Nothing is checked here: the functions refuse what is out of bounds, by 3 at its field.
    """

    def __post_init__(self) -> None:
        object.__setattr__(self, "ratios", tuple(self.ratios))
        object.__setattr__(self, "curve", tuple(Point(*point) for point in self.curve))

    @functools.cached_property
    def record(self) -> structs.Vehicle:
        """The record as the functions take it. Past its places a list is cut: its count, which is given whole, is refused before it is looked at."""
        record = structs.Vehicle(ng=_within("len(ratios)", len(self.ratios), 0, 65535), points=_within("len(curve)", len(self.curve), 0, 65535))
        for name, bounds in _NUMBERS.items():
            setattr(record, name, _within(name, getattr(self, name), *bounds))
        _fill(record.ratio, "ratios", self.ratios)
        for k, name in enumerate(Point._fields):
            _fill(getattr(record, name), f"curve {name}", [point[k] for point in self.curve])
        return record

    @classmethod
    def of(cls, record: structs.Vehicle) -> Vehicle:
        """The vehicle of such a record; places past the counts are no part of it."""
        curve = [Point(*point) for point in zip(*(getattr(record, name)[: record.points] for name in Point._fields))]
        return cls(ratios=record.ratio[: record.ng], curve=curve, **{name: getattr(record, name) for name in _NUMBERS})


def _within(name: str, value: int, least: int, most: int) -> int:
    try:
        number = index(value)
    except TypeError:
        raise TypeError(f"{name} = {value!r} is no whole number") from None
    if not least <= number <= most:
        raise ValueError(f"{name} = {number} is not from {least} to {most}, which is what the record can carry")
    return number


def _fill(places: Array[c_uint16], name: str, values: Sequence[int]) -> None:
    for k, number in enumerate([_within(name, value, 0, 65535) for value in values][: len(places)]):
        places[k] = number
