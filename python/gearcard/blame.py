"""Which gear or which point refusal 3 is about. The engine names the field; it is asked again, of the same vehicle with ever more of the list, until
it refuses. No bound is looked at here."""

from __future__ import annotations

from dataclasses import replace

from .calls import write
from .refusals import Refused
from .vehicle import Point, Vehicle

#: The fields that are lists with bounds for each place.
RATIOS, POINTS = 2, 12


def at_fault(vehicle: Vehicle, version: int, field: int) -> int | None:
    """The place in the ratios or in the curve that such a field of the vehicle is refused for, from 0; None of another field."""
    if field == RATIOS:
        # With two gears a vehicle has no crawler, which is field 1's.
        whole = replace(vehicle, profile=0)
        tried = [replace(whole, ratios=vehicle.ratios[:count]) for count in range(2, len(vehicle.ratios) + 1)]
        first = replace(whole, ratios=(vehicle.ratios[0], 1))
    elif field == POINTS:
        tried = [replace(vehicle, curve=vehicle.curve[:count]) for count in range(2, len(vehicle.curve) + 1)]
        first = replace(vehicle, curve=(vehicle.curve[0], Point(vehicle.curve[0][0] + 1, 0)))
    else:
        return None
    place = next((place for place, each in enumerate(tried, 1) if _refused(each, version) == field), None)
    # Of the first two it is the first where that is refused with the least that could follow it.
    return 0 if place == 1 and _refused(first, version) == field else place


def _refused(vehicle: Vehicle, version: int) -> int | None:
    """The field that the writer refuses."""
    try:
        write(vehicle, [0], None, version)
    except Refused as refused:
        return refused.place if refused.number == 3 else None
    return None
