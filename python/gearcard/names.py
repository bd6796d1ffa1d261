"""A refusal said in the words of the user's own file: the key and line of a text, the line of a spreadsheet, the second or byte of a job."""

from __future__ import annotations

from typing import Callable, NamedTuple, Sequence

from .calls import Job
from .refusals import BYTES, FIELDS, TOLD, Refused, in_words
from .units import SPEED

#: What a field of the vehicle, by its number, or a second's speed is called.
Namer = Callable[[int], str]


class Names:
    """What a job's parts are called, with the line of each where there are lines. Without names of a text they are those of a job file."""

    def __init__(
        self,
        field: Namer = lambda number: f"field {number} of the vehicle, {FIELDS[number][0]}",
        speed: Namer = lambda second: f"second {second}",
        hold: Callable[[int, int], str] = lambda second, gear: f"gear {gear}, held at second {second},",
        line: Callable[[str], str] = lambda key: "",
    ) -> None:
        self.field, self.speed, self.hold, self.line = field, speed, hold, line


class Draft(NamedTuple):
    """A job as a file has it, and what its parts are called there; a text's is still to be made, and may have a name of its own."""

    job: Job
    names: Names
    text: bool = False
    about: str = ""


def named(refused: Refused, job: Job | None, names: Names, file: str) -> Refused:
    """The same refusal with words that name its place in the file. Without a job the file could not be read as one."""
    number, place = refused.number, refused.place
    words = in_words(number, place)
    if job is None or number in BYTES:
        return Refused(number, place, f"{file}: {words}")
    if number == 1:
        return Refused(number, place, f"{names.line('trace')}{words}")
    if number == 3 and place in FIELDS:
        return Refused(number, place, f"{names.field(place)}: {FIELDS[place][1]}")
    if number == 14:
        return Refused(number, place, f"{names.line('version')}version = {job.version}: {words}")
    if number not in TOLD:
        return Refused(number, place, words)
    gears = f"{len(job.vehicle.ratios)}{', of which the first is not driven' if job.vehicle.profile else ''}"
    speed = f"{names.speed(place)}, {_speed(job.speeds, place)} km/h,"
    hold = names.hold(place, job.holds[place] if place < len(job.holds) else 0)
    return Refused(number, place, TOLD[number].format(place=place, speed=speed, hold=hold, gears=gears, count=len(job.speeds)))


def _speed(speeds: Sequence[int], second: int) -> str:
    return SPEED.text(speeds[second]) if second < len(speeds) else "no"
