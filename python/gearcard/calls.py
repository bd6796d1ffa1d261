"""The functions of include/gearcard.h, for Python. Each is a call of the proved function; none works anything out by itself.

Speeds are in tenths of km/h. A hold of 0 is no hold. A card has a byte a second: the gear, plus 16 where the clutch is down. A refusal raises
`Refused`, and then no list has changed.
"""

from __future__ import annotations

from array import array
from operator import index
from typing import Any, NamedTuple

from . import structs
from .engine import functions
from .lists import Lent, Numbers, call
from .refusals import Refused
from .vehicle import Vehicle

#: Seconds of the built-in cycle.
CYCLE = structs.CYCLE

#: A count in a job is at most this, so rooms of this length are never too short.
_ROOM = 65535

#: The largest second that can be asked for, and the largest part or factor.
_LAST, _MOST = 2**64 - 1, 2**32 - 1


class Job(NamedTuple):
    """What a job says. The lists are the caller's to change."""

    vehicle: Vehicle
    speeds: array[int]
    holds: bytearray
    version: int = 1


class Coefficients(NamedTuple):
    """What a bench export says, in the vehicle's units: `dataclasses.replace(vehicle, **export(bytes)._asdict())` puts it into a vehicle."""

    f0: int
    f1: int
    f2: int
    tm: int


class Summary(NamedTuple):
    """How long in each gear: standing seconds, moving seconds in gears 1, 2, .. 10, and gear changes."""

    standing: int
    gears: tuple[int, ...]
    changes: int


class Gear(NamedTuple):
    """One gear at a second, as document 01 judges it: engine speed X in thousandths of min^-1, its minimum speed there in min^-1 and the rule that gave it
    (`whys.RULES`), and the available power, q/(100,000 w) tenths of kW, exactly. `over_minimum` says that X is at least 1000 x minimum; the lowest gear also
    fits below."""

    q: int
    w: int
    engine: int
    minimum: int
    rule: int
    allowed: bool
    over_minimum: bool
    under_nmax: bool
    fits: bool
    enough: bool


class Why(NamedTuple):
    """How the byte of a second came about. At a standing second before a trip it is said of the trip's first second, `about`. `refused` is refusal 10 where
    some second of the trip has no gear; the corrections and the byte are then 0. The codes stand in `whys`, in document 01's words."""

    second: int
    about: int
    first: int
    last: int
    required: int
    gears: tuple[Gear, ...]
    kind: int
    role: int
    held: int
    choice: int
    sentence: int
    after_a: int
    after_b: int
    after_c: int
    floor: int
    ceiling: int
    clutch: bool
    clutch_reason: int
    byte: int
    refused: Refused | None


def _accepted(answer: Any) -> Any:
    verdict = getattr(answer, "verdict", answer)
    if verdict.number:
        raise Refused(verdict.number, verdict.place)
    return answer


def _number(what: str, value: int, most: int) -> int:
    try:
        number = index(value)
    except TypeError:
        raise TypeError(f"{value!r} is no {what}: it takes a whole number") from None
    if not 0 <= number <= most:
        raise ValueError(f"{number} is no {what} from 0 to {most}")
    return number


def _record(vehicle: Vehicle) -> structs.Vehicle:
    if not isinstance(vehicle, Vehicle):
        raise TypeError(f"vehicle is no Vehicle: {type(vehicle).__name__}")
    return vehicle.record


def _bytes(name: str, values: Numbers) -> Lent:
    """Bytes to read: of a file, and so no list of numbers."""
    try:
        return Lent(name, memoryview(values).cast("B"), "B")
    except TypeError:
        raise TypeError(f"{name} are no bytes: {type(values).__name__}") from None


def _speeds(values: Numbers, writes: bool = False) -> Lent:
    return Lent("speeds", values, "H", writes)


def _holds(values: Numbers | None, speeds: Lent) -> Lent:
    """None is no hold at all."""
    return Lent("holds", bytes(len(speeds)) if values is None else values, "B")


def gear_of(byte: int) -> int:
    """The gear of a card byte, 0 for neutral."""
    return _number("card byte", byte, 255) % 16


def clutch_down(byte: int) -> bool:
    """Whether a card byte has the clutch down."""
    return _number("card byte", byte, 255) >= 16


def read(job: bytes) -> Job:
    """Reads a job file's bytes."""
    lent = _bytes("the job's bytes", job)
    # A whole job has no more seconds than bytes; one that is cut may say more, and is then read into rooms of any count.
    answer, speeds, holds = _read_into(min(len(lent), _ROOM), lent)
    if answer.verdict.number == 2:
        answer, speeds, holds = _read_into(_ROOM, lent)
    _accepted(answer)
    return Job(Vehicle.of(answer.vehicle), speeds[: answer.count], holds[: answer.count], answer.version)


def _read_into(room: int, job: Lent) -> tuple[structs.Job, array[int], bytearray]:
    speeds, holds = array("H", bytes(2 * room)), bytearray(room)
    return call(functions()["read"], (), (job, _speeds(speeds, writes=True), Lent("holds", holds, "B", writes=True))), speeds, holds


def write(vehicle: Vehicle, speeds: Numbers, holds: Numbers | None = None, version: int = 1) -> bytes:
    """Writes a job: its bytes. What it writes reads back as the same job, and a job that was read is written in its version as the same bytes."""
    before, lent = (_number("version", version, 65535), _record(vehicle)), _speeds(speeds)
    lists = (lent, _holds(holds, lent))
    answer, room = _write_into(1024 + 2 * len(lent), before, lists)
    if answer.verdict.number == 17:
        # The room was too short; the place is the length needed.
        answer, room = _write_into(answer.verdict.place, before, lists)
    return bytes(room[: _accepted(answer).length])


def _write_into(length: int, before: tuple[int, structs.Vehicle], lists: tuple[Lent, Lent]) -> tuple[structs.Written, bytearray]:
    room = bytearray(length)
    return call(functions()["write"], before, (*lists, Lent("room", room, "B", writes=True))), room


def work(vehicle: Vehicle, speeds: Numbers, holds: Numbers | None = None) -> bytearray:
    """Works the whole trace: its card."""
    lent = _speeds(speeds)
    card = bytearray(len(lent))
    _accepted(call(functions()["work"], (_record(vehicle),), (lent, _holds(holds, lent), Lent("card", card, "B", writes=True))))
    return card


def summary(speeds: Numbers, card: Numbers) -> Summary:
    """How long a card is in each gear, counted over the whole of it. `hold`, `release` and `mend` bring it up to date without counting again."""
    return _counts(_accepted(call(functions()["summary_of"], (), (_speeds(speeds), Lent("card", card, "B")))))


def _counts(answer: structs.Counted) -> Summary:
    found = answer.summary
    return Summary(found.standing, tuple(found.gears), found.changes)


def _summary_of(given: Summary | None) -> structs.Summary:
    """The counts; all 0 where none is given."""
    if given is None:
        return structs.Summary()
    standing, gears, changes = given
    if len(gears) != structs.GEARS:
        raise ValueError(f"summary.gears has {len(gears)} counts, and not {structs.GEARS}")
    counts = [_number("count of a summary", each, 65535) for each in (standing, *gears, changes)]
    return structs.Summary(counts[0], tuple(counts[1:-1]), counts[-1])


def why(vehicle: Vehicle, speeds: Numbers, holds: Numbers | None, second: int) -> Why:
    """Why the card shows at a second what it shows: what each gear of the vehicle is worth there, and the byte step by step. It looks at the second's trip
    alone."""
    lent, place = _speeds(speeds), _number("second", second, _LAST)
    answer = call(functions()["why"], (_record(vehicle),), (lent, _holds(holds, lent)), (place,))
    refused = Refused(answer.verdict.number, answer.verdict.place) if answer.verdict.number else None
    if refused is not None and refused.number != 10:
        raise refused
    found = {name: getattr(answer.reasons, name) for name, _ in structs.Reasons._fields_}
    found["gears"] = tuple(Gear(*(getattr(each, name) for name, _ in structs.Gear._fields_)) for each in found["gears"][: len(vehicle.ratios)])
    return Why(second=place, refused=refused, **found)


def hold(
    vehicle: Vehicle, speeds: Numbers, holds: Numbers, card: Numbers, second: int, gear: int, *, summary: Summary | None = None
) -> Summary | None:
    """Holds one second in a gear from 1: writes the hold, and the card of that second's trip and of the standing second before it. Given the card's summary, it
    answers the new one; where it is refused, the one given still holds."""
    lists = (_speeds(speeds), Lent("holds", holds, "B", writes=True), Lent("card", card, "B", writes=True))
    return _edit("hold", vehicle, lists, (_number("second", second, _LAST), _number("gear", gear, 255)), summary)


def release(vehicle: Vehicle, speeds: Numbers, holds: Numbers, card: Numbers, second: int, *, summary: Summary | None = None) -> Summary | None:
    """Releases one second, held or free: as `hold`, with no hold there."""
    lists = (_speeds(speeds), Lent("holds", holds, "B", writes=True), Lent("card", card, "B", writes=True))
    return _edit("release", vehicle, lists, (_number("second", second, _LAST),), summary)


def mend(
    vehicle: Vehicle, speeds: Numbers, holds: Numbers, card: Numbers, second: int, speed: int, *, summary: Summary | None = None
) -> Summary | None:
    """Corrects one speed sample: writes the speed, and the card of the trips that hold this second or a neighbour. The summary as in `hold`."""
    lists = (_speeds(speeds, writes=True), Lent("holds", holds, "B"), Lent("card", card, "B", writes=True))
    return _edit("mend", vehicle, lists, (_number("second", second, _LAST), _number("speed", speed, 65535)), summary)


def _edit(name: str, vehicle: Vehicle, lists: tuple[Lent, ...], numbers: tuple[int, ...], given: Summary | None) -> Summary | None:
    """One second changed, in the holds or in the speeds, and the card with it: written together, or nothing."""
    answer = _accepted(call(functions()[name], (_record(vehicle),), lists, (*numbers, _summary_of(given))))
    return None if given is None else _counts(answer)


def part_of(part: int) -> range:
    """The seconds of the built-in cycle that a part has, with the standing second on either side: 0 the whole, 1 to 4 Low to Extra High."""
    cycle(part)
    return _seconds(part)


def cycle(part: int = 0) -> array[int]:
    """The speeds of the built-in Class 3 cycle, or of one of its parts."""
    room, seconds = _filled("cycle", _number("part", part, _MOST)), _seconds(part)
    return room[seconds.start : seconds.stop]


def downscale(factor: int, part: int = 0) -> array[int]:
    """That cycle, or a part of it, scaled down for a weak car. The factor is in thousandths, 0 to 500."""
    room, seconds = _filled("downscale", _number("factor", factor, _MOST)), part_of(part)
    return room[seconds.start : seconds.stop]


def _filled(name: str, number: int) -> array[int]:
    """The room that the cycle, or the scaled cycle, fills; the number is the part's, or the factor."""
    room = array("H", bytes(2 * CYCLE))
    _accepted(call(functions()[name], (number,), (Lent("room", room, "H", writes=True),)))
    return room


def _seconds(part: int) -> range:
    found = functions()["cycle_part"](part, CYCLE)
    return range(found.first, found.first + found.count)


def export(data: bytes) -> Coefficients:
    """Reads the bench computer's export: F0, F1, F2 and TM."""
    found = _accepted(call(functions()["export"], (), (_bytes("the export's bytes", data),)))
    return Coefficients(found.f0, found.f1, found.f2, found.tm)
