"""Several seconds of a job changed as one step: all of them by one whole working of the new holds and speeds, or none."""

from __future__ import annotations

from array import array
from functools import partial
from typing import Callable, Iterable, NamedTuple, Sequence

from .calls import Job, hold, mend, release, work
from .lists import STEP, put
from .refusals import Refused


class Hold(NamedTuple):
    """Holds a second, or each of a range, in a gear from 1."""

    seconds: int | range
    gear: int


class Release(NamedTuple):
    """Releases a second, or each of a range, held or free."""

    seconds: int | range


class Mend(NamedTuple):
    """Corrects the speed of a second, or of each of a range, in tenths of km/h."""

    seconds: int | range
    speed: int


Edit = Hold | Release | Mend


class RefusedEdit(Refused):
    """A refusal of several edits: `edit` is the place of the one that brings it about, from 0, or None where the job was refused so before; `asked` is
    the job that was asked for."""

    def __init__(self, refused: Refused, edit: int | None, asked: Job) -> None:
        super().__init__(refused.number, refused.place, refused.words)
        self.edit, self.asked = edit, asked


def edit(job: Job, edits: Iterable[Edit]) -> bytearray:
    """Changes the job's holds and speeds by all the edits, in their order, and answers the card. Where the job that comes of it is refused, nothing is
    changed, and `RefusedEdit` says by which edit. The lists are those of a job that was read, or plain ones."""
    asked = list(edits)
    _look_at(job, asked)
    for name, values, kinds in (("speeds", job.speeds, (array, list)), ("holds", job.holds, (bytearray, list))):
        if type(values) not in kinds or getattr(values, "typecode", "H") != "H":
            raise TypeError(f"job.{name} cannot be edited: {type(values).__name__}")
    with STEP:
        was = job._replace(speeds=job.speeds[:], holds=job.holds[:])
        new, card = planned(was, asked)
        put([(job.speeds, new.speeds), (job.holds, new.holds)])
    return card


def planned(job: Job, edits: Iterable[Edit]) -> tuple[Job, bytearray]:
    """The job that comes of the edits, and its card; the job that is given stays as it is."""
    asked = list(edits)
    _look_at(job, asked)
    new = _after(job, asked)
    try:
        return new, work(new.vehicle, new.speeds, new.holds)
    except Refused as refused:
        raise RefusedEdit(refused, _at_fault(job, asked, refused), new) from None


def _look_at(job: Job, edits: Sequence[Edit]) -> None:
    """Raises where one of them is something else."""
    if not isinstance(job, Job):
        raise TypeError(f"job is no Job: {type(job).__name__}")
    for place, each in enumerate(edits):
        if not isinstance(each, (Hold, Release, Mend)):
            raise TypeError(f"edit {place} is no Hold, Release or Mend: {type(each).__name__}")


def _after(job: Job, edits: Sequence[Edit]) -> Job:
    """The job with the edits, not yet worked."""
    speeds, holds = array("H", job.speeds), bytearray(job.holds)
    for place, each in enumerate(edits):
        for second in each.seconds if isinstance(each.seconds, range) else (each.seconds,):
            if not _can_be_shown(each, second, min(len(speeds), len(holds))):
                _ask_alone(job, each, second, place)
            if isinstance(each, Mend):
                speeds[second] = each.speed
            else:
                holds[second] = each.gear if isinstance(each, Hold) else 0
    return job._replace(speeds=speeds, holds=holds)


def _can_be_shown(each: Edit, second: int, count: int) -> bool:
    """Whether lists can have what the edit puts into them: not where its second is not in them, its gear means none, or a number is none."""
    value, least, most = (each.speed, 0, 65535) if isinstance(each, Mend) else (each.gear, 1, 255) if isinstance(each, Hold) else (0, 0, 0)
    return isinstance(second, int) and 0 <= second < count and isinstance(value, int) and least <= value <= most


def _ask_alone(job: Job, each: Edit, second: int, place: int) -> None:
    """Raises what the proved function says of that edit alone."""
    lent = (job.vehicle, array("H", job.speeds), bytearray(job.holds), bytearray(len(job.speeds)), second)
    try:
        one_by_one(each)(*lent)
    except Refused as refused:
        raise RefusedEdit(refused, place, job) from None


def one_by_one(each: Edit) -> Callable[..., object]:
    """The proved function that makes this edit at one second, without its value: of vehicle, speeds, holds, card and second."""
    if isinstance(each, Hold):
        return partial(hold, gear=each.gear)
    if isinstance(each, Mend):
        return partial(mend, speed=each.speed)
    return release


def _at_fault(job: Job, edits: Sequence[Edit], refused: Refused) -> int | None:
    """An edit before which the job is not refused so, and after which it is."""
    if _is_refused(job, (), refused):
        return None
    accepted, least = 0, len(edits)
    while least - accepted > 1:
        middle = (accepted + least) // 2
        if _is_refused(job, edits[:middle], refused):
            least = middle
        else:
            accepted = middle
    return least - 1


def _is_refused(job: Job, edits: Sequence[Edit], refused: Refused) -> bool:
    new = _after(job, edits)
    try:
        work(new.vehicle, new.speeds, new.holds)
    except Refused as found:
        return (found.number, found.place) == (refused.number, refused.place)
    return False
