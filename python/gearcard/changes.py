"""The words that change a job: each as one step against all others, with what changed on the card printed before the job is written."""

from __future__ import annotations

import argparse
from array import array
from dataclasses import replace
from pathlib import Path
from typing import Callable, NamedTuple, Sequence

from . import given
from .calls import Job, clutch_down, export, gear_of, work, write
from .edits import Edit, Hold, Mend, RefusedEdit, Release, one_by_one, planned
from .errors import Misuse
from .files import JOB_MOST, TEXT_MOST, job_of, load_job
from .names import Names, named
from .output import emit, say
from .reading import STDIN, bytes_of, shown
from .refusals import Refused
from .store import change
from .units import SCALARS


class Outcome(NamedTuple):
    """A job after an edit, and its card before and after it, where it has one."""

    job: Job
    before: bytearray | None
    after: bytearray | None


Change = Callable[[Job], Outcome]


def run_hold(args: argparse.Namespace) -> None:
    _run(args, lambda job: _edited(args.file, job, Hold(args.seconds, args.gear)))


def run_release(args: argparse.Namespace) -> None:
    _run(args, lambda job: _edited(args.file, job, Release(args.seconds)))


def run_mend(args: argparse.Namespace) -> None:
    _run(args, lambda job: _edited(args.file, job, Mend(args.seconds, args.speed)))


def run_edit(args: argparse.Namespace) -> None:
    edits, lines = given.edits(shown(args.edits), bytes_of(args.edits, TEXT_MOST))
    _run(args, lambda job: _several(args.file, job, edits, [f"{shown(args.edits)} line {line}: " for line in lines]))


def run_export(args: argparse.Namespace) -> None:
    try:
        found = export(bytes_of(args.export, JOB_MOST))._asdict()
    except Refused as refused:
        raise named(refused, None, Names(), shown(args.export)) from None

    def loaded(job: Job) -> Outcome:
        new = job._replace(vehicle=replace(job.vehicle, **found))
        return Outcome(new, _card(job), _card(new))

    _run(args, loaded)


def _run(args: argparse.Namespace, changed: Change) -> None:
    """Changes the job at its place, or with --dry-run only says what would change."""
    if args.file == STDIN:
        raise Misuse("- is standard input: a job is changed in its file")
    told: list[tuple[Job, Outcome]] = []

    def written(job: Job) -> bytes:
        outcome = changed(job)
        told[:] = [(job, outcome)]
        return _written(args.file, outcome.job)

    def announce() -> None:
        emit(_differences(*told[0]))

    # The engine starts with this, and not while others wait for the lock.
    job = load_job(args.file)
    if args.dry_run:
        written(job)
        announce()
    else:
        change(args.file, args.wait, lambda old: written(job_of(args.file, old or b"")), announce)
    tell_of_ten(args.file, told[0][1].job, Names())


def tell_of_ten(path: Path, job: Job, names: Names) -> None:
    """Says of a job that can be written, and has no card all the same, that it is so."""
    try:
        work(*job[:3])
    except Refused as refused:
        say(f"gearcard: {shown(path)} has no card: {named(refused, job, names, shown(path))}")


def _card(job: Job) -> bytearray | None:
    try:
        return work(*job[:3])
    except Refused:
        return None


def _written(path: Path, job: Job) -> bytes:
    try:
        return write(*job)
    except Refused as refused:
        raise named(refused, job, Names(), shown(path)) from None


def _edited(path: Path, job: Job, each: Edit) -> Outcome:
    """One edit. Of one second it goes the quick way, which looks at its trip alone: so a job that is refused elsewhere can be mended second by second."""
    seconds = each.seconds
    if isinstance(seconds, range) and seconds.stop - seconds.start == 1:
        return _one(path, job, each, seconds.start)
    return _several(path, job, [each], [""])


def _one(path: Path, job: Job, each: Edit, second: int) -> Outcome:
    before = _card(job)
    new = job._replace(speeds=array("H", job.speeds), holds=bytearray(job.holds))
    card = bytearray(len(job.speeds)) if before is None else before[:]
    try:
        one_by_one(each)(new.vehicle, new.speeds, new.holds, card, second)
    except Refused as refused:
        raise named(refused, _asked(new, each, second), Names(), shown(path)) from None
    return Outcome(new, before, None if before is None else card)


def _asked(job: Job, each: Edit, second: int) -> Job:
    """The job that a refusal speaks of: with the edit, where the trace has its second."""
    lists = (array("H", job.speeds), bytearray(job.holds))
    if second < len(job.speeds):
        lists[isinstance(each, (Hold, Release))][second] = each.speed if isinstance(each, Mend) else each.gear if isinstance(each, Hold) else 0
    return job._replace(speeds=lists[0], holds=lists[1])


def _several(path: Path, job: Job, edits: Sequence[Edit], lines: Sequence[str]) -> Outcome:
    try:
        new, card = planned(job, edits)
    except RefusedEdit as refused:
        told = named(refused, refused.asked, Names(), shown(path))
        raise Refused(told.number, told.place, f"{'' if refused.edit is None else lines[refused.edit]}{told.words}") from None
    return Outcome(new, _card(job), card)


def _differences(old: Job, outcome: Outcome) -> str:
    """What is another after the edit: numbers of the vehicle, and seconds of the card."""
    was, now = old.vehicle, outcome.job.vehicle
    rows = [
        f"{key} = {unit.text(getattr(now, field))}; was {unit.text(getattr(was, field))}\n"
        for key, field, unit, _ in SCALARS
        if getattr(now, field) != getattr(was, field)
    ]
    if outcome.before is not None and outcome.after is not None:
        pairs = enumerate(zip(outcome.before, outcome.after))
        rows += [f"second {second}: {_shown(after)}; was {_shown(before)}\n" for second, (before, after) in pairs if before != after]
    return "".join(rows)


def _shown(byte: int) -> str:
    return f"gear {gear_of(byte)}, clutch {'down' if clutch_down(byte) else 'up'}"
