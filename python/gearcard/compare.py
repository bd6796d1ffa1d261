"""`compare`: what differs in two jobs, in what is given and in the cards that come of it, second by second, and in their summaries."""

from __future__ import annotations

import argparse
from itertools import groupby, zip_longest
from pathlib import Path
from typing import Any, Callable, Iterator, Sequence

from . import units
from .calls import Job, Summary, clutch_down, gear_of, summary
from .files import load
from .output import emit, emit_rows, plain
from .reading import shown
from .vehicle import Point, Vehicle
from .verbs import summary_rows, worked

#: A second of a card, in people's units, or nothing where the card ends before it.
Second = tuple[float | None, int | None, str | None]

_NO_SECOND: Second = (None, None, None)


def _card(path: Path) -> tuple[Job, list[Second], list[tuple[str, int, str]]]:
    """A file's job, the seconds of its card, and the rows of its summary."""
    draft = load(path)
    card = worked(path, draft)
    found: Summary = summary(draft.job.speeds, card)
    seconds: list[Second] = [
        (float(units.SPEED.text(speed)), gear_of(byte), "down" if clutch_down(byte) else "up") for speed, byte in zip(draft.job.speeds, card)
    ]
    return draft.job, seconds, summary_rows(draft.job.vehicle, found)


def run_compare(args: argparse.Namespace) -> None:
    (job, first, counted), (other_job, second, recounted) = _card(args.file), _card(args.other)
    pairs = enumerate(zip_longest(first, second, fillvalue=_NO_SECOND))
    rows = [(place, *one, *other) for place, (one, other) in pairs if one != other]
    if args.csv or args.json:
        emit_rows(args, ("second", "speed", "gear", "clutch", "other speed", "other gear", "other clutch"), rows)
        return
    parts = {"vehicles": [*_versions(job, other_job), *_vehicles(job.vehicle, other_job.vehicle)], "traces": [*_traces(job, other_job)]}
    parts["holds"] = [*_holds(job.holds, other_job.holds)]
    lines = [line for each in parts.values() for line in each]
    lines += [f"second {row[0]}: {_told(row[1:4])}; {_told(row[4:])}" for row in rows]
    if not rows:
        by = " and ".join(name for name, found in parts.items() if found)
        lines.append(f"{plain(shown(args.file))} and {plain(shown(args.other))} have the same card{f', by different {by}' if by else ''}")
    old, new = ({what: count for what, count, _ in each} for each in (counted, recounted))
    for what in [*old, *(what for what in new if what not in old)]:
        if old.get(what) != new.get(what):
            lines.append(f"{what}: {old.get(what, 'none')}; {new.get(what, 'none')}")
    emit("\n".join(lines) + "\n")


def _told(second: tuple[object, ...]) -> str:
    speed, gear, clutch = second
    return "none" if speed is None else f"{speed} km/h, gear {gear}, clutch {clutch}"


def _versions(one: Job, other: Job) -> Iterator[str]:
    if one.version != other.version:
        yield f"version: {one.version}; {other.version}"


def _vehicles(one: Vehicle, other: Vehicle) -> Iterator[str]:
    """The numbers of the vehicles, by the keys of a text."""
    yield from _places("ratios", one.ratios, other.ratios, units.RATIO.text)
    for each in units.SCALARS:
        if getattr(one, each.name) != getattr(other, each.name):
            yield f"vehicle.{each.key}: {each.unit.text(getattr(one, each.name))}; {each.unit.text(getattr(other, each.name))}"
    yield from _places("curve", one.curve, other.curve, _point)


def _places(key: str, one: Sequence[Any], other: Sequence[Any], text: Callable[[Any], str]) -> Iterator[str]:
    for place, (a, b) in enumerate(zip_longest(one, other)):
        if a != b:
            yield f"vehicle.{key}[{place}]: {'none' if a is None else text(a)}; {'none' if b is None else text(b)}"


def _point(point: Point) -> str:
    return f"[{point.n}, {units.POWER.text(point.p)}, {point.m}]"


def _traces(one: Job, other: Job) -> Iterator[str]:
    """How long they are, and how many speeds differ; which do is told with the seconds of the cards."""
    if len(one.speeds) != len(other.speeds):
        yield f"trace: {len(one.speeds)} seconds; {len(other.speeds)} seconds"
    different = [second for second, (a, b) in enumerate(zip(one.speeds, other.speeds)) if a != b]
    if different:
        many = "the speed of 1 second differs" if len(different) == 1 else f"the speeds of {len(different)} seconds differ"
        yield f"trace: {many}, from second {different[0]} on"


def _holds(one: Sequence[int], other: Sequence[int]) -> Iterator[str]:
    """Runs of seconds with another hold."""
    for (a, b), run in groupby(enumerate(zip_longest(one, other, fillvalue=0)), key=lambda each: each[1]):
        if a != b:
            seconds = [second for second, _ in run]
            which = f"second {seconds[0]}" if len(seconds) == 1 else f"seconds {seconds[0]}-{seconds[-1]}"
            yield f"hold of {which}: {f'gear {a}' if a else 'none'}; {f'gear {b}' if b else 'none'}"
