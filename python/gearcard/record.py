"""`record`: what the driver of a run was shown, as the page wrote it down, against the card of a job. docs/FORMATS.md describes the record."""

from __future__ import annotations

import argparse
import hashlib
import json
from pathlib import Path
from typing import Any, Iterator, NamedTuple, Sequence

from .calls import clutch_down, gear_of
from .errors import BadText
from .files import load
from .output import emit, emit_rows, plain, short
from .reading import bytes_of, shown
from .verbs import made, worked

#: What a record calls itself, and the bytes that it may have.
FORMAT = "gearcard run 1"
MOST = 64 << 20

#: What is read of each part of a record, and its type.
_SHOWN = {"time": str, "second": int, "gear": int, "clutch": str, "hold": int}
_EDIT = {"time": str, "at": (int, float), "what": str, "changed": list, "driven": bool}
_EVENT = {"time": str, "at": (int, float), "event": str}
_JOB = {"name": str, "before": str, "after": str}


class Record(NamedTuple):
    """A record: the job's name and hashes, what was shown, the edits and what happened, each in the order of time."""

    job: dict[str, Any]
    shown: list[dict[str, Any]]
    edits: list[dict[str, Any]]
    events: list[dict[str, Any]]


class Difference(NamedTuple):
    """What was shown of a second, when, what the card has there, and why it is another."""

    time: str
    second: int
    gear: int
    clutch: str
    card_gear: int | None
    card_clutch: str | None
    why: str


def run_record(args: argparse.Namespace) -> None:
    record = read_record(args.file, bytes_of(args.file, MOST))
    draft = load(args.job)
    card = worked(args.job, draft)
    found = list(differences(record, card))
    if args.csv or args.json:
        emit_rows(args, ("time", "second", "gear", "clutch", "card gear", "card clutch", "why"), found)
        return
    lines = [_of_job(record, shown(args.job), hashlib.sha256(made(args.job, draft)).hexdigest())]
    lines += [_told(each) for each in found]
    lines += list(_not_shown(record, len(card)))
    seconds, wrong = len({row["second"] for row in record.shown}), len({each.second for each in found})
    lines.append(f"{_count(seconds)} shown, {wrong} of them otherwise than the card of {shown(args.job)} says")
    emit("".join(f"{plain(line)}\n" for line in lines if line))


def read_record(path: Path, data: bytes) -> Record:
    """The record that a file is."""
    try:
        found = json.loads(data)
    except (ValueError, RecursionError):
        raise BadText(shown(path), None, "it is no record of a run: it is no JSON") from None
    if not isinstance(found, dict) or found.get("format") != FORMAT:
        raise BadText(shown(path), None, f"it is no record of a run: its format is not '{FORMAT}'")
    lists: tuple[tuple[str, dict[str, Any]], ...] = (("shown", _SHOWN), ("edits", _EDIT), ("events", _EVENT))
    parts = [_list(path, found, key, kinds) for key, kinds in lists]
    for each in parts[1]:
        if not all(isinstance(run, list) and len(run) == 2 and all(isinstance(second, int) for second in run) for run in each["changed"]):
            raise BadText(shown(path), None, "an edit of it has no seconds that it changed")
    return Record(_object(path, "job", found.get("job"), _JOB), *parts)


def _list(path: Path, found: dict[str, Any], key: str, kinds: dict[str, Any]) -> list[dict[str, Any]]:
    values = found.get(key)
    if not isinstance(values, list):
        raise BadText(shown(path), None, f"it has no list '{key}'")
    return [_object(path, f"{key}[{k}]", each, kinds) for k, each in enumerate(values)]


def _object(path: Path, name: str, found: object, kinds: dict[str, Any]) -> dict[str, Any]:
    """An object with values of these types; true and false are no numbers."""
    for key, kind in kinds.items():
        value = found.get(key) if isinstance(found, dict) else None
        if not isinstance(value, kind) or (isinstance(value, bool) and kind is not bool):
            raise BadText(shown(path), None, f"{name}.{key} is missing, or is no {'number' if kind is not str else 'text'}")
    assert isinstance(found, dict)
    return found


def differences(record: Record, card: Sequence[int]) -> Iterator[Difference]:
    """What was shown otherwise than the card says."""
    for row in record.shown:
        second = row["second"]
        inside = 0 <= second < len(card)
        gear = gear_of(card[second]) if inside else None
        clutch = ("down" if clutch_down(card[second]) else "up") if inside else None
        if (row["gear"], row["clutch"]) != (gear, clutch):
            yield Difference(row["time"], second, row["gear"], row["clutch"], gear, clutch, _why(record, row, inside))


def _why(record: Record, row: dict[str, Any], inside: bool) -> str:
    """The last edit that changed the second after it was shown; else the job is another."""
    if not inside:
        return "the job has no such second"
    edits = [each for each in record.edits if each["time"] >= row["time"] and any(first <= row["second"] <= last for first, last in each["changed"])]
    if not edits:
        return "no edit of the run did that: the job is another, or was edited elsewhere"
    last = edits[-1]
    return f"{last['what']} at {_clock(last['time'])}, {'after it was shown' if last['driven'] else 'when the driver was past it'}"


def _of_job(record: Record, name: str, digest: str) -> str:
    """Whether the job is the record's."""
    if digest == record.job["after"]:
        return ""
    if digest == record.job["before"]:
        return f"{name} is the job as it was before the run"
    return f"{name} is another job than the record's, {short(record.job['name'])}: its SHA-256 is {digest}"


def _told(each: Difference) -> str:
    has = "none" if each.card_gear is None else f"gear {each.card_gear}, clutch {each.card_clutch}"
    return f"second {each.second}: shown gear {each.gear}, clutch {each.clutch} at {_clock(each.time)}; the card has {has}: {each.why}"


def _not_shown(record: Record, count: int) -> Iterator[str]:
    """The seconds that no frame showed, and why."""
    seen = {row["second"] for row in record.shown}
    first = None
    for second in range(count + 1):
        missing = second < count and second not in seen
        if missing and first is None:
            first = second
        elif not missing and first is not None:
            name = f"second {first}" if second - first == 1 else f"seconds {first} to {second - 1}"
            yield f"{name}: not shown: {_why_not(record, seen, first, second - 1)}"
            first = None


def _why_not(record: Record, seen: set[int], first: int, last: int) -> str:
    if not seen or last > max(seen):
        return "the run did not come there"
    if last < min(seen):
        return "the run began after it"
    lost = None
    for each in record.events:
        if each["event"] == "lost":
            lost = each["at"]
        elif each["event"] == "found" and lost is not None:
            if lost - 1 <= last and first <= each["at"]:
                return "the driver's window was lost"
            lost = None
    if any(each["event"] == "seek" for each in record.events):
        return "the run was moved past it, or no frame came"
    return "no frame came"


def _clock(time: str) -> str:
    """The time of the day in a time of the record."""
    return short(time[11:23] if len(time) > 23 else time)


def _count(seconds: int) -> str:
    return f"{seconds} second{'' if seconds == 1 else 's'}"
