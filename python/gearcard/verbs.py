"""What the words of `./gearcard` do that change no job. Each takes the parsed words, prints or writes, and raises where it is refused or misused."""

from __future__ import annotations

import argparse
from pathlib import Path
from typing import Sequence

from . import given, units
from .calls import Job, Summary, clutch_down, cycle, downscale, export, gear_of, part_of, read, summary, work, write
from .changes import tell_of_ten
from .errors import Misuse
from .files import JOB_MOST, Unread, load, load_job, load_text
from .jobtext import noted, show
from .names import Draft, Names, named
from .output import emit, emit_rows
from .outputs import beside, put
from .picture import picture, picture_of_bytes
from .reading import bytes_of, shown
from .refusals import Refused
from .units import SCALARS
from .vehicle import Vehicle


def made(path: Path, draft: Draft) -> bytes:
    """The job file of a draft; a refusal names its place in the file."""
    try:
        return write(*draft.job)
    except Refused as refused:
        raise named(refused, draft.job, draft.names, shown(path)) from None


def worked(path: Path, draft: Draft) -> bytearray:
    """The card of a draft. A text has the card of the job that would be made of it, and so what the writer refuses comes first."""
    if draft.text:
        made(path, draft)
    try:
        return work(*draft.job[:3])
    except Refused as refused:
        raise named(refused, draft.job, draft.names, shown(path)) from None


def run_card(args: argparse.Namespace) -> None:
    draft = load(args.file)
    job, card = draft.job, worked(args.file, draft)
    columns = ("second", "speed", "gear", "clutch", "hold")
    rows = [
        (second, float(units.SPEED.text(speed)), gear_of(byte), "down" if clutch_down(byte) else "up", hold)
        for second, (speed, hold, byte) in enumerate(zip(job.speeds, job.holds, card))
    ]
    if args.csv or args.json:
        emit_rows(args, columns, rows)
    else:
        emit("".join(" ".join(map(str, row[:4])) + "\n" for row in (columns, *rows)))


def run_summary(args: argparse.Namespace) -> None:
    draft = load(args.file)
    rows = summary_rows(draft.job.vehicle, summary(draft.job.speeds, worked(args.file, draft)))
    if args.csv or args.json:
        emit_rows(args, ("what", "count"), [row[:2] for row in rows])
    else:
        emit("".join(f"{what:8} {count:5} {unit}".rstrip() + "\n" for what, count, unit in rows))


def summary_rows(vehicle: Vehicle, found: Summary) -> list[tuple[str, int, str]]:
    """What is counted, how often, and its unit: of the gears those that are driven."""
    driven = range(1 + vehicle.profile, 1 + len(vehicle.ratios))
    return [("standing", found.standing, "s"), *((f"gear {gear}", found.gears[gear - 1], "s") for gear in driven), ("changes", found.changes, "")]


def run_holds(args: argparse.Namespace) -> None:
    rows = [(second, gear) for second, gear in enumerate(load(args.file).job.holds) if gear]
    if args.csv or args.json:
        emit_rows(args, ("second", "gear"), rows)
    else:
        emit("".join(f"second {second}: gear {gear}\n" for second, gear in rows))


def run_picture(args: argparse.Namespace) -> None:
    refusal: Refused | None = None
    try:
        draft = load(args.file)
        card: Sequence[int] | None = None
        try:
            card = worked(args.file, draft)
        except Refused as refused:
            refusal = refused
        drawn = picture(draft.about or shown(args.file), draft.job, card, refusal)
    except Unread as unread:
        refusal = unread.refused
        drawn = picture_of_bytes(shown(args.file), unread.length, refusal)
    put(args, ".svg", drawn.encode(), lambda old: b"<svg" in old[:200], "picture")
    if refusal is not None:
        raise refusal


def run_make(args: argparse.Namespace) -> None:
    draft = load_text(args.file)
    data = made(args.file, draft)

    def is_job(old: bytes) -> bool:
        try:
            before = read(old)
        except Refused:
            return False
        if not args.drop_holds:
            _refuse_lost_holds(args.output or beside(args.file, ".job"), args.file, before, draft.job)
        return True

    put(args, ".job", data, is_job, "job")
    tell_of_ten(args.file, draft.job, draft.names)


def _refuse_lost_holds(path: Path, text: Path, before: Job, after: Job) -> None:
    lost = [f"{second} = {gear}" for second, gear in enumerate(before.holds) if gear and after.holds[second : second + 1] != bytes([gear])]
    if lost:
        many = f"{', '.join(lost[:5])}{', ..' if len(lost) > 5 else ''}"
        raise Misuse(f"{path} has {len(lost)} hold{'s'[: len(lost) > 1]} that {shown(text)} lacks: {many} (--drop-holds makes it without)")


def run_show(args: argparse.Namespace) -> None:
    emit(show(load_job(args.file), args.speeds))


def run_cycle(args: argparse.Namespace) -> None:
    factor = given.number("--downscale", args.downscale, units.FACTOR) if args.downscale is not None else None
    seconds = part_of(args.part)
    speeds = cycle(args.part) if factor is None else downscale(factor, args.part)
    emit_rows(args, ("second", "speed"), [(second, float(units.SPEED.text(speed))) for second, speed in zip(seconds, speeds)])


def run_coefficients(args: argparse.Namespace) -> None:
    try:
        found = export(bytes_of(args.file, JOB_MOST))._asdict()
    except Refused as refused:
        raise named(refused, None, Names(), shown(args.file)) from None
    emit("".join(noted(f"{key} = {unit.text(found[name])}", unit, found[name]) + "\n" for key, name, unit, _ in SCALARS if name in found))
