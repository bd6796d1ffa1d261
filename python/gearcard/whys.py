"""`why`: what each gear is worth at a second, or at each of several, and how the card's byte came about, in document 01's words."""

from __future__ import annotations

import argparse
from fractions import Fraction
from typing import Any

from . import units
from .calls import Gear, Job, Why, why
from .files import load
from .names import Draft, named
from .output import emit
from .reading import shown
from .refusals import Refused
from .words import WHY

#: What the codes say, in the words of words.toml: what a second is; what a moving second is in its trip; which rule gave a gear its minimum speed; which
#: sentence gave the first choice; why the clutch is as it is.
KINDS, ROLES, RULES, SENTENCES, CLUTCHES = (WHY[name] for name in ("kinds", "roles", "rules", "sentences", "clutches"))

#: The kind of a moving second.
MOVING = 2

#: Power required is told in such parts of a kW, and a power available in q of as many times w; an engine speed in thousandths of min^-1.
REQUIRED, AVAILABLE = 3_240_000_000_000, 1_000_000
THOUSANDTHS = units.Unit(3, "min^-1", "thousandths of min^-1")


def run_why(args: argparse.Namespace) -> None:
    # Only here, since that module takes the words of this one.
    from .persecond import row_of, text_of

    draft = load(args.file)
    job = draft.job
    found = [asked(args, draft, second) for second in args.seconds]
    several = len(found) > 1
    if args.json:
        import json

        objects = [_object(job, each) for each in found]
        emit(json.dumps(objects if several else objects[0], indent=1) + "\n")
    else:
        table = text_of([row_of(job, each) for each in found if each.refused is None]) + "\n" if several else ""
        emit(table + "\n".join("\n".join(told(job, each)) + "\n" for each in found))
    for each in found:
        if each.refused is not None:
            raise named(each.refused, job, draft.names, shown(args.file))


def asked(args: argparse.Namespace, draft: Draft, second: int) -> Why:
    """The reasons of a second; a refusal names its place in the file."""
    job = draft.job
    try:
        return why(job.vehicle, job.speeds, job.holds, second)
    except Refused as refused:
        raise named(refused, job, draft.names, shown(args.file)) from None


def _object(job: Job, found: Why) -> dict[str, Any]:
    """All numbers as they are; of a held second also those without its hold."""
    refused = found.refused and {"number": found.refused.number, "place": found.refused.place}
    numbers = found._asdict() | {"gears": [each._asdict() for each in found.gears], "refused": refused}
    without = _without_hold(job, found)
    return numbers if without is None else numbers | {"without": _object(job._replace(holds=_released(job, found)), without)}


def _without_hold(job: Job, found: Why) -> Why | None:
    """Of a held second what would be told of it without its hold: one proved call more."""
    return why(job.vehicle, job.speeds, _released(job, found), found.second) if found.kind == MOVING and found.held else None


def _released(job: Job, found: Why) -> bytearray:
    holds = bytearray(job.holds)
    holds[found.second] = 0
    return holds


def told(job: Job, found: Why) -> list[str]:
    """The lines, none over 100 columns."""
    lines = [f"second {found.second}: {units.SPEED.text(job.speeds[found.second])} km/h, {KINDS[found.kind]}"]
    if found.kind == 0:
        return [*lines, f"gear 0, clutch {CLUTCHES[0]}"]
    step = job.speeds[found.about + 1] - job.speeds[found.about]
    spoken = f"second {found.about}, {units.SPEED.text(job.speeds[found.about])} km/h, is " if found.kind == 1 else ""
    lines += [
        f"{spoken}{ROLES[found.role]}; the trip has seconds {found.first} to {found.last}",
        f"D {units.SPEED.text(step)} km/h; power required {kilowatts(Fraction(found.required, REQUIRED))} kW",
        "",
        "gear   min^-1  minimum  nmax  fits  kW avail.  enough  the minimum's rule",
    ]
    return [*lines, *(_gear(number, each) for number, each in enumerate(found.gears, 1)), "", *_steps(found), *_unheld(job, found)]


def _unheld(job: Job, found: Why) -> list[str]:
    """What the card would show without the hold."""
    without = _without_hold(job, found)
    if without is None:
        return []
    if without.refused is not None:
        return [f"without the hold   refused 10 at {without.refused.place}: no gear fits there"]
    return [f"without the hold   {without.after_c}  clutch {CLUTCHES[without.clutch_reason]}"]


def _gear(number: int, each: Gear) -> str:
    if not each.rule:
        return f"{number:4}  a crawler, which is not driven"
    fits = "yes" if each.fits else "no"
    power = kilowatts(Fraction(each.q, AVAILABLE * each.w)) if each.w else ""
    enough = "" if not each.w else "yes" if each.enough else "no"
    limit = "in" if each.under_nmax else "past"
    return f"{number:4} {THOUSANDTHS.text(each.engine):>9} {each.minimum:7}  {limit:4}  {fits:4} {power:>10}  {enough:6}  {RULES[each.rule]}".rstrip()


def kilowatts(power: Fraction) -> str:
    """A power rounded to a watt, for the eye."""
    return f"{float(round(power, 3)):.3f}"


def _steps(found: Why) -> list[str]:
    lines = [f"first choice       {found.choice}  {SENTENCES[found.sentence]}"]
    if found.refused is not None:
        return lines
    limits = f"ceiling {found.ceiling}, floor {found.floor}" if found.ceiling else ""
    for name, gear, before, note in (
        ("A, one-second peak", found.after_a, found.choice, f"floor {found.floor}"),
        ("B, rising speed   ", found.after_b, found.after_a, limits),
        ("C, closing run    ", found.after_c, found.after_b, "the lowest gear becomes the next"),
    ):
        lines.append(f"{name} {gear}  {note if gear != before else 'stays'}")
    return [*lines, f"clutch             {CLUTCHES[found.clutch_reason]}", f"the card's byte    {found.byte}"]
