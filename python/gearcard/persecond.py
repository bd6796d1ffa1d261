"""`table`: the engine under the card, a line a second. Every number is one that a proved function told; what is worked out here is the division for the eye."""

from __future__ import annotations

import argparse
from decimal import Decimal
from fractions import Fraction
from typing import Sequence

from . import units
from .calls import Job, Why, clutch_down, gear_of
from .files import load
from .output import emit, emit_rows
from .verbs import worked
from .whys import AVAILABLE, MOVING, REQUIRED, SENTENCES, THOUSANDTHS, asked, kilowatts

#: The columns of a row: the name, and in a text the head and the width.
_LAID = (
    *(("second", "second", 6), ("speed", "km/h", 7), ("gear", "gear", 4), ("clutch", "clutch", 6), ("hold", "hold", 4)),
    *(("engine", "min^-1", 9), ("minimum", "minimum", 7), ("nmax", "nmax", 5), ("required", "kW req.", 8), ("available", "kW avail.", 9)),
    *(("reserve", "reserve", 8), ("choice", "first", 5), ("after A", "A", 2), ("after B", "B", 2), ("after C", "C", 2), ("sentence", "the first choice", 0)),
)
COLUMNS = tuple(name for name, _, _ in _LAID)

Row = tuple[object, ...]


def run_table(args: argparse.Namespace) -> None:
    draft = load(args.file)
    worked(args.file, draft)
    seconds = range(len(draft.job.speeds)) if args.seconds is None else args.seconds
    rows = [row_of(draft.job, asked(args, draft, second)) for second in seconds]
    if args.csv or args.json:
        emit_rows(args, COLUMNS, rows)
    else:
        emit(text_of(rows))


def row_of(job: Job, found: Why) -> Row:
    """A second of the card, and of a moving one the engine in the card's gear and how that gear came about."""
    second = found.second
    speed, gear = Decimal(units.SPEED.text(job.speeds[second])), gear_of(found.byte)
    row = (second, speed, gear, "down" if clutch_down(found.byte) else "up", job.holds[second])
    if found.kind != MOVING:
        return (*row, *(None for _ in COLUMNS[len(row) :]))
    each, required = found.gears[gear - 1], Fraction(found.required, REQUIRED)
    available = Fraction(each.q, AVAILABLE * each.w) if each.w else None
    power = (kilowatts(required), None, None) if available is None else (kilowatts(required), kilowatts(available), kilowatts(available - required))
    engine = (Decimal(THOUSANDTHS.text(each.engine)), each.minimum, job.vehicle.nmax, *(None if one is None else Decimal(one) for one in power))
    return (*row, *engine, found.choice, found.after_a, found.after_b, found.after_c, SENTENCES[found.sentence])


def text_of(rows: Sequence[Row]) -> str:
    """The rows for the eye: numbers to the right, words to the left."""
    return "".join(f"{_line(row)}\n" for row in (tuple(head for _, head, _ in _LAID), *rows))


def _line(row: Row) -> str:
    cells = zip(("" if cell is None else str(cell) for cell in row), _LAID)
    return " ".join(cell.ljust(width) if name in ("clutch", "sentence") else cell.rjust(width) for cell, (name, _, width) in cells).rstrip()
