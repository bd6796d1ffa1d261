"""A trace from a spreadsheet: a column of speeds, and the times beside it. It is read as what it is, or refused with its line.

web/src/tables.js has the same rules and the same words, for what is pasted into the page or dropped on it; tests/tables.json is for both."""

from __future__ import annotations

import re
from collections import Counter
from datetime import date
from decimal import Decimal
from pathlib import Path
from typing import NamedTuple, Sequence

from .errors import BadText
from .headers import KMH, OTHER_TIMES, SECONDS, TIMES, bare, heading, is_called, is_speed
from .output import short
from .reading import bytes_of
from .sheets import CSV_MOST, Row, Sheet, sheet_of
from .units import SPEED, TIME, NotExact, Unit, number_of

#: The column that is taken where none is named.
USUAL = "speed"

#: Seconds that a job can carry; which it may have is for the engine to say.
MOST = 65535

#: Rows a second: each has a time that is a whole number of milliseconds.
HERTZ = tuple(hertz for hertz in range(1, 1001) if 1000 % hertz == 0)

#: What stands in a cell where there is no number.
_NONE = ("nan", "inf", "infinity", "null", "none", "n/a", "na", "nil", "true", "false")

#: A clock's hours, minutes and seconds, behind a date or not.
_CLOCK = re.compile(r"(?:([0-9]{4})-([0-9]{2})-([0-9]{2})[T ])?([0-9]{1,2}):([0-5][0-9]):([0-5][0-9](?:[.,][0-9]{1,9})?)(?:Z|[+-][0-9]{2}:?[0-9]{2})?")

#: The power of ten from which on no number is a time.
_SIZE = 12

_SKIP = " (trace.skip = N passes over N lines above the header)"
_HERTZ = "trace.hertz = N takes a trace of N rows a second"
_TIME = "trace.time says which column has the times, 0 that none has"

Column = str | int | None


class Layout(NamedTuple):
    """What a text says of its CSV file: columns by name or by number from 1, of the times 0 for none, rows a second, the decimal mark, and lines above the
    header."""

    column: Column = None
    time: Column = None
    hertz: int = 1
    decimal: str | None = None
    skip: int = 0


def read_speeds(path: Path, name: str, layout: Layout = Layout()) -> tuple[list[int], list[int]]:
    """The speeds of a CSV file, tenths of km/h, and the line of each. Without a column named, `speed` is taken, or the only one."""
    sheet = sheet_of(name, bytes_of(path, CSV_MOST, name), layout.skip, layout.decimal, MOST * layout.hertz + 2)
    return _Table(sheet, layout).speeds()


class _Table:
    """A sheet, with its header known from its rows."""

    def __init__(self, sheet: Sheet, layout: Layout) -> None:
        self.sheet, self.layout = sheet, layout
        self.marked: tuple[str, int] | None = None
        self.units: Row | None = None
        first = sheet.rows[0]
        self.header = first if self.is_header(first) else None
        self.rows: Sequence[Row] = sheet.rows[1:] if self.header else sheet.rows
        if self.header is None and sheet.mark == "," and len(first.cells) > 1:
            self.refuse_doubtful_commas()

    def wrong(self, line: int, words: str) -> BadText:
        return BadText(self.sheet.name, line, words)

    def speeds(self) -> tuple[list[int], list[int]]:
        place = self.place(self.layout.column)
        self.pass_units(place)
        for times in self.time_places(place):
            self.check_times(times)
        taken = self.rows[:: self.layout.hertz]
        if len(taken) > MOST:
            raise self.wrong(taken[MOST].line, f"there are more than the {MOST:,} seconds that a job can carry")
        return [self.value(row, place, "speed", SPEED) for row in taken], [row.line for row in taken]

    def is_header(self, row: Row) -> bool:
        """A row with a name that is asked for, or with names alone; else every cell is a number."""
        wanted = [each for each in (self.layout.column, self.layout.time) if isinstance(each, str)] or [USUAL]
        if len(row.cells) > 1 and any(is_called(cell, name) for cell in row.cells for name in wanted):
            return True
        if all(self.is_number(cell) for cell in row.cells):
            return False
        if all(_is_name(cell) for cell in row.cells):
            return True
        raise self.wrong(row.line, f"it is neither a header nor a row of numbers{_SKIP}")

    def is_number(self, cell: str) -> bool:
        return self.number(cell) is not None or _CLOCK.fullmatch(cell) is not None

    def number(self, cell: str) -> Decimal | None:
        return next((number for mark in self.decimals() if (number := number_of(cell, mark)) is not None), None)

    def decimals(self) -> Sequence[str]:
        """The decimal marks that a number may have here."""
        if self.layout.decimal is not None:
            return (self.layout.decimal,)
        return (".",) if self.sheet.mark == "," else (".", ",")

    def refuse_doubtful_commas(self) -> None:
        """Without a header, `12,5` may be two columns or one with a decimal comma."""
        two = all(len(row.cells) == 2 and all(re.fullmatch("[0-9]+", cell) for cell in row.cells) for row in self.rows)
        alike = len({len(row.cells[-1]) for row in self.rows}) == 1
        if self.layout.decimal == "," or (self.layout.decimal is None and two and alike):
            words = "a comma may stand between columns here or be a decimal comma: give the columns a header"
            raise self.wrong(self.rows[0].line, words + ("" if self.layout.decimal else ", or say trace.decimal"))

    def place(self, column: Column) -> int:
        """The place of the column asked for."""
        first = self.sheet.rows[0]
        count = len(first.cells)
        if isinstance(column, int):
            if not 1 <= column <= count:
                raise self.wrong(first.line, f"there is no column {column}: there are {count}, from 1")
            return column - 1
        if column is None and (only := self.only()) is not None:
            return only
        if self.header is None:
            wanted = "none is named" if column is None else f"there is no column '{short(column)}' by name"
            raise self.wrong(first.line, f"{wanted}, and there is no header: say by trace.column the number of the column, 1 to {count}")
        places = self.called(USUAL if column is None else column)
        if len(places) != 1:
            found = f"there is {'no' if not places else 'more than one'} column '{short(column or USUAL)}' among {short(', '.join(self.header.cells))}"
            raise self.wrong(first.line, f"{found}: say trace.column, or trace.skip where it is no header")
        return places[0]

    def only(self) -> int | None:
        """The column that must be the speeds where none is named: the only one, or the one beside a time, or the one in km/h."""
        count = len(self.sheet.rows[0].cells)
        if count == 1:
            return 0
        if self.header is None:
            risen = [k for k in range(count) if self.rises(k)]
            return 1 - risen[0] if count == 2 and len(risen) == 1 else None
        if self.called(USUAL):
            return None
        found = [k for k, cell in enumerate(self.header.cells) if heading(cell).unit in KMH]
        return found[0] if len(found) == 1 else None

    def called(self, name: str) -> list[int]:
        """The places of the columns of that name; one that is called just so comes before those that have a unit behind it."""
        assert self.header is not None
        exact = [k for k, cell in enumerate(self.header.cells) if cell.lower() == name.lower()]
        return exact or [k for k, cell in enumerate(self.header.cells) if is_called(cell, name)]

    def pass_units(self, place: int) -> None:
        """Past a row of units below the header. A speed in another unit than km/h would be another trace."""
        if self.header is None:
            return
        self.check_speed(self.header, heading(self.header.cells[place]).unit)
        if self.rows and not any(self.is_number(cell) for cell in self.rows[0].cells) and is_speed(self.rows[0].cells[place]):
            self.units = self.rows[0]
            self.check_speed(self.units, bare(self.units.cells[place]))
            self.rows = self.rows[1:]

    def check_speed(self, row: Row, unit: str) -> None:
        if unit and unit not in KMH:
            raise self.wrong(row.line, f"the speed is in {short(unit)}, and km/h is read")

    def time_places(self, speed: int) -> list[int]:
        """The columns of times: the one that is named; or else those that are called so, those in seconds, those of a clock, those that rise evenly."""
        if self.layout.time == 0:
            return []
        if self.layout.time is not None:
            return [place for place in (self.place(self.layout.time),) if place != speed]
        others = [k for k in range(len(self.sheet.rows[0].cells)) if k != speed]
        for is_time in (self.is_called_time, self.is_in_seconds, self.is_clock, self.rises):
            found = [k for k in others if is_time(k)]
            if found:
                return found
        return []

    def is_called_time(self, place: int) -> bool:
        return self.header is not None and any(is_called(self.header.cells[place], name) for name in TIMES)

    def is_in_seconds(self, place: int) -> bool:
        found = heading(self.header.cells[place]) if self.header is not None else None
        return (found is not None and found.bracket and found.unit in SECONDS) or (self.units is not None and bare(self.units.cells[place]) in SECONDS)

    def is_clock(self, place: int) -> bool:
        return bool(self.rows) and all(_CLOCK.fullmatch(row.cells[place]) for row in self.rows)

    def rises(self, place: int) -> bool:
        """Whether the numbers of a column rise from row to row, most of them by the same step, as times do, with gaps or not."""
        steps: Counter[Decimal] = Counter()
        before: Decimal | None = None
        for row in self.rows:
            now = self.number(row.cells[place])
            if now is None or abs(now.adjusted()) > _SIZE or (before is not None and not now > before):
                return False
            if before is not None:
                steps[now - before] += 1
            before = now
        return len(self.rows) > 2 and 2 * max(steps.values()) >= len(self.rows) - 1

    def check_times(self, place: int) -> None:
        """Each row's time is that of the row before and one second more, or the part of it that the rows a second make."""
        if not self.is_clock(place):
            self.check_seconds(place)
        step = 1000 // self.layout.hertz
        hint = _TIME if self.layout.hertz > 1 else _HERTZ if self.layout.time is not None else f"{_HERTZ}; {_TIME}"
        before = None
        for row in self.rows:
            now = self.time(row, place)
            if before is not None and now != before + step:
                came = f"{TIME.text(now - before)} s after the line before" if now > before else "not after that of the line before"
                raise self.wrong(row.line, f"the time {short(row.cells[place])} is {came}, and must be {TIME.text(step)} s after it ({hint})")
            before = now

    def check_seconds(self, place: int) -> None:
        """Of a column of times that has a unit, it is the second."""
        if self.header is not None:
            found = heading(self.header.cells[place])
            self.check_time(self.header, found.unit if found.bracket or found.unit in OTHER_TIMES else "")
        if self.units is not None:
            self.check_time(self.units, bare(self.units.cells[place]))

    def check_time(self, row: Row, unit: str) -> None:
        if unit and unit not in SECONDS:
            raise self.wrong(row.line, f"the time is in {short(unit)}, and s is read ({_TIME})")

    def time(self, row: Row, place: int) -> int:
        """A row's time in milliseconds: seconds, or a clock's hours, minutes and seconds."""
        clock = _CLOCK.fullmatch(row.cells[place])
        if clock is None:
            return self.value(row, place, "time", TIME)
        seconds = number_of(clock[6].replace(",", "."))
        assert seconds is not None
        return self.exact(row, "time", row.cells[place], TIME, 86400 * self.day(row, clock) + 3600 * int(clock[4]) + 60 * int(clock[5]) + seconds)

    def day(self, row: Row, clock: re.Match[str]) -> int:
        if clock[1] is None:
            return 0
        try:
            return date(int(clock[1]), int(clock[2]), int(clock[3])).toordinal()
        except ValueError:
            raise self.wrong(row.line, f"'{short(clock[0])}' is no date") from None

    def value(self, row: Row, place: int, what: str, unit: Unit) -> int:
        cell = row.cells[place]
        number = self.number(cell)
        if number is None:
            raise self.wrong(row.line, f"'{short(cell)}' is no number{_hint(cell) or (_SKIP if row is self.rows[0] and _is_name(cell) and cell else '')}")
        self.check_mark(row, cell)
        return self.exact(row, what, cell, unit, number)

    def exact(self, row: Row, what: str, cell: str, unit: Unit, number: object) -> int:
        try:
            return unit.whole(number)  # type: ignore[arg-type]
        except NotExact as why:
            raise self.wrong(row.line, f"the {what} {short(cell)} {why}") from None

    def check_mark(self, row: Row, cell: str) -> None:
        """One decimal mark in the whole sheet."""
        mark = next((each for each in ".," if each in cell), None)
        if mark is None:
            return
        self.marked = self.marked or (mark, row.line)
        if mark != self.marked[0]:
            raise self.wrong(row.line, f"'{short(cell)}' has another decimal mark than line {self.marked[1]}: say trace.decimal")


def _hint(cell: str) -> str:
    """What may be meant by a cell that is no number."""
    if number_of(cell, ",") is not None:
        return ": a decimal point is read, and no comma"
    if number_of(cell) is not None:
        return ": a decimal comma is read, and no point"
    return _SKIP if re.search("[;\t]", cell) else ""


def _is_name(cell: str) -> bool:
    """Whether a cell can be a header's: nothing that could be meant as a number."""
    return not cell or ((cell[0].isalpha() or cell[0] in "[(_%°") and cell.lower() not in _NONE)
