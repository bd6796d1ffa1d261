"""A job as text: TOML in the units that people use. `parse` reads one, `show` prints one; numbers are exact both ways."""

from __future__ import annotations

import difflib
import re
import tomllib
from array import array
from dataclasses import dataclass
from decimal import Decimal
from functools import cached_property
from pathlib import Path as File
from typing import Any, Callable, Iterable, NoReturn, Sequence

from . import units
from .blame import RATIOS, at_fault
from .calls import Job, cycle, downscale
from .errors import BadText, Misuse
from .lines import Path, lines_of, outsized
from .names import Draft, Names
from .output import short
from .refusals import FIELDS, Refused
from .tables import HERTZ, Layout, read_speeds
from .units import SCALARS, NotExact, Scalar, Unit, number_of
from .vehicle import Point, Vehicle

#: A point of the curve; its margin from version 2 on.
CURVE: tuple[Unit, ...] = (units.ENGINE_SPEED, units.POWER, units.PER_CENT)

#: Where a trace comes from, and the keys that go with each.
WAYS = {"speeds": ("speeds",), "csv": ("csv", "column", "time", "hertz", "decimal", "skip"), "cycle": ("cycle", "part", "downscale")}

#: What a text keeps for people, and no job has.
ABOUT = ("name", "note")

#: Places that a list of a job can have.
PLACES = 65535

#: The built-in cycle's name, the number of its parts, and the most that it is scaled down by, in thousandths.
CLASS_3, PARTS, FACTOR_MOST = "class 3", 4, 500

#: Speeds in a line of `show`.
ROW = 10


class _Vast:
    """A number of a size that nothing has, in place of its value."""

    def __init__(self, word: str) -> None:
        pass


_TYPES = {
    bool: "true or false",
    int: "a whole number",
    Decimal: "a number",
    str: "a string",
    list: "a list",
    dict: "a table",
    _Vast: "one of a size that nothing has",
}


def _dotted(path: Path) -> str:
    """`vehicle.curve[3][0]`, as a person would write it."""
    return "".join(f"[{part}]" if isinstance(part, int) else f".{short(part)}" for part in path).lstrip(".")


def _value(value: int | Decimal) -> str:
    """A number in a message; of one with very many digits not all, which Python would refuse to print."""
    if isinstance(value, int) and value.bit_length() > 300:
        return "a number of very many digits"
    return short(value)


@dataclass
class _Source:
    """A text and its name; says what is wrong, and in which line."""

    name: str
    text: str

    @cached_property
    def lines(self) -> dict[Path, int]:
        return lines_of(self.text)

    def line(self, path: Path) -> int:
        """The line of a value; of one that is missing, of its table."""
        while path and path not in self.lines:
            path = path[:-1]
        return self.lines.get(path, 1)

    def at(self, *path: str | int) -> str:
        """What a refusal's words begin with, where it is about a value of the text."""
        return f"{self.name} line {self.line(path)}: "

    def wrong(self, path: Path, words: str) -> NoReturn:
        raise BadText(self.name, self.line(path), words)

    def typed(self, path: Path, value: Any, *types: type) -> Any:
        if type(value) not in types:
            wanted = " or ".join(_TYPES[each] for each in types if not (each is int and Decimal in types))
            self.wrong(path, f"{_dotted(path)} must be {wanted}, and not {_TYPES.get(type(value), 'a date or a time')}")
        return value

    def number(self, path: Path, value: Any, unit: Unit) -> int:
        self.typed(path, value, int, Decimal)
        try:
            return unit.whole(value)
        except NotExact as why:
            self.wrong(path, f"{_dotted(path)} = {_value(value)} {why}")


class _Table:
    """A table of the text. A key that is not among the known ones is an error before anything else is looked at."""

    def __init__(self, source: _Source, path: Path, values: dict[str, Any], known: Sequence[str] | None) -> None:
        self.source, self.path, self.values = source, path, values
        if known is None:
            return
        for key in values:
            if key not in known:
                near = difflib.get_close_matches(short(key), known, 1)
                hint = f"; did you mean {near[0]}?" if near else f" (there are {', '.join(known)})"
                self.wrong(key, f"there is no key {self.dotted(key)}{hint}")

    def dotted(self, key: str) -> str:
        return _dotted(self.path + (key,))

    def wrong(self, key: str, words: str) -> NoReturn:
        self.source.wrong(self.path + (key,), words)

    def has(self, key: str) -> bool:
        return key in self.values

    def take(self, key: str) -> Any:
        if key not in self.values:
            self.wrong(key, f"{self.dotted(key)} is missing")
        return self.values[key]

    def number(self, key: str, unit: Unit) -> int:
        return self.source.number(self.path + (key,), self.take(key), unit)

    def typed(self, key: str, *types: type) -> Any:
        return self.source.typed(self.path + (key,), self.take(key), *types)

    def table(self, key: str, known: Sequence[str] | None) -> _Table:
        return _Table(self.source, self.path + (key,), self.typed(key, dict), known)

    def whole(self, key: str, allowed: Sequence[int], otherwise: int) -> int:
        """A whole number of those allowed, or the one that stands for a missing key."""
        number: int = self.typed(key, int) if self.has(key) else otherwise
        if number not in allowed:
            self.wrong(key, f"{self.dotted(key)} = {_value(number)} is none of {_listed_numbers(allowed)}")
        return number

    def many(self, key: str) -> list[Any]:
        """A list, of no more places than a job can have."""
        values: list[Any] = self.typed(key, list)
        if len(values) > PLACES:
            self.wrong(key, f"{self.dotted(key)} has {len(values):,} places, and a job can carry {PLACES:,}")
        return values


def _listed_numbers(allowed: Sequence[int]) -> str:
    return f"{allowed[0]} to {allowed[-1]}" if isinstance(allowed, range) else ", ".join(map(str, allowed))


def _float(word: str) -> Decimal | _Vast:
    """A number with a point or an exponent, nan and inf as TOML has them."""
    number = number_of(word.replace("_", ""))
    if number is not None:
        return number
    return Decimal(word) if "n" in word else _Vast(word)


def _read_toml(source: _Source) -> dict[str, Any]:
    found = outsized(source.text)
    if found is not None:
        raise BadText(source.name, found[0], f"it has {found[1]}, which no job has")
    try:
        return tomllib.loads(source.text, parse_float=_float)
    except tomllib.TOMLDecodeError as why:
        told = re.fullmatch(r"(.*) \(at (?:line (\d+), column \d+|end of document)\)", str(why))
        line = int(told[2]) if told and told[2] else source.text.count("\n") + 1
        raise BadText(source.name, line, f"it is no TOML: {told[1] if told else why}") from None


def parse(text: str, name: str, folder: File) -> Draft:
    """A job from its text. `name` is what the text is called where something is wrong, `folder` where its CSV file is looked for."""
    source = _Source(name, text)
    top = _Table(source, (), _read_toml(source), ("version", "about", "vehicle", "trace", "holds"))
    version = _version(top)
    about = _about(top.table("about", ABOUT)) if top.has("about") else ""
    vehicle = _vehicle(top.table("vehicle", ("ratios", *(each.key for each in SCALARS), "curve")), version)
    speeds, speed_name = _trace(top.table("trace", [key for keys in WAYS.values() for key in keys]), folder)
    holds = _holds(top.table("holds", None), len(speeds)) if top.has("holds") else bytearray(len(speeds))
    names = Names(
        _field_name(source, vehicle, version), speed_name, lambda second, gear: f"{source.at('holds', str(second))}holds.{second} = {gear}", source.at
    )
    return Draft(Job(vehicle, speeds, holds, version), names, True, about)


def _version(top: _Table) -> int:
    version: int = top.typed("version", int)
    if not 0 <= version <= 65535:
        top.wrong("version", f"version = {_value(version)} is not from 0 to 65535, which is what a job can carry")
    return version


def _about(table: _Table) -> str:
    """The vehicle's name; it and the note are for people."""
    for key in table.values:
        table.typed(key, str)
    return table.values.get("name", "")


def _curve(version: int) -> tuple[Unit, ...]:
    return CURVE[:2] if version == 1 else CURVE


def _scalars(version: int) -> list[Scalar]:
    """The vehicle's numbers that a job of this version has."""
    return [each for each in SCALARS if each.since <= version]


def _vehicle(table: _Table, version: int) -> Vehicle:
    source = table.source
    ratios = [source.number(table.path + ("ratios", k), ratio, units.RATIO) for k, ratio in enumerate(table.many("ratios"))]
    numbers = {each.name: table.number(each.key, each.unit) for each in _scalars(version)}
    curve = [_point(source, table.path + ("curve", k), row, version) for k, row in enumerate(table.many("curve"))]
    for each in SCALARS:
        if each.since > version and table.has(each.key):
            table.wrong(each.key, f"vehicle.{each.key} needs version {each.since}, and version = {version}")
    return Vehicle(ratios=tuple(ratios), curve=tuple(curve), **numbers)


def _point(source: _Source, path: Path, row: Any, version: int) -> Point:
    source.typed(path, row, list)
    columns = _curve(version)
    if len(row) != len(columns):
        source.wrong(path, f"{_dotted(path)} must have {len(columns)} numbers in version {version}, {_columns(columns)}, and has {len(row)}")
    return Point(*(source.number(path + (k,), value, unit) for k, (value, unit) in enumerate(zip(row, columns))))


def _columns(point: tuple[Unit, ...]) -> str:
    return _and(unit.people for unit in point)


def _and(words: Iterable[str]) -> str:
    *first, last = words
    return f"{', '.join(first)} and {last}"


def _trace(table: _Table, folder: File) -> tuple[array[int], Callable[[int], str]]:
    """The speeds, and what one is called. They come from one of three places."""
    given = [way for way in WAYS if table.has(way)]
    if len(given) != 1:
        words = f"has {' and '.join(given)}, and only one can be" if given else f"must have one of {', '.join(WAYS)}"
        table.source.wrong(table.path + tuple(given[1:2]), f"trace {words}")
    for key in table.values:
        if key not in WAYS[given[0]]:
            table.wrong(key, f"{table.dotted(key)} does not go with {table.dotted(given[0])}")
    speeds, speed_name = {"speeds": _listed, "csv": _from_csv, "cycle": _built_in}[given[0]](table, folder)
    return array("H", speeds), speed_name


def _listed(table: _Table, folder: File) -> tuple[Sequence[int], Callable[[int], str]]:
    path = table.path + ("speeds",)
    speeds = [table.source.number(path + (k,), value, units.SPEED) for k, value in enumerate(table.many("speeds"))]
    return speeds, lambda second: f"{table.source.at(*path, second)}trace.speeds[{second}]"


def _from_csv(table: _Table, folder: File) -> tuple[Sequence[int], Callable[[int], str]]:
    name = table.typed("csv", str)
    try:
        speeds, lines = read_speeds(folder / name, name, _layout(table))
    except BadText:
        raise
    except Misuse as why:
        table.wrong("csv", str(why))
    return speeds, lambda second: f"{name} line {lines[second]}: second {second}" if second < len(lines) else f"second {second}"


def _layout(table: _Table) -> Layout:
    columns = {key: table.typed(key, str, int) for key in ("column", "time") if table.has(key)}
    decimal = table.typed("decimal", str) if table.has("decimal") else None
    if decimal not in (None, ".", ","):
        table.wrong("decimal", f"trace.decimal = '{short(decimal)}' is neither '.' nor ','")
    return Layout(**columns, hertz=table.whole("hertz", HERTZ, 1), decimal=decimal, skip=table.whole("skip", range(PLACES + 1), 0))


def _built_in(table: _Table, folder: File) -> tuple[Sequence[int], Callable[[int], str]]:
    if (which := table.typed("cycle", str)).casefold() != CLASS_3:
        table.wrong("cycle", f"trace.cycle = '{short(which)}' is not '{CLASS_3}', the cycle that is built in")
    part = table.typed("part", int) if table.has("part") else 0
    factor = table.number("downscale", units.FACTOR) if table.has("downscale") else 0
    if not 0 <= part < 1 << 32:
        table.wrong("part", f"trace.part = {_value(part)} is no number of a part")
    try:
        speeds = downscale(factor, part) if table.has("downscale") else cycle(part)
    except Refused as refused:
        key, value = {18: ("part", str(part)), 23: ("downscale", units.FACTOR.text(factor))}[refused.number]
        raise Refused(refused.number, refused.place, f"{table.source.at('trace', key)}trace.{key} = {value}: {refused.words}") from None
    return speeds, lambda second: f"{table.source.at('trace', 'cycle')}second {second} of the trace"


def _holds(table: _Table, count: int) -> bytearray:
    holds = bytearray(count)
    for key in table.values:
        gear = table.typed(key, int)
        if not re.fullmatch("0|[1-9][0-9]{0,9}", key):
            table.wrong(key, f"holds.{short(key)}: '{short(key)}' is no second")
        if int(key) >= count:
            table.wrong(key, f"holds.{key} is past the trace, which has {count} seconds, from 0")
        if not 1 <= gear <= 255:
            table.wrong(key, f"holds.{key} = {_value(gear)} is no gear that can be held: 1 to 255 (a second that is not held has no line)")
        holds[int(key)] = gear
    return holds


def _field_name(source: _Source, vehicle: Vehicle, version: int) -> Callable[[int], str]:
    """What a field of the vehicle is called: its line, its key, and the value that is refused where it has one."""
    shown = {each.key: each.unit.text(getattr(vehicle, each.name)) for each in SCALARS}

    def name(number: int) -> str:
        key = FIELDS[number][0]
        if number == 1 and vehicle.profile > 1:
            key = "profile"
        place = at_fault(vehicle, version, number)
        if place is None:
            return f"{source.at('vehicle', key)}vehicle.{key}{f' = {shown[key]}' if key in shown else ''}"
        value = f"{units.RATIO.text(vehicle.ratios[place])}, gear {place + 1}" if number == RATIOS else f"[{_row(vehicle.curve[place], version)}]"
        return f"{source.at('vehicle', key, place)}vehicle.{key}[{place}] = {value}"

    return name


def _row(point: Sequence[int], version: int) -> str:
    """A point of the curve as a text has it."""
    return ", ".join(unit.text(value) for unit, value in zip(_curve(version), point))


def show(job: Job, speeds: bool = False) -> str:
    """The text of a job, with document 01's numbers in the comments. `parse` of it gives the same job. A trace that is built in is named, and its speeds are
    listed only where they are asked for."""
    vehicle = job.vehicle
    ratios = f"ratios = [{', '.join(map(units.RATIO.text, vehicle.ratios))}]"
    lines = [f"version = {job.version}", "", "[vehicle]", noted(ratios, units.RATIO, *vehicle.ratios)]
    for each in _scalars(job.version):
        value = getattr(vehicle, each.name)
        lines.append(noted(f"{each.key} = {each.unit.text(value)}", each.unit, value))
    columns = _curve(job.version)
    lines.append(_beside("curve = [", f"{_columns(columns)}; {_and(unit.paper for unit in columns)}"))
    for point in vehicle.curve:
        lines.append(_beside(f"  [{_row(point, job.version)}],", " ".join(map(str, point[: len(columns)]))))
    lines += ["]", "", "[trace]", *(([] if speeds else _shown_cycle(job.speeds)) or _shown_speeds(job.speeds))]
    held = [f"{second} = {gear}" for second, gear in enumerate(job.holds) if gear]
    if held:
        lines += ["", _beside("[holds]", "second = gear"), *held]
    return "\n".join(lines) + "\n"


def _shown_speeds(speeds: Sequence[int]) -> list[str]:
    rows = [(", ".join(map(units.SPEED.text, speeds[start : start + ROW])), start) for start in range(0, len(speeds), ROW)]
    return [_beside("speeds = [", f"{units.SPEED.people}; {units.SPEED.paper}"), *(_beside(f"  {row},", f"from second {start}") for row, start in rows), "]"]


def _shown_cycle(speeds: Sequence[int]) -> list[str]:
    """The keys of the built-in cycle, of the part of it, or of either scaled down, that these speeds are; none where they are none of them."""
    given = array("H", speeds)
    for part in range(PARTS + 1):
        if len(cycle(part)) != len(given):
            continue
        factor = next((factor for factor in range(FACTOR_MOST + 1) if downscale(factor, part) == given), None)
        if factor is not None:
            keys = [f'cycle = "{CLASS_3}"', *([f"part = {part}"] if part else []), *([f"downscale = {units.FACTOR.text(factor)}"] if factor else [])]
            return [_beside(keys[0], f"{len(given)} seconds, which show --speeds lists"), *keys[1:]]
    return []


def _beside(words: str, comment: str) -> str:
    return f"{words.ljust(20)}  # {comment}"


def noted(words: str, unit: Unit, *values: int) -> str:
    """A line with its unit and, where it is another, document 01's."""
    return _beside(words, f"{unit.people}; {' '.join(map(str, values))} {unit.paper}" if unit.decimals else unit.people)
