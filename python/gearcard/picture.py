"""The card as a picture: SVG in black, white and grey, for a bench's wall and for a screen.

Rows of some 300 seconds. In each the speed over time, the gear as steps beneath it, a bar where the clutch is down, a box around held seconds, and a grey
band for each trip. Nothing is worked out here: gears and clutch are the card's, and what refuses a job is the engine's.
"""

from __future__ import annotations

import textwrap
from typing import Iterator, NamedTuple, Sequence

from .calls import Job, clutch_down, gear_of
from .output import plain
from .refusals import BYTES, SECONDS, Refused

#: A second is moving from this speed on, tenths of km/h: document 01's word, by which trips are drawn.
MOVING = 10

WIDTH = 1000
LEFT, RIGHT = 62, 14
HEAD, FOOT = 64, 8
SPEED_HEIGHT, GEAR_STEP = 80, 11.5
NUMBERS, STRIP, GAP, AXIS = 14, 8, 6, 27
LONGEST_ROW, SHORTEST_ROW = 310, 10

_STYLE = """
text { font: 11px Helvetica, Arial, sans-serif; fill: #000 }
.title { font-size: 17px; font-weight: bold }
.refusal { font-size: 14px; font-weight: bold; stroke: #fff; stroke-width: 4; paint-order: stroke }
.end { text-anchor: end } .mid { text-anchor: middle }
.small { font-size: 9px } .onstep { font-size: 9px; text-anchor: middle }
.trip { fill: #ececec } .edge { stroke: #000; stroke-width: 1; fill: none }
.grid { stroke: #bbb; stroke-width: 0.5; fill: none } .tick { stroke: #000; stroke-width: 1; fill: none }
.speeds { stroke: #000; stroke-width: 1.3; fill: none; stroke-linejoin: round }
.gears { stroke: #000; stroke-width: 2; fill: none } .clutch { fill: #000 }
.held { fill: #fff; stroke: #000; stroke-width: 1 }
.mark { stroke: #000; stroke-width: 2.5; stroke-dasharray: 7 3; fill: none }
""".strip()

#: Seconds between the labels of the axis, and between its small ticks.
_TICKS = ((1, 1), (2, 1), (5, 1), (10, 2), (20, 5), (50, 10), (100, 20))


class Trip(NamedTuple):
    """Moving seconds from `first` on, up to and without `stop`; trips count from 1."""

    number: int
    first: int
    stop: int


def trips_of(speeds: Sequence[int]) -> list[Trip]:
    """The trips of a trace: runs of moving seconds."""
    runs = _runs([speed >= MOVING for speed in speeds])
    return [Trip(k, first, stop) for k, (first, stop, _) in enumerate(((a, b, m) for a, b, m in runs if m), 1)]


def _runs(values: Sequence[int], first: int = 0) -> Iterator[tuple[int, int, int]]:
    """Runs of equal values: from, up to and without, value."""
    start = 0
    for k in range(1, len(values) + 1):
        if k == len(values) or values[k] != values[start]:
            yield first + start, first + k, values[start]
            start = k


def _n(number: float) -> str:
    return f"{number:.2f}".rstrip("0").rstrip(".")


def _line(kind: str, x1: float, y1: float, x2: float, y2: float) -> str:
    return f'<path class="{kind}" d="M{_n(x1)} {_n(y1)}L{_n(x2)} {_n(y2)}"/>'


def _rect(kind: str, x: float, y: float, width: float, height: float) -> str:
    return f'<rect class="{kind}" x="{_n(x)}" y="{_n(y)}" width="{_n(width)}" height="{_n(height)}"/>'


def _text(kind: str, x: float, y: float, words: object) -> str:
    escaped = plain(words).replace("&", "&amp;").replace("<", "&lt;").replace(">", "&gt;")
    return f'<text class="{kind}" x="{_n(x)}" y="{_n(y)}">{escaped}</text>'


class _Scale(NamedTuple):
    """What all rows share: seconds in a row, units of the drawing a second, the speeds' top and the step of their labels, and the gears."""

    row: int
    second: float
    top: int
    step: int
    gears: int
    held: bool

    @property
    def gear_height(self) -> float:
        return GEAR_STEP * (self.gears + 1.5)

    @property
    def height(self) -> float:
        return NUMBERS + SPEED_HEIGHT + GAP + self.gear_height + GAP + STRIP + (STRIP + 3 if self.held else 0) + AXIS


def _scale(job: Job) -> _Scale:
    count = max(1, len(job.speeds))
    row = -(-count // -(-count // LONGEST_ROW))
    row = max(SHORTEST_ROW, -(-row // 10) * 10)
    most = max([100, *job.speeds])
    step = next(step for step in (20, 50, 100, 200, 250, 500, 1000, 2000, 5000, 10000, 20000) if most <= 6 * step)
    top = -(-most // step) * step
    return _Scale(row, (WIDTH - LEFT - RIGHT) / row, top, step, min(len(job.vehicle.ratios), 10), any(job.holds))


class _Row:
    """One row of the picture: seconds `first` up to and without `stop`."""

    def __init__(self, job: Job, card: Sequence[int] | None, scale: _Scale, first: int, y: float) -> None:
        self.job, self.card, self.scale, self.first = job, card, scale, first
        self.stop = min(first + scale.row, len(job.speeds))
        self.speed_base = y + NUMBERS + SPEED_HEIGHT
        self.gear_base = self.speed_base + GAP + scale.gear_height
        self.clutch_top = self.gear_base + GAP
        self.held_top = self.clutch_top + STRIP + 3
        self.base = (self.held_top if scale.held else self.clutch_top) + STRIP
        self.y = y

    def x(self, second: float) -> float:
        return LEFT + (second - self.first) * self.scale.second

    def speed_y(self, speed: int) -> float:
        return self.speed_base - SPEED_HEIGHT * speed / self.scale.top

    def gear_y(self, gear: int) -> float:
        return self.gear_base - GEAR_STEP * (gear + 0.5)

    def drawn(self, trips: Sequence[Trip]) -> list[str]:
        parts = ['<g class="row">', *self.bands(trips), *self.grid(), *self.labels(), *self.speeds(), *self.holds()]
        if self.card is not None:
            parts += [*self.gears(self.card), *self.clutch(self.card)]
        return parts + ["</g>"]

    def bands(self, trips: Sequence[Trip]) -> Iterator[str]:
        for trip in trips:
            first, stop = max(trip.first, self.first), min(trip.stop, self.stop)
            if first >= stop:
                continue
            width = (stop - first) * self.scale.second
            yield _rect("trip", self.x(first), self.y + 2, width, self.base - self.y - 2)
            words = f"trip {trip.number}" + (" goes on" if trip.first < self.first else "")
            room = width / 4.6
            short = next((each for each in (words, f"trip {trip.number}", str(trip.number)) if len(each) <= room), "")
            if short:
                yield _text("small", self.x(first) + 2, self.y + 11, short)

    def grid(self) -> Iterator[str]:
        left, right = self.x(self.first), self.x(self.stop)
        for speed in range(0, self.scale.top + 1, self.scale.step):
            yield _line("grid", left, self.speed_y(speed), right, self.speed_y(speed))
        for gear in range(self.scale.gears + 1):
            yield _line("grid", left, self.gear_y(gear), right, self.gear_y(gear))
        label, _ = self.ticks()
        for second in range(-(-self.first // label) * label, self.stop, label):
            yield _line("grid", self.x(second), self.speed_base - SPEED_HEIGHT, self.x(second), self.gear_base)
        yield _rect("edge", left, self.speed_base - SPEED_HEIGHT, right - left, SPEED_HEIGHT)
        yield _rect("edge", left, self.gear_base - self.scale.gear_height, right - left, self.scale.gear_height)

    def ticks(self) -> tuple[int, int]:
        return next(pair for pair in _TICKS if pair[0] * self.scale.second >= 50 or pair is _TICKS[-1])

    def labels(self) -> Iterator[str]:
        for speed in range(0, self.scale.top + 1, self.scale.step):
            yield _text("speed end", LEFT - 5, self.speed_y(speed) + 4, speed // 10)
        yield _text("end", LEFT - 30, self.speed_base - SPEED_HEIGHT / 2 + 4, "km/h")
        for gear in range(self.scale.gears + 1):
            yield _text("gear end", LEFT - 5, self.gear_y(gear) + 4, gear or "N")
        yield _text("end", LEFT - 30, self.gear_base - self.scale.gear_height / 2 + 4, "gear")
        yield _text("end", LEFT - 5, self.clutch_top + STRIP, "clutch")
        if self.scale.held:
            yield _text("end", LEFT - 5, self.held_top + STRIP, "held")
        yield _line("tick", self.x(self.first), self.base + 3, self.x(self.stop), self.base + 3)
        label, small = self.ticks()
        for second in range(-(-self.first // small) * small, self.stop + 1, small):
            long = second % label == 0
            yield _line("tick", self.x(second), self.base + 3, self.x(second), self.base + (9 if long else 6))
            if long:
                yield _text("second mid", self.x(second), self.base + 20, second)
        yield _text("end", LEFT - 18, self.base + 20, "second")

    def speeds(self) -> Iterator[str]:
        seconds = range(self.first, min(self.stop + 1, len(self.job.speeds)))
        points = " ".join(f"{_n(self.x(k))},{_n(self.speed_y(self.job.speeds[k]))}" for k in seconds)
        yield f'<polyline class="speeds" points="{points}"/>'

    def gears(self, card: Sequence[int]) -> Iterator[str]:
        steps = list(_runs([gear_of(byte) for byte in card[self.first : self.stop]], self.first))
        path = "".join(f"{'V' if k else f'M{_n(self.x(a))} '}{_n(self.gear_y(gear))}H{_n(self.x(b))}" for k, (a, b, gear) in enumerate(steps))
        yield f'<path class="gears" d="{path}"/>'
        for a, b, gear in steps:
            if gear and (b - a) * self.scale.second >= 12:
                held = any(self.job.holds[a:b])
                yield _text("onstep", self.x((a + b) / 2), self.gear_y(gear) - (6 if held else 3), gear)

    def clutch(self, card: Sequence[int]) -> Iterator[str]:
        for a, b, down in _runs([clutch_down(byte) for byte in card[self.first : self.stop]], self.first):
            if down:
                yield _rect("clutch", self.x(a), self.clutch_top, self.x(b) - self.x(a), STRIP)

    def holds(self) -> Iterator[str]:
        for a, b, gear in _runs(list(self.job.holds[self.first : self.stop]), self.first):
            if gear:
                width = self.x(b) - self.x(a)
                yield _rect("held", self.x(a), self.held_top, width, STRIP)
                if gear <= self.scale.gears:
                    yield _rect("held on", self.x(a), self.gear_y(gear) - 4, width, 8)


def _document(height: float, parts: list[str]) -> str:
    head = f'<svg xmlns="http://www.w3.org/2000/svg" width="{WIDTH}" height="{_n(height)}" viewBox="0 0 {WIDTH} {_n(height)}">'
    return "\n".join([head, f"<style>{_STYLE}</style>", f'<rect width="{WIDTH}" height="{_n(height)}" fill="#fff"/>', *parts, "</svg>"]) + "\n"


def _count(number: int, what: str) -> str:
    return f"{number} {what}{'' if number == 1 else 's'}"


def _head(title: str, refused: Refused | None, told: str) -> tuple[list[str], float]:
    """The title and what stands below it, and how high that is; a long refusal goes over lines."""
    parts = [_text("title", LEFT, 26, title)]
    if refused is None:
        return parts + [_text("", LEFT, 48, told)], HEAD
    lines = textwrap.wrap(str(refused), 105)
    return parts + [_text("refusal", LEFT, 48 + 18 * k, line) for k, line in enumerate(lines)], HEAD + 18 * (len(lines) - 1)


def _beside(x: float, y: float, words: str) -> str:
    """A refusal's words beside its mark, on the side that has room."""
    left = x > WIDTH / 2
    return _text(f"refusal{' end' if left else ''}", x - 6 if left else x + 6, y, words)


def picture(title: str, job: Job, card: Sequence[int] | None, refused: Refused | None = None) -> str:
    """The SVG of a job: with its card, or with the refusal at its second."""
    scale, trips, count = _scale(job), trips_of(job.speeds), len(job.speeds)
    told = f"{_count(count, 'second')}, {_count(len(trips), 'trip')}, {_count(len(job.vehicle.ratios), 'gear')}."
    told += " Grey: a trip. Step: the gear, N neutral. Black bar: clutch down."
    if scale.held:
        told += f" White box: a held second, {sum(map(bool, job.holds))} in all."
    parts, y = _head(title, refused, told)
    for first in range(0, count, scale.row):
        row = _Row(job, card, scale, first, y)
        parts += row.drawn(trips)
        if refused is not None and refused.number in SECONDS and row.first <= refused.place < row.stop:
            x = row.x(refused.place)
            parts += [_line("mark", x, row.y, x, row.base + 3), _beside(x, row.speed_base + GAP + 14, f"refused {refused.number} at {refused.place}")]
        y += scale.height
    return _document(y + FOOT, parts)


def picture_of_bytes(title: str, length: int, refused: Refused) -> str:
    """The SVG of a file that is no job: its bytes as a bar, and the refusal at its byte."""
    parts, top = _head(title, refused, "")
    wide, top = WIDTH - LEFT - RIGHT, top + 20
    parts += [_rect("trip", LEFT, top, wide, 30), _rect("edge", LEFT, top, wide, 30)]
    parts += [_text("byte", LEFT, top + 46, "byte 0"), _text("byte end", LEFT + wide, top + 46, f"{length} bytes")]
    if refused.number in BYTES:
        x = LEFT + wide * min(refused.place, length) / max(length, 1)
        parts += [_line("mark", x, top - 12, x, top + 36), _beside(x, top + 20, f"byte {refused.place}")]
    return _document(top + 60, parts)
