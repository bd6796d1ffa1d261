"""The picture, read as a person reads it: by the labels on its axes."""

from __future__ import annotations

import re
import unittest
import xml.etree.ElementTree as ET
from array import array
from pathlib import Path
from typing import Iterator, NamedTuple

from gearcard import Job, Refused, clutch_down, gear_of, read, work
from gearcard.picture import picture, picture_of_bytes, trips_of

from . import seeded

SVG = "{http://www.w3.org/2000/svg}"


class Seen(NamedTuple):
    """What a picture shows, by second."""

    gears: dict[int, int]
    speeds: dict[int, float]
    clutch: set[int]
    held: set[int]
    held_gears: dict[int, int]
    trips: set[int]


def _scale(marks: list[tuple[float, float]]) -> tuple[float, float]:
    """From two labels of an axis, the value at 0 and the value a unit of the drawing."""
    (a, first), (b, last) = marks[0], marks[-1]
    per = (last - first) / (b - a)
    return first - a * per, per


def _near(value: float) -> int:
    whole = round(value)
    assert abs(value - whole) < 0.02, value
    return whole


def _rects(row: ET.Element, kind: str) -> Iterator[tuple[float, float, float, float]]:
    for rect in row.iter(f"{SVG}rect"):
        if rect.get("class") == kind:
            yield tuple(float(rect.get(name, "")) for name in ("x", "y", "width", "height"))  # type: ignore[misc]


def seen(svg: str) -> Seen:
    """Reads a picture back: a second from the labels below, a gear and a speed from those at the left."""
    out = Seen({}, {}, set(), set(), {}, set())
    for row in ET.fromstring(svg).iter(f"{SVG}g"):
        marks: dict[str, list[tuple[float, float]]] = {"second": [], "gear": [], "speed": []}
        for text in row.iter(f"{SVG}text"):
            kind = text.get("class", "").split()[0]
            if kind in marks:
                # letters stand 4 below the middle of their line
                place = float(text.get("x", "")) if kind == "second" else float(text.get("y", "")) - 4
                marks[kind].append((place, 0.0 if text.text == "N" else float(text.text or "")))
        second0, a_second = _scale(marks["second"])
        gear0, a_gear = _scale(marks["gear"])
        speed0, a_speed = _scale(marks["speed"])

        def seconds(x: float, width: float) -> range:
            return range(_near(second0 + a_second * x), _near(second0 + a_second * (x + width)))

        for path in row.iter(f"{SVG}path"):
            if path.get("class") == "gears":
                x, y = 0.0, 0.0
                for letter, numbers in re.findall("([MHV])([-0-9. ]+)", path.get("d", "")):
                    values = [float(number) for number in numbers.split()]
                    if letter == "H":
                        for second in seconds(x, values[0] - x):
                            assert second not in out.gears
                            out.gears[second] = _near(gear0 + a_gear * y)
                        x = values[0]
                    else:
                        x, y = (values[0], values[1]) if letter == "M" else (x, values[0])
        for line in row.iter(f"{SVG}polyline"):
            for point in line.get("points", "").split():
                x, y = map(float, point.split(","))
                out.speeds[_near(second0 + a_second * x)] = speed0 + a_speed * y
        for kind, found in (("clutch", out.clutch), ("held", out.held), ("trip", out.trips)):
            for x, _, width, _ in _rects(row, kind):
                found.update(seconds(x, width))
        for x, y, width, height in _rects(row, "held on"):
            for second in seconds(x, width):
                out.held_gears[second] = _near(gear0 + a_gear * (y + height / 2))
    return out


class Pictures(unittest.TestCase):
    def check(self, job: Job) -> None:
        card = work(job.vehicle, job.speeds, job.holds)
        shown = seen(picture("a job", job, card))
        self.assertEqual(shown.gears, {second: gear_of(byte) for second, byte in enumerate(card)})
        self.assertEqual(shown.clutch, {second for second, byte in enumerate(card) if clutch_down(byte)})
        held = {second: gear for second, gear in enumerate(job.holds) if gear}
        self.assertEqual(shown.held, set(held))
        self.assertEqual(shown.held_gears, held)
        self.assertEqual(shown.trips, {second for second, speed in enumerate(job.speeds) if speed >= 10})
        self.assertEqual(set(shown.speeds), set(range(len(job.speeds))))
        for second, speed in enumerate(job.speeds):
            # two decimals of the drawing are at most this much of a speed
            self.assertAlmostEqual(shown.speeds[second], speed / 10, delta=max(job.speeds) / 10 * 0.0005 + 0.02)

    def test_examples(self) -> None:
        for name in ("car-z", "car-z-held", "van", "class-3"):
            self.check(read(Path(f"examples/{name}.job").read_bytes()))

    def test_seeded(self) -> None:
        for seed in range(60):
            job = seeded.job(seed)
            if len(job.speeds) > 1:
                self.check(job)

    def test_longest(self) -> None:
        self.check(Job(seeded.CAR_Z, array("H", [0, *[100] * 16382, 0]), bytearray(16384)))

    def test_a_wrong_gear_is_seen(self) -> None:
        job = read(Path("examples/class-3.job").read_bytes())
        card = work(job.vehicle, job.speeds, job.holds)
        other = bytearray(card)
        other[700] += 1
        self.assertNotEqual(seen(picture("a job", job, other)).gears, seen(picture("a job", job, card)).gears)

    def test_trips(self) -> None:
        self.assertEqual(trips_of([0, 10, 9, 10, 11, 0]), [(1, 1, 2), (2, 3, 5)])
        self.assertEqual(trips_of([]), [])

    def test_refused(self) -> None:
        job = read(Path("examples/refused.job").read_bytes())
        drawn = picture("refused.job", job, None, Refused(9, 4, "gear 1 <&> so on"))
        marks = [path for path in ET.fromstring(drawn).iter(f"{SVG}path") if path.get("class") == "mark"]
        self.assertEqual(len(marks), 1)
        self.assertIn("refused 9 at 4: gear 1 &lt;&amp;&gt; so on", drawn)
        self.assertEqual(seen(drawn).gears, {})
        self.assertEqual(len(seen(drawn).speeds), len(job.speeds))
        for number, place in ((3, 5), (1, 0)):
            self.assertNotIn('class="mark"', picture("a job", job, None, Refused(number, place)))
        self.assertIn("refused 1 at 0", picture("empty", Job(seeded.CAR_Z, array("H"), bytearray()), None, Refused(1, 0)))
        cut = picture_of_bytes("cut.job", 40, Refused(12, 40))
        self.assertIn('class="mark"', cut)
        self.assertIn("refused 12 at 40: the bytes end early, after 40 of them", cut)
        self.assertNotIn('class="mark"', picture_of_bytes("new.job", 40, Refused(14, 0)))

    def test_black_and_white(self) -> None:
        job = read(Path("examples/class-3.job").read_bytes())
        colours = set(re.findall("#[0-9a-f]{3,6}", picture("a job", job, work(job.vehicle, job.speeds, job.holds))))
        self.assertTrue(colours)
        for colour in colours:
            digits = colour[1:] if len(colour) == 7 else "".join(2 * digit for digit in colour[1:])
            self.assertEqual(len({digits[k : k + 2] for k in (0, 2, 4)}), 1, colour)
