"""`compare` on what is given: each number of the vehicle, the trace and the holds by itself, whichever of the two jobs comes first."""

from __future__ import annotations

from array import array
from dataclasses import replace
from typing import Any

from gearcard import Job, Point, read, work, write
from gearcard.units import SCALARS

from .words import EXAMPLES, Words

#: Another number for each key of the vehicle, and both as a text has them.
NUMBERS = {
    "idle": (850, "850"),
    "rated": (5400, "5400"),
    "nmax": (5900, "5900"),
    "f0": (1873, "187.3"),
    "f1": (-313, "-0.313"),
    "f2": (5210, "0.05210"),
    "mass": (2312, "2312"),
    "margin": (7, "7"),
}


class Differences(Words):
    def told(self, one: Job, other: Job) -> list[str]:
        """What is told of two jobs before their cards; the same in the other order with the sides changed."""
        self.file("one.job", write(*one))
        self.file("other.job", write(*other))
        found = [self.given(self.answers("compare", *names).splitlines()) for names in (("one.job", "other.job"), ("other.job", "one.job"))]
        self.assertEqual(len(found[0]), len(found[1]))
        for line, turned in zip(*found):
            what, sides = line.split(": ")
            self.assertIn(turned, (line, f"{what}: {'; '.join(reversed(sides.split('; ')))}"))
        return found[0]

    def given(self, lines: list[str]) -> list[str]:
        return [line for line in lines if line.startswith(("version", "vehicle", "trace", "hold "))]

    def car(self, **changed: Any) -> Job:
        job = read((EXAMPLES / "car-z.job").read_bytes())
        return job._replace(vehicle=replace(job.vehicle, **changed))

    def test_each_number_of_the_vehicle(self) -> None:
        job = self.car()
        # a profile needs a later version, and is tried below
        others = [each for each in SCALARS if each.key != "profile"]
        self.assertEqual({each.key for each in others}, set(NUMBERS))
        for each in others:
            number, text = NUMBERS[each.key]
            told = self.told(job, self.car(**{each.name: number}))
            self.assertEqual(told, [f"vehicle.{each.key}: {each.unit.text(getattr(job.vehicle, each.name))}; {text}"])

    def test_gears_and_curve(self) -> None:
        job = self.car()
        self.assertEqual(self.told(job, self.car(ratios=(12000, 7000, 4510, 3500, 2800))), ["vehicle.ratios[2]: 45.00; 45.10"])
        self.assertEqual(self.told(job, self.car(ratios=(12000, 7000, 4500, 3500))), ["vehicle.ratios[4]: 28.00; none"])
        curve = list(job.vehicle.curve)
        changed = [*curve[:3], Point(3800, 705), *curve[4:]]
        self.assertEqual(self.told(job, self.car(curve=changed)), ["vehicle.curve[3]: [3800, 70.0, 0]; [3800, 70.5, 0]"])
        self.assertEqual(self.told(job, self.car(curve=[*curve, Point(6500, 800)])), ["vehicle.curve[7]: none; [6500, 80.0, 0]"])

    def test_version_margin_and_profile(self) -> None:
        job = self.car()
        self.assertEqual(self.told(job, job._replace(version=3)), ["version: 1; 3"])
        margins = [Point(*point)._replace(m=5 * (k == 1)) for k, point in enumerate(job.vehicle.curve)]
        two = job._replace(version=2)
        self.assertEqual(self.told(two, self.car(curve=margins)._replace(version=2)), ["vehicle.curve[1]: [1800, 30.0, 0]; [1800, 30.0, 5]"])
        three = job._replace(version=3)
        self.assertEqual(self.told(three, self.car(profile=1)._replace(version=3)), ["vehicle.profile: 0; 1"])

    def test_traces(self) -> None:
        job = self.car()
        other = self.car()
        other.speeds[2] = 151
        self.assertEqual(self.told(job, other), ["trace: the speed of 1 second differs, from second 2 on"])
        other.speeds[3] = 99
        self.assertEqual(self.told(job, other), ["trace: the speeds of 2 seconds differ, from second 2 on"])
        longer = job._replace(speeds=array("H", [*job.speeds, 0, 0]), holds=bytearray([*job.holds, 0, 0]))
        self.assertEqual(self.told(job, longer), ["trace: 5 seconds; 7 seconds"])

    def test_holds(self) -> None:
        job = read((EXAMPLES / "class-3.job").read_bytes())
        other = read((EXAMPLES / "class-3.job").read_bytes())
        for second, gear in ((60, 2), (61, 2), (62, 3), (700, 2)):
            other.holds[second] = gear
        self.assertEqual(self.told(job, other), ["hold of seconds 60-61: none; gear 2", "hold of second 62: none; gear 3", "hold of second 700: none; gear 2"])
        job.holds[60] = 2
        job.holds[61] = 3
        self.assertEqual(self.told(job, other)[:2], ["hold of second 61: gear 3; gear 2", "hold of second 62: none; gear 3"])

    def test_the_same_card(self) -> None:
        """By different holds, by different vehicles, by both, and by nothing that differs."""
        job = self.car()
        held, heavier = self.car(), self.car(tm=1501)
        held.holds[1] = 1
        both = heavier._replace(holds=held.holds)
        self.assertEqual({bytes(work(*each[:3])) for each in (job, held, heavier, both)}, {bytes(work(*job[:3]))})
        self.file("one.job", write(*job))
        for other, by in ((job, ""), (held, ", by different holds"), (heavier, ", by different vehicles"), (both, ", by different vehicles and holds")):
            self.file("other.job", write(*other))
            self.assertEqual(self.answers("compare", "one.job", "other.job").splitlines()[-1], f"one.job and other.job have the same card{by}")

    def test_a_vehicle_is_no_part_of_a_spreadsheet(self) -> None:
        self.file("one.job", write(*self.car()))
        self.file("other.job", write(*self.car(tm=1501)))
        self.assertEqual(self.answers("compare", "one.job", "other.job", "--csv"), "second,speed,gear,clutch,other speed,other gear,other clutch\n")
