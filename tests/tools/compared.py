"""`compare`: each part of a second by itself, and each count, whichever of the two jobs comes first."""

from __future__ import annotations

import json
from typing import Any

from gearcard import Job, read, summary, work, write

from .words import EXAMPLES, Words


class Compared(Words):
    def mended(self, second: int, speed: int) -> Job:
        """The Class 3 job with another speed at a second, in other.job."""
        job = read((EXAMPLES / "class-3.job").read_bytes())
        job.speeds[second] = speed
        self.file("other.job", write(*job[:3]))
        return job

    def rows(self, one: Job, other: Job) -> list[dict[str, Any]]:
        """What must be told of two jobs of the same length: the seconds whose speed, gear or clutch differ."""
        cards = [(job.speeds, work(*job[:3])) for job in (one, other)]
        seconds = [[(speed / 10, byte % 16, "down" if byte >= 16 else "up") for speed, byte in zip(*card)] for card in cards]
        names = ("second", "speed", "gear", "clutch", "other speed", "other gear", "other clutch")
        return [dict(zip(names, (k, *a, *b))) for k, (a, b) in enumerate(zip(*seconds)) if a != b]

    def test_the_clutch_alone_and_the_speed_alone(self) -> None:
        """Second 1481 driven slower: it has another speed and the same gear and clutch, and the second before it another clutch alone."""
        job, other = read((EXAMPLES / "class-3.job").read_bytes()), self.mended(1481, 43)
        wanted = self.rows(job, other)
        alike = [(row["second"], *(row[part] == row[f"other {part}"] for part in ("speed", "gear", "clutch"))) for row in wanted]
        self.assertEqual(alike, [(1480, True, True, False), (1481, False, True, True)])
        self.assertEqual(json.loads(self.answers("compare", "class-3.job", "other.job", "--json")), wanted)
        lines = self.answers("compare", "class-3.job", "other.job").splitlines()
        self.assertEqual([line.split(":")[0] for line in lines], ["trace", "second 1480", "second 1481"])

    def test_the_gear_alone(self) -> None:
        job = read((EXAMPLES / "class-3.job").read_bytes())
        other = read((EXAMPLES / "class-3.job").read_bytes())
        other.holds[800] = other.holds[801] = 5
        self.file("other.job", write(*other[:3]))
        wanted = self.rows(job, other)
        self.assertTrue(any((row["speed"], row["clutch"]) == (row["other speed"], row["other clutch"]) for row in wanted))
        self.assertEqual(json.loads(self.answers("compare", "class-3.job", "other.job", "--json")), wanted)

    def test_counts_from_both_sides(self) -> None:
        """Car Z has fewer gears than the car of the cycle: what only one of them counts is told, whichever comes first."""
        counts: dict[str, dict[str, int]] = {}
        for name in ("car-z", "class-3"):
            job = read((EXAMPLES / f"{name}.job").read_bytes())
            found = summary(job.speeds, work(*job[:3]))
            gears = {f"gear {k}": found.gears[k - 1] for k in range(1, len(job.vehicle.ratios) + 1)}
            counts[name] = {"standing": found.standing, **gears, "changes": found.changes}
        self.assertEqual({*counts["class-3"]} - {*counts["car-z"]}, {"gear 6"})
        for one, other in (("car-z", "class-3"), ("class-3", "car-z")):
            lines = self.answers("compare", f"{one}.job", f"{other}.job").splitlines()
            wanted = {what: (counts[one].get(what, "none"), counts[other].get(what, "none")) for what in {**counts[one], **counts[other]}}
            told = [line for line in lines if line.split(": ")[0] in wanted]
            self.assertEqual(sorted(told), sorted(f"{what}: {a}; {b}" for what, (a, b) in wanted.items() if a != b), one)
            ends = [line.split(": ")[1].split("; ")[one == "class-3"] for line in lines if line.startswith("second ")][5:]
            self.assertEqual(set(ends), {"none"})
            rows = self.answers("compare", f"{one}.job", f"{other}.job", "--csv").splitlines()
            none = [row.split(",")[4:7] if one == "class-3" else row.split(",")[1:4] for row in rows[6:]]
            self.assertEqual((len(none) > 1700, {cell for row in none for cell in row}), (True, {""}))
