"""`show`: a trace that is built in is shown by its name, and what is shown makes the same job."""

from __future__ import annotations

import tomllib
from pathlib import Path
from typing import Any

from gearcard import Job, cycle, downscale, read, write
from gearcard.jobtext import parse, show

from .words import EXAMPLES, Words


class Shown(Words):
    def job(self, speeds: object) -> Job:
        job = read((EXAMPLES / "class-3.job").read_bytes())
        return read(write(job.vehicle, speeds, None, job.version))

    def keys(self, job: Job) -> dict[str, Any]:
        """The keys of the trace as they are shown, once the text was seen to make the same job."""
        for text in (show(job), show(job, speeds=True)):
            self.assertEqual(parse(text, "shown", Path(".")).job, job)
        self.assertEqual(tomllib.loads(show(job, speeds=True))["trace"].keys(), {"speeds"})
        trace: dict[str, Any] = tomllib.loads(show(job))["trace"]
        return trace

    def test_the_cycle_and_its_parts(self) -> None:
        self.assertEqual(self.keys(self.job(cycle())), {"cycle": "class 3"})
        for part in range(1, 5):
            self.assertEqual(self.keys(self.job(cycle(part))), {"cycle": "class 3", "part": part})

    def test_scaled_down(self) -> None:
        """By the least factor that gives these speeds: the same job comes of it."""
        for part in (0, 4):
            for factor in (1, 123, 500):
                found = self.keys(self.job(downscale(factor, part)))
                self.assertEqual((found.pop("cycle"), found.pop("part", 0)), ("class 3", part))
                thousandths = round(found.pop("downscale") * 1000)
                self.assertEqual((downscale(thousandths, part), found), (downscale(factor, part), {}))
                self.assertLessEqual(thousandths, factor)

    def test_others_are_listed(self) -> None:
        mended = cycle()
        mended[60] += 1
        for speeds in (mended, cycle(4)[:-1], [*cycle(4), 0], [0]):
            self.assertEqual(self.keys(self.job(speeds)).keys(), {"speeds"})

    def test_as_a_word(self) -> None:
        text = self.answers("show", "class-3.job")
        self.assertIn('cycle = "class 3"     # 1801 seconds, which show --speeds lists\n', text)
        self.assertLess(len(text.splitlines()), 40)
        whole = self.answers("show", "class-3.job", "--speeds")
        self.assertGreater(len(whole.splitlines()), 190)
        for name, each in (("named", text), ("listed", whole)):
            self.file(f"{name}.toml", each)
            self.answers("make", f"{name}.toml")
            self.assertEqual((self.folder / f"{name}.job").read_bytes(), (EXAMPLES / "class-3.job").read_bytes())
        self.assertEqual(self.answers("show", "car-z.job"), self.answers("show", "car-z.job", "--speeds"))
