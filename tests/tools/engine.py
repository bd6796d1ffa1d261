"""The Python package: every function on the examples, the structs and words against the header, and the library that is loaded."""

from __future__ import annotations

import contextlib
import os
import platform
import random
import re
import shutil
import statistics
import subprocess
import sys
import tempfile
import time
import unittest
from array import array
from dataclasses import replace
from pathlib import Path
from typing import Any, Callable

import gearcard
from gearcard import Refused, Summary, clutch_down, cycle, downscale, export, gear_of, hold, mend, part_of, read, release, summary, work, write
from gearcard import engine
from gearcard.refusals import FIELDS, WORDS, in_words
from gearcard.vehicle import Vehicle

from . import seeded

HEADER = Path("include/gearcard.h").read_text()


def untyped(value: object) -> Any:
    """A value that the types would not let through, for what is said of it when it is given all the same."""
    return value


def text_of(job: gearcard.Job, card: bytearray) -> str:
    rows = ["second speed gear clutch"]
    for second, (speed, byte) in enumerate(zip(job.speeds, card)):
        rows.append(f"{second} {speed // 10}.{speed % 10} {gear_of(byte)} {'down' if clutch_down(byte) else 'up'}")
    return "\n".join(rows) + "\n"


class Functions(unittest.TestCase):
    def test_examples(self) -> None:
        for path in sorted(Path("examples").glob("*.job")):
            job = read(path.read_bytes())
            self.assertEqual(seeded.encoded(job), path.read_bytes())
            try:
                text = text_of(job, work(job.vehicle, job.speeds, job.holds))
            except Refused as refused:
                text = f"refused {refused.number} at {refused.place}\n"
            self.assertEqual(text, path.with_suffix(".txt").read_text(), path)

    def test_read_seeded(self) -> None:
        for seed in range(200):
            job = seeded.job(seed)
            self.assertEqual(read(seeded.encoded(job)), job, f"seed {seed}")

    def test_write(self) -> None:
        for path in sorted(Path("examples").glob("*.job")):
            job = read(path.read_bytes())
            if path.name == "refused.job":
                with self.assertRaises(Refused) as raised:
                    write(job.vehicle, job.speeds, job.holds)
                self.assertEqual((raised.exception.number, raised.exception.place), (9, 4))
            else:
                self.assertEqual(write(job.vehicle, job.speeds, job.holds, job.version), path.read_bytes())
        for seed in range(2000):
            job = seeded.job(seed)
            self.assertEqual(write(job.vehicle, list(job.speeds), list(job.holds), job.version), seeded.encoded(job), f"seed {seed}")
        margin = replace(seeded.CAR_Z, curve=[(*point[:2], 1) for point in seeded.CAR_Z.curve])
        for car, version, number, place in (
            (seeded.CAR_Z, 0, 14, 0),
            (seeded.CAR_Z, 65535, 14, 0),
            (margin, 1, 3, 12),
            (replace(seeded.CAR_Z, profile=1), 1, 3, 1),
            (replace(margin, profile=1), 2, 3, 1),
            (replace(margin, profile=1, ratios=seeded.CAR_Z.ratios[:2]), 3, 3, 1),
            (replace(margin, profile=2), 3, 3, 1),
        ):
            with self.assertRaises(Refused) as raised:
                write(car, [0], None, version)
            self.assertEqual((raised.exception.number, raised.exception.place), (number, place))
        with self.assertRaisesRegex(ValueError, "65536 is no version"):
            write(seeded.CAR_Z, [0], None, 65536)
        # every second held: longer than the first room that is lent
        longest = gearcard.Job(seeded.CAR_Z, array("H", [0, *[150] * 16382, 0]), bytearray([0, *[5] * 16382, 0]))
        self.assertEqual(write(longest.vehicle, longest.speeds, longest.holds), seeded.encoded(longest))

    def test_hold_and_release(self) -> None:
        job = gearcard.Job(seeded.CAR_Z, array("H", [0, 50, 150, 100, 0]), bytearray(5))
        card = work(job.vehicle, job.speeds)
        self.assertEqual(list(card), [17, 1, 2, 18, 0])
        kinds: tuple[Callable[[list[int]], Any], ...] = (
            list,
            bytearray,
            lambda values: array("B", values),
            lambda values: array("i", values),
            lambda values: memoryview(bytearray(values)),
        )
        for kind in kinds:
            holds, mine = kind([0] * 5), kind(list(card))
            hold(job.vehicle, [0, 50, 150, 100, 0], holds, mine, second=2, gear=3)
            self.assertEqual((list(holds), list(mine)), ([0, 0, 3, 0, 0], [17, 1, 19, 18, 0]))
            with self.assertRaises(Refused) as raised:
                hold(job.vehicle, memoryview(job.speeds), holds, mine, 2, 6)
            self.assertEqual((raised.exception.number, raised.exception.place), (7, 2))
            self.assertEqual((list(holds), list(mine)), ([0, 0, 3, 0, 0], [17, 1, 19, 18, 0]))
            release(job.vehicle, job.speeds, holds, mine, second=2)
            self.assertEqual((list(holds), list(mine)), ([0] * 5, list(card)))
        with self.assertRaises(Refused) as raised:
            release(job.vehicle, job.speeds, job.holds, card, 5)
        self.assertEqual(str(raised.exception), "refused 11 at 5: second 5 is outside the trace")

    def test_mend(self) -> None:
        kinds: tuple[Callable[[list[int]], Any], ...] = (list, lambda values: array("H", values), lambda values: array("i", values))
        for kind in kinds:
            speeds, holds = kind([0, 50, 150, 100, 0]), bytes(5)
            card = list(work(seeded.CAR_Z, speeds))
            mend(seeded.CAR_Z, speeds, holds, card, second=2, speed=120)
            self.assertEqual((list(speeds), card), ([0, 50, 120, 100, 0], list(work(seeded.CAR_Z, [0, 50, 120, 100, 0]))))
            with self.assertRaises(Refused) as raised:
                mend(seeded.CAR_Z, speeds, holds, card, 2, 201)
            self.assertEqual((raised.exception.number, raised.exception.place), (5, 2))
            self.assertEqual(list(speeds), [0, 50, 120, 100, 0])
        for wrong in (65536, -1):
            with self.assertRaisesRegex(ValueError, "is no speed from 0 to 65535"):
                mend(seeded.CAR_Z, speeds, holds, card, 2, wrong)
        with self.assertRaisesRegex(TypeError, "speeds cannot be written: tuple"):
            mend(seeded.CAR_Z, (0, 50, 0), bytearray(3), bytearray(3), 1, 60)

    def test_summary(self) -> None:
        z, speeds = seeded.CAR_Z, [0, 50, 150, 100, 0]
        card, holds = work(z, speeds), bytearray(5)
        found = summary(speeds, card)
        self.assertEqual(found, Summary(2, (1, 2, 0, 0, 0, 0, 0, 0, 0, 0), 1))
        held = hold(z, speeds, holds, card, 2, 3, summary=found)
        self.assertEqual(held, Summary(2, (1, 1, 1, 0, 0, 0, 0, 0, 0, 0), 2))
        with self.assertRaises(Refused):
            hold(z, speeds, holds, card, 2, 6, summary=held)
        self.assertEqual(release(z, speeds, holds, card, 2, summary=held), found)
        rests = mend(z, speeds, holds, card, 2, 0, summary=found)
        self.assertEqual(rests, Summary(3, (2, 0, 0, 0, 0, 0, 0, 0, 0, 0), 0))
        # a wrong one stops at the ends; none given, none answered
        wrong = Summary(0, (65535, 0, 0, 0, 0, 0, 0, 0, 0, 7), 65535)
        self.assertEqual(mend(z, speeds, holds, card, 2, 150, summary=wrong), Summary(0, (65534, 2, 0, 0, 0, 0, 0, 0, 0, 7), 65535))
        self.assertIsNone(release(z, speeds, holds, card, 2))
        self.assertEqual(summary([0, 50, 50, 50, 0], [255] * 5), Summary(2, (0,) * 10, 0))
        for trace, lent, number in (([], [], 1), ([0] * 16385, [0] * 16385, 1), (speeds, card[:4], 2)):
            with self.assertRaises(Refused) as raised:
                summary(trace, lent)
            self.assertEqual((raised.exception.number, raised.exception.place), (number, 0))
        for given, error, words in (
            (found._replace(standing=65536), ValueError, "65536 is no count of a summary from 0 to 65535"),
            (found._replace(gears=(0,) * 9), ValueError, "summary.gears has 9 counts, and not 10"),
            (found._replace(gears=(*[0] * 9, -1)), ValueError, "-1 is no count of a summary"),
            (found._replace(changes=untyped(1.0)), TypeError, "1.0 is no count of a summary: it takes a whole number"),
        ):
            with self.assertRaisesRegex(error, words):
                release(z, speeds, holds, card, 2, summary=given)

    def test_edits_as_the_whole_working(self) -> None:
        """Seeded edits, one after the other: each card is that of the whole working, and its summary the one counted whole."""
        r = random.Random(5)
        for seed in range(40):
            job = seeded.job(seed)
            try:
                card = work(job.vehicle, job.speeds, job.holds)
            except Refused:
                continue
            whole = summary(job.speeds, card)
            self.assertEqual(whole.standing + sum(whole.gears), len(job.speeds))
            kept: Summary | None = whole
            for _ in range(20):
                second = r.randrange(len(job.speeds))
                edits: tuple[Callable[[], Summary | None], ...] = (
                    lambda: hold(job.vehicle, job.speeds, job.holds, card, second, r.randint(1, 10), summary=kept),
                    lambda: release(job.vehicle, job.speeds, job.holds, card, second, summary=kept),
                    lambda: mend(job.vehicle, job.speeds, job.holds, card, second, r.randint(0, 300), summary=kept),
                )
                edit = r.choice(edits)
                with contextlib.suppress(Refused):
                    kept = edit()
                self.assertEqual(card, work(job.vehicle, job.speeds, job.holds), f"seed {seed}")
                self.assertEqual(kept, summary(job.speeds, card), f"seed {seed}")

    def test_cycle(self) -> None:
        whole, job = cycle(), read(Path("examples/class-3.job").read_bytes())
        self.assertEqual(whole, job.speeds)
        for part, seconds in enumerate((range(1801), range(590), range(589, 1023), range(1022, 1478), range(1477, 1801))):
            self.assertEqual(part_of(part), seconds)
            self.assertEqual(cycle(part), whole[seconds.start : seconds.stop])
            self.assertEqual(downscale(0, part), cycle(part))
        self.assertLess(max(downscale(300)), max(whole))
        calls: tuple[tuple[Callable[[], object], int], ...] = ((lambda: cycle(5), 18), (lambda: downscale(501), 23), (lambda: downscale(1, 7), 18))
        for call, number in calls:
            with self.assertRaises(Refused) as raised:
                call()
            self.assertEqual((raised.exception.number, raised.exception.place), (number, 0))
        for wrong in (-1, 1 << 32, 1 << 64):
            with self.assertRaises(ValueError):
                cycle(wrong)

    def test_export(self) -> None:
        self.assertEqual(export(Path("examples/loaded.export").read_bytes()), (1873, -313, 5210, 2312))
        car = replace(seeded.CAR_Z, **export(Path("examples/car-z.export").read_bytes())._asdict())
        self.assertEqual(car, seeded.CAR_Z)
        with self.assertRaises(Refused) as raised:
            export(Path("examples/no-number.export").read_bytes())
        self.assertEqual((raised.exception.number, raised.exception.place), (20, 5))

    def test_refusals(self) -> None:
        z, trace = seeded.CAR_Z, [0, 50, 150, 100, 0]
        for car, speeds, holds, number, place in (
            (z, [], None, 1, 0),
            (z, [0] * 100000, None, 1, 0),
            (z, trace, [0] * 4, 2, 0),
            (replace(z, ratios=(7000,)), trace, None, 3, 1),
            (replace(z, ratios=(1,) * 70), trace, None, 3, 1),
            (replace(z, idle=299), trace, None, 3, 3),
            (replace(z, f1=-5001), trace, None, 3, 7),
            (replace(z, curve=((1, 1),) * 65), trace, None, 3, 11),
            (z, [0, 2001, 0], None, 4, 1),
            (z, [0, 151, 0], None, 5, 1),
            (z, [50, 0], None, 6, 0),
            (z, trace, [0, 9, 0, 0, 0], 7, 1),
            (z, trace, [1, 0, 0, 0, 0], 8, 0),
            (z, [0, 150, 300, 450, 510, 450, 300, 150, 0], [0, 0, 0, 0, 1, 0, 0, 0, 0], 9, 4),
            (replace(z, ratios=(50000, 1)), [0, 150, 0], None, 10, 1),
        ):
            with self.assertRaises(Refused, msg=(number, place)) as raised:
                work(car, speeds, holds)
            self.assertEqual((raised.exception.number, raised.exception.place), (number, place))
            self.assertEqual(str(raised.exception), f"refused {number} at {place}: {in_words(number, place)}")
        whole = Path("examples/car-z-held.job").read_bytes()
        for data, number, place in (
            (b"", 12, 0),
            (whole[:-1], 12, len(whole) - 1),
            (whole[:2] + b"\x80\x00" + whole[4:], 13, 2),
            (b"\x07" + whole[1:], 14, 0),
            (whole[:-2] + b"\x05\x03", 15, len(whole) - 2),
            (whole + b"\0", 16, len(whole)),
            (whole + bytes(200000), 16, len(whole)),
            # a job that is cut after a long count is cut, and not too long for a room
            (whole[: whole.index(b"\x05\x00\x32")] + b"\x80\x10\x00", 12, whole.index(b"\x05\x00\x32") + 3),
        ):
            with self.assertRaises(Refused, msg=(number, place)) as raised:
                read(data)
            self.assertEqual((raised.exception.number, raised.exception.place), (number, place))

    def test_wrong_values(self) -> None:
        z, trace, holds, card = seeded.CAR_Z, [0, 50, 0], bytearray(3), bytearray(3)
        calls: tuple[tuple[Callable[[], object], type[Exception], str], ...] = (
            (lambda: work(z, [0, 65536, 0]), ValueError, r"speeds\[1\] = 65536 is no whole number from 0 to 65535"),
            (lambda: work(z, [0, -1, 0]), ValueError, r"speeds\[1\] = -1"),
            (lambda: work(z, [0, 5.0, 0]), TypeError, r"speeds\[1\] = 5.0 is no whole number"),
            (lambda: work(z, trace, [0, 256, 0]), ValueError, r"holds\[1\] = 256 is no whole number from 0 to 255"),
            (lambda: work(replace(z, idle=65536), trace), ValueError, "idle = 65536 is not from 0 to 65535"),
            (lambda: work(replace(z, idle=800.0), trace), TypeError, "idle = 800.0 is no whole number"),
            (lambda: hold(z, trace, holds, card, 1, 256), ValueError, "256 is no gear from 0 to 255"),
            (lambda: hold(z, trace, holds, card, -1, 1), ValueError, "-1 is no second"),
            (lambda: hold(z, trace, bytes(3), card, 1, 1), TypeError, "holds cannot be written: bytes"),
            (lambda: hold(z, trace, holds, (17, 1, 0), 1, 1), TypeError, "card cannot be written: tuple"),
            (lambda: hold(untyped(2.0), trace, holds, card, 1, 1), TypeError, "vehicle is no Vehicle: float"),
            (lambda: hold(z, trace, holds, card, untyped(1.0), 1), TypeError, "1.0 is no second: it takes a whole number"),
            (lambda: hold(z, trace, holds, card, 1, untyped("2")), TypeError, "'2' is no gear"),
            (lambda: mend(z, [0, 50, 0], holds, card, 1, untyped(60.0)), TypeError, "60.0 is no speed"),
            (lambda: write(z, trace, None, untyped(1.0)), TypeError, "1.0 is no version"),
            (lambda: cycle(untyped(1.0)), TypeError, "1.0 is no part"),
            (lambda: downscale(untyped(0.5)), TypeError, "0.5 is no factor"),
            (lambda: export(untyped(5)), TypeError, "the export's bytes are no bytes: int"),
            (lambda: export(untyped([1, 2])), TypeError, "the export's bytes are no bytes: list"),
            (lambda: read(untyped("text")), TypeError, "the job's bytes are no bytes: str"),
            (lambda: read(untyped(None)), TypeError, "the job's bytes are no bytes: NoneType"),
            (lambda: work(z, None), TypeError, "speeds is no list and no buffer: NoneType"),
        )
        for call, error, words in calls:
            with self.assertRaisesRegex(error, words):
                call()
        self.assertEqual((trace, holds, card), ([0, 50, 0], bytearray(3), bytearray(3)))

    def test_one_hold(self) -> None:
        """Where the machine is busy a time says little, so the bound is ten times what was measured; the figure is printed."""
        job = read(Path("examples/class-3.job").read_bytes())
        card = work(job.vehicle, job.speeds, job.holds)
        times = []
        for k in range(2000):
            begun = time.perf_counter()
            hold(job.vehicle, job.speeds, job.holds, card, 60, 2 + k % 2)
            times.append(time.perf_counter() - begun)
        median = statistics.median(times)
        print(f"tools: one hold on the Class 3 cycle from Python: {median * 1e6:.1f} us, median of {len(times)}")
        self.assertLess(median, 100e-6)


class Loading(unittest.TestCase):
    """The words of a package whose library is missing, of another processor, of another version or none at all: one line and status 2."""

    def setUp(self) -> None:
        self.folder = Path(tempfile.mkdtemp())
        self.addCleanup(shutil.rmtree, self.folder)
        shutil.copytree("python/gearcard", self.folder / "gearcard", ignore=shutil.ignore_patterns("__pycache__"))
        shutil.copy("VERSION", self.folder / "gearcard")
        self.beside = self.folder / "gearcard/libgearcard.so"
        shutil.copy("target/lib/libgearcard.so", self.beside)

    def said(self) -> tuple[int, str, str]:
        ran = subprocess.run(
            [sys.executable, "-m", "gearcard", "card", "examples/car-z.job"], env={**os.environ, "PYTHONPATH": str(self.folder)}, capture_output=True, text=True
        )
        return ran.returncode, ran.stdout, ran.stderr

    def fails(self, words: str) -> None:
        status, out, line = self.said()
        self.assertEqual((status, out, line.count("\n")), (2, "", 1), line)
        self.assertRegex(line, words)

    def test_as_installed(self) -> None:
        self.assertEqual(self.said(), (0, Path("examples/car-z.txt").read_text(), ""))

    def test_another_processor(self) -> None:
        other = {"x86_64": "aarch64", "aarch64": "x86_64"}[platform.machine()]
        subprocess.run(["./library", "--all"], check=True, stdout=subprocess.DEVNULL)
        shutil.copy(f"target/lib/{other}/libgearcard.so", self.beside)
        self.fails(f"libgearcard.so is no shared library for this machine, {platform.machine()}: ")

    def test_another_version(self) -> None:
        (self.folder / "gearcard/VERSION").write_text("0.9.9\n")
        self.fails(f"libgearcard.so has version {engine.VERSION}, and this package 0.9.9")

    def test_no_library(self) -> None:
        self.beside.write_bytes(b"no library")
        self.fails("is no shared library for this machine")
        libc = next(line.split()[-1] for line in Path("/proc/self/maps").read_text().splitlines() if "/libc.so.6" in line)
        shutil.copy(libc, self.beside)
        self.fails("libgearcard.so is no library of the gear card")

    def test_no_child(self) -> None:
        """A word starts no other program: what a process starts, its kernel counts."""
        program = (
            "import os, resource, sys; from gearcard.cli import main; status = main(sys.argv[1:]); used = resource.getrusage(resource.RUSAGE_CHILDREN);"
            "sys.exit(status or (used.ru_utime + used.ru_stime + used.ru_minflt > 0))"
        )
        job = self.folder / "class-3.job"
        shutil.copy("examples/class-3.job", job)
        for words in (["card", str(job)], ["hold", str(job), "60", "3"], ["picture", str(job), "-o", str(self.folder / "drawn.svg")]):
            ran = subprocess.run([sys.executable, "-c", program, *words], env={**os.environ, "PYTHONPATH": "python"}, capture_output=True, text=True)
            self.assertEqual((ran.returncode, ran.stderr), (0, ""), words)


class Agreement(unittest.TestCase):
    """What Python repeats of the header and of the driver is what they have."""

    def test_vehicle(self) -> None:
        self.assertEqual(Vehicle.of(seeded.CAR_Z.record), seeded.CAR_Z)

    def test_words(self) -> None:
        longest = re.search(r"#define GEARCARD_LONGEST (\d+)", HEADER)
        assert longest is not None
        self.assertIn(f"over {int(longest[1]):,} seconds", WORDS[1])
        self.assertEqual(set(FIELDS), set(range(1, 14)))
        self.assertIn("does not have", in_words(99, 0))
