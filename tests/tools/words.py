"""The words of ./gearcard: every verb on the examples, with its exit status, standard output and standard error, and every misuse once."""

from __future__ import annotations

import contextlib
import io
import os
import shutil
import subprocess
import tempfile
import unittest
import unittest.mock
from pathlib import Path
from typing import Iterable

from gearcard import cycle, downscale
from gearcard.cli import main
from gearcard.refusals import FIELDS

from . import seeded
from .texts import TEXT

TOP = Path(__file__).resolve().parents[2]
EXAMPLES = TOP / "examples"


class Words(unittest.TestCase):
    def setUp(self) -> None:
        self.folder = Path(tempfile.mkdtemp())
        self.addCleanup(shutil.rmtree, self.folder)
        for path in EXAMPLES.glob("*.job"):
            shutil.copy(path, self.folder)

    def run_words(self, *words: object) -> tuple[int, str, str]:
        """Exit status, standard output and standard error of a tool, run in this very process: a start of Python for each would take long."""
        out, said = io.TextIOWrapper(io.BytesIO(), encoding="utf-8", newline=""), io.StringIO()
        with contextlib.chdir(self.folder), contextlib.redirect_stdout(out), contextlib.redirect_stderr(said):
            try:
                status = main([str(word) for word in words])
            except SystemExit as ended:
                status = int(ended.code or 0)
        out.flush()
        return status, out.buffer.getvalue().decode(), said.getvalue()  # type: ignore[attr-defined]

    def run_command(self, *words: object) -> tuple[int, str, str]:
        """The same of the command itself."""
        ran = subprocess.run([TOP / "gearcard", *map(str, words)], cwd=self.folder, capture_output=True, text=True, stdin=subprocess.DEVNULL)
        return ran.returncode, ran.stdout, ran.stderr

    def answers(self, *words: object) -> str:
        """Status 0 and no word on standard error."""
        status, out, said = self.run_words(*words)
        self.assertEqual((status, said), (0, ""), words)
        return out

    def ends(self, status: int, said: str, *words: object) -> None:
        """That status, nothing on standard output, and that one line on standard error."""
        self.assertEqual(self.run_words(*words), (status, "", said + "\n"), words)

    def file(self, name: str, content: str | bytes) -> Path:
        path = self.folder / name
        path.write_bytes(content.encode() if isinstance(content, str) else content)
        return path


class Card(Words):
    def test_jobs(self) -> None:
        for name in ("car-z", "car-z-held", "van", "class-3"):
            self.assertEqual(self.answers("card", f"{name}.job"), (EXAMPLES / f"{name}.txt").read_text())
        self.assertEqual(
            self.answers("card", "car-z-held.job", "--csv"),
            "second,speed,gear,clutch,hold\n0,0.0,1,down,0\n1,5.0,1,up,0\n2,15.0,3,down,3\n3,10.0,2,down,0\n4,0.0,0,up,0\n",
        )
        self.ends(1, "refused 9 at 4: gear 1, held at second 4, would turn the engine past nmax", "card", "refused.job")

    def test_texts(self) -> None:
        self.file("car.toml", TEXT)
        self.assertEqual(self.answers("card", "car.toml"), (EXAMPLES / "car-z-held.txt").read_text())
        for name in ("car-z", "van", "class-3"):
            self.assertEqual(self.answers("card", EXAMPLES / f"{name}.toml"), (EXAMPLES / f"{name}.txt").read_text())
            self.answers("make", EXAMPLES / f"{name}.toml", "-o", "again.job", "--drop-holds")
            self.assertEqual((self.folder / "again.job").read_bytes(), (EXAMPLES / f"{name}.job").read_bytes())
        self.file("car.txt", TEXT)
        self.assertEqual(self.answers("card", "car.txt"), (EXAMPLES / "car-z-held.txt").read_text())
        shutil.copy(self.folder / "car-z.job", self.folder / "car.data")
        self.assertEqual(self.answers("card", "car.data"), (EXAMPLES / "car-z.txt").read_text())

    def test_summary(self) -> None:
        z = "standing     2 s\ngear 1       1 s\ngear 2       2 s\ngear 3       0 s\ngear 4       0 s\ngear 5       0 s\nchanges      1\n"
        self.assertEqual(self.answers("summary", "car-z.job"), z)
        self.assertEqual(self.answers("summary", EXAMPLES / "car-z.toml"), z)
        self.assertEqual(
            self.answers("summary", "car-z-held.job", "--csv"), "what,count\nstanding,2\ngear 1,1\ngear 2,1\ngear 3,1\ngear 4,0\ngear 5,0\nchanges,2\n"
        )
        # as the card itself tells, and of a van no crawler
        for name in ("van", "class-3"):
            rows = [line.split() for line in (EXAMPLES / f"{name}.txt").read_text().splitlines()[1:]]
            gears = [0 if float(speed) < 1 else int(gear) for _, speed, gear, _ in rows]
            changes = sum(0 not in pair and pair[0] != pair[1] for pair in zip(gears, gears[1:]))
            first = 2 if name == "van" else 1
            wanted = [f"standing {gears.count(0):5} s", *(f"gear {gear}   {gears.count(gear):5} s" for gear in range(first, 7)), f"changes  {changes:5}"]
            self.assertEqual(self.answers("summary", f"{name}.job").splitlines(), wanted)
        self.ends(1, "refused 9 at 4: gear 1, held at second 4, would turn the engine past nmax", "summary", "refused.job")

    def test_csv_goes_round(self) -> None:
        self.file("drive.csv", self.answers("card", "car-z.job", "--csv"))
        self.file("car.toml", TEXT[: TEXT.index("speeds = [")] + "csv = 'drive.csv'\n")
        self.assertEqual(self.answers("card", "car.toml"), (EXAMPLES / "car-z.txt").read_text())

    def test_refusals_name_the_place(self) -> None:
        def change(old: str, new: str) -> None:
            self.assertEqual(TEXT.count(old), 1, old)
            self.file("car.toml", TEXT.replace(old, new))

        for old, new, said in (
            (TEXT[TEXT.index("  0.0, 5.0,") :], "]\n", "refused 1 at 0: car.toml line 20: the trace is empty or over 16,384 seconds"),
            ("ratios = [120.00, 70.00, 45.00, 35.00, 28.00]", "ratios = [28.00]", f"refused 3 at 1: car.toml line 4: vehicle.ratios: {FIELDS[1][1]}"),
            (
                "120.00, 70.00",
                "70.00, 120.00",
                "refused 3 at 2: car.toml line 4: vehicle.ratios[1] = 120.00, gear 2: each is 0.01 to 500.00 min^-1 per km/h, and falls with the gear",
            ),
            ("idle = 800", "idle = 200", "refused 3 at 3: car.toml line 5: vehicle.idle = 200: it is 300 to 3,000 min^-1"),
            ("nmax = 6000", "nmax = 5000", "refused 3 at 5: car.toml line 7: vehicle.nmax = 5000: it is from rated to 15,000 min^-1"),
            ("f1 = 0.000", "f1 = 5.001", "refused 3 at 7: car.toml line 9: vehicle.f1 = 5.001: it is -5.000 to 5.000 N/(km/h)"),
            ("mass = 1500", "mass = 15", "refused 3 at 9: car.toml line 11: vehicle.mass = 15: it is 400 to 4,000 kg"),
            ("[6000, 88.0],", "", "refused 3 at 13: car.toml line 13: vehicle.curve: the first point is at most idle, the last at least nmax"),
            ("15, # whole", "200.1, # whole", "refused 4 at 2: car.toml line 23: trace.speeds[2], 200.1 km/h, is over 200 km/h"),
            ("15, # whole", "20.1, # whole", "refused 5 at 2: car.toml line 23: trace.speeds[2], 20.1 km/h, is more than 15 km/h from the second before"),
            ("  0,\n", "  1,\n", "refused 6 at 4: car.toml line 25: trace.speeds[4], 1.0 km/h, is not at rest, as the first and the last second must be"),
            ("2 = 3", "2 = 6", "refused 7 at 2: car.toml line 29: holds.2 = 6 is no gear to hold: the vehicle has 5"),
            ("2 = 3", "4 = 3", "refused 8 at 4: car.toml line 29: holds.4 = 3 is at a standing second"),
        ):
            with self.subTest(new):
                change(old, new)
                self.ends(1, said, "card", "car.toml")
        later = TEXT.replace("version = 1\n", "version = 7\n")
        for kw in ("10", "30", "50", "70", "85", "90", "88"):
            later = later.replace(f", {kw}.0]", f", {kw}.0, 40]")
        later = later.replace("margin = 10\n", "margin = 10\nprofile = 1\n")
        self.file("car.toml", later)
        self.ends(1, "refused 14 at 0: car.toml line 1: version = 7: the version is none of 1, 2 and 3", "card", "car.toml")
        self.file("car.toml", later.replace("version = 7", "version = 3").replace("88.0, 40", "88.0, 51"))
        self.ends(1, f"refused 3 at 12: car.toml line 18: vehicle.curve[6] = [6000, 88.0, 51]: {FIELDS[12][1]}", "card", "car.toml")
        self.file("car.toml", later.replace("version = 7", "version = 3").replace("2 = 3", "2 = 1"))
        said = "refused 7 at 2: car.toml line 30: holds.2 = 1 is no gear to hold: the vehicle has 5, of which the first is not driven"
        self.ends(1, said, "card", "car.toml")
        self.file("car.toml", later.replace("version = 7", "version = 3").replace("profile = 1", "profile = 2"))
        self.ends(1, f"refused 3 at 1: car.toml line 13: vehicle.profile = 2: {FIELDS[1][1]}", "card", "car.toml")
        self.file("car.toml", later.replace("version = 7", "version = 3").replace("[120.00, 70.00, 45.00, 35.00, 28.00]", "[70.00, 28.00]"))
        self.ends(1, f"refused 3 at 1: car.toml line 4: vehicle.ratios: {FIELDS[1][1]}", "card", "car.toml")
        fast = TEXT.replace("15, # whole numbers too\n", "15, 30, 45, 51, 45, 30, 15, # whole numbers too\n").replace("2 = 3", "5 = 1")
        self.file("car.toml", fast)
        self.ends(1, "refused 9 at 5: car.toml line 29: holds.5 = 1 would turn the engine past nmax", "card", "car.toml")
        gap = fast.replace("ratios = [120.00, 70.00, 45.00, 35.00, 28.00]", "ratios = [120.00, 0.01]").replace("5 = 1", "1 = 1")
        self.file("car.toml", gap)
        self.ends(1, "refused 10 at 5: car.toml line 23: trace.speeds[5], 51.0 km/h, has no gear that fits, and no hold", "card", "car.toml")
        self.file("drive.csv", "speed\n0\n20\n0\n")
        self.file("car.toml", TEXT[: TEXT.index("speeds = [")] + "csv = 'drive.csv'\n")
        self.ends(1, "refused 5 at 1: drive.csv line 3: second 1, 20.0 km/h, is more than 15 km/h from the second before", "card", "car.toml")
        self.file("car.toml", TEXT[: TEXT.index("speeds = [")] + "cycle = 'class 3'\npart = 9\n")
        self.ends(1, "refused 18 at 0: car.toml line 22: trace.part = 9: the part is none of 1 to 4, or 0 for the whole cycle", "card", "car.toml")

    def test_damaged_jobs(self) -> None:
        whole = (EXAMPLES / "car-z-held.job").read_bytes()
        end = len(whole)
        for data, said in (
            (b"", "refused 12 at 0: damaged.job: the bytes end early, after 0 of them"),
            (whole[:-1], f"refused 12 at {end - 1}: damaged.job: the bytes end early, after {end - 1} of them"),
            (b"\x04" + whole[1:], "refused 14 at 0: damaged.job: the version is none of 1, 2 and 3"),
            (b"\x03\x02" + whole[1:], f"refused 3 at 1: damaged.job: field 1 of the vehicle is out of bounds: ratios, {FIELDS[1][1]}"),
            (whole + b"\0", f"refused 16 at {end}: damaged.job: bytes follow after the end, from byte {end} on"),
        ):
            self.file("damaged.job", data)
            for words in (("card", "damaged.job"), ("show", "damaged.job")):
                self.ends(1, said, *words)


class Make(Words):
    def test_examples(self) -> None:
        for path in sorted(EXAMPLES.glob("*.job")):
            self.file("again.toml", self.answers("show", path))
            if path.name == "refused.job":
                self.ends(1, "refused 9 at 4: again.toml line 29: holds.4 = 1 would turn the engine past nmax", "make", "again.toml")
                continue
            self.assertEqual(self.answers("make", "again.toml", "--drop-holds"), "")
            self.assertEqual((self.folder / "again.job").read_bytes(), path.read_bytes(), path)

    def test_seeded(self) -> None:
        for seed in range(300):
            path = self.file("a.job", seeded.encoded(seeded.job(seed)))
            self.file("a.toml", self.answers("show", "a.job"))
            self.answers("make", "a.toml", "-o", "b.job", "--drop-holds")
            self.assertEqual((self.folder / "b.job").read_bytes(), path.read_bytes(), f"seed {seed}")

    def test_where_to(self) -> None:
        self.file("car.toml", TEXT)
        self.answers("make", "car.toml", "-o", "other.job")
        self.assertEqual((self.folder / "other.job").read_bytes(), (EXAMPLES / "car-z-held.job").read_bytes())
        ran = subprocess.run([TOP / "gearcard", "make", "car.toml", "-o", "-"], cwd=self.folder, capture_output=True)
        self.assertEqual((ran.returncode, ran.stdout, ran.stderr), (0, (EXAMPLES / "car-z-held.job").read_bytes(), b""))
        self.assertFalse((self.folder / "car.job").exists())

    def test_nothing_written(self) -> None:
        self.file("car.toml", TEXT.replace("idle = 800", "idle = 200"))
        self.file("car.job", b"as it was")
        self.ends(1, "refused 3 at 3: car.toml line 5: vehicle.idle = 200: it is 300 to 3,000 min^-1", "make", "car.toml")
        self.file("car.toml", TEXT.replace("idle = 800", "idle = 'low'"))
        self.ends(2, "gearcard: car.toml line 5: vehicle.idle must be a number, and not a string", "make", "car.toml")
        self.assertEqual((self.folder / "car.job").read_bytes(), b"as it was")
        self.ends(2, "gearcard: car-z.job is a job already, and not a text", "make", "car-z.job")


class Edits(Words):
    def bytes_of(self, name: str) -> bytes:
        return (self.folder / name).read_bytes()

    def test_hold_and_release(self) -> None:
        free, held = self.bytes_of("car-z.job"), self.bytes_of("car-z-held.job")
        self.assertEqual(self.answers("hold", "car-z.job", 2, 3), "second 2: gear 3, clutch down; was gear 2, clutch up\n")
        self.assertEqual(self.bytes_of("car-z.job"), held)
        self.assertEqual(self.answers("hold", "car-z.job", 2, 3), "")
        self.assertEqual(self.answers("release", "car-z.job", 2), "second 2: gear 2, clutch up; was gear 3, clutch down\n")
        self.assertEqual(self.bytes_of("car-z.job"), free)
        self.assertEqual(self.answers("release", "car-z.job", 2), "")
        self.assertEqual(self.bytes_of("car-z.job"), free)

    def test_as_the_whole_working(self) -> None:
        """A run of edits on the cycle: the file is the one that the text with these holds makes."""
        for words in (("hold", 60, 3), ("hold", 61, 3), ("hold", 700, 4), ("release", 61), ("hold", 1600, 5)):
            self.answers(words[0], "class-3.job", *words[1:])
        text = self.answers("show", EXAMPLES / "class-3.job") + "\n[holds]\n60 = 3\n700 = 4\n1600 = 5\n"
        self.file("again.toml", text)
        self.answers("make", "again.toml")
        self.assertEqual(self.bytes_of("again.job"), self.bytes_of("class-3.job"))

    def test_mend(self) -> None:
        before = self.bytes_of("car-z.job")
        self.assertEqual(self.answers("mend", "car-z.job", 3, "0"), "second 3: gear 0, clutch up; was gear 2, clutch down\n")
        self.file("again.toml", self.answers("show", EXAMPLES / "car-z.job").replace("0.0, 5.0, 15.0, 10.0, 0.0", "0.0, 5.0, 15.0, 0.0, 0.0"))
        self.answers("make", "again.toml")
        self.assertEqual(self.bytes_of("again.job"), self.bytes_of("car-z.job"))
        self.answers("mend", "car-z.job", 3, "10.0")
        self.assertEqual(self.bytes_of("car-z.job"), before)
        for words, said in (
            ((3, "200.1"), "refused 4 at 3: second 3, 200.1 km/h, is over 200 km/h"),
            ((3, "30.1"), "refused 5 at 3: second 3, 30.1 km/h, is more than 15 km/h from the second before"),
            ((4, "1"), "refused 6 at 4: second 4, 1.0 km/h, is not at rest, as the first and the last second must be"),
            ((5, "1"), "refused 11 at 5: second 5 is outside the trace, which has 5"),
        ):
            self.ends(1, said, "mend", "car-z.job", *words)
        self.ends(1, "refused 8 at 2: gear 3, held at second 2, is at a standing second", "mend", "car-z-held.job", 2, "0.9")
        said = "the speed 10.05 is no whole number of tenths of km/h: the nearest that are, are 10.0 and 10.1"
        self.ends(2, f"gearcard: argument SPEED: {said} (./gearcard mend --help says what it takes)", "mend", "car-z.job", 3, "10.05")
        self.ends(2, "gearcard: argument SPEED: the speed fast is no number (./gearcard mend --help says what it takes)", "mend", "car-z.job", 3, "fast")
        self.assertEqual(self.bytes_of("car-z.job"), before)

    def test_mends_a_refused_job(self) -> None:
        self.assertEqual(self.answers("release", "refused.job", 4), "")
        self.assertTrue(self.answers("card", "refused.job").startswith("second speed gear clutch\n"))

    def test_refused(self) -> None:
        before = self.bytes_of("car-z.job")
        for words, said in (
            (("hold", "car-z.job", 2, 9), "refused 7 at 2: gear 9, held at second 2, is no gear to hold: the vehicle has 5"),
            (("hold", "car-z.job", 2, 0), "refused 7 at 2: gear 0, held at second 2, is no gear to hold: the vehicle has 5"),
            (("hold", "van.job", 31, 1), "refused 7 at 31: gear 1, held at second 31, is no gear to hold: the vehicle has 6, of which the first is not driven"),
            (("hold", "van.job", 0, 1), "refused 7 at 0: gear 1, held at second 0, is no gear to hold: the vehicle has 6, of which the first is not driven"),
            (("hold", "van.job", 0, 2), "refused 8 at 0: gear 2, held at second 0, is at a standing second"),
            (("hold", "car-z.job", 0, 1), "refused 8 at 0: gear 1, held at second 0, is at a standing second"),
            (("hold", "car-z.job", 5, 1), "refused 11 at 5: second 5 is outside the trace, which has 5"),
            (("release", "car-z.job", 2**64 - 1), f"refused 11 at {2**64 - 1}: second {2**64 - 1} is outside the trace, which has 5"),
        ):
            self.ends(1, said, *words)
        self.ends(1, "refused 9 at 4: gear 1, held at second 4, would turn the engine past nmax", "hold", "refused.job", 2, 1)
        self.ends(2, "gearcard: argument GEAR: '256' is no gear from 0 to 255 (./gearcard hold --help says what it takes)", "hold", "car-z.job", 2, 256)
        said = "'two' is no second from 0 to 18446744073709551615"
        self.ends(2, f"gearcard: argument SECONDS: {said} (./gearcard release --help says what it takes)", "release", "car-z.job", "two")
        self.file("car.toml", TEXT)
        self.ends(2, "gearcard: car.toml is a text, and not a job", "hold", "car.toml", 2, 3)
        self.assertEqual(self.bytes_of("car-z.job"), before)

    def test_all_or_nothing(self) -> None:
        """A new file beside the old one, then renamed: a link stays one, permissions stay, and where that fails the old file does."""
        (self.folder / "link.job").symlink_to("car-z.job")
        (self.folder / "car-z.job").chmod(0o640)
        old = (self.folder / "car-z.job").stat()
        self.answers("hold", "link.job", 2, 3)
        new = (self.folder / "car-z.job").stat()
        self.assertTrue((self.folder / "link.job").is_symlink())
        self.assertEqual(new.st_mode & 0o7777, 0o640)
        self.assertNotEqual(new.st_ino, old.st_ino)
        with unittest.mock.patch("os.fsync", side_effect=OSError(28, "No space left on device")):
            self.ends(2, "gearcard: car-z.job could not be changed: No space left on device", "release", "car-z.job", 2)
        self.assertEqual(self.bytes_of("car-z.job"), (EXAMPLES / "car-z-held.job").read_bytes())
        self.assertEqual([path.name for path in self.folder.iterdir() if path.name.startswith(".")], [])


class Pictures(Words):
    def test_written(self) -> None:
        self.assertEqual(self.answers("picture", "class-3.job"), "")
        drawn = (self.folder / "class-3.svg").read_text()
        self.assertTrue(drawn.startswith("<svg ") and drawn.endswith("</svg>\n"))
        self.assertEqual(self.answers("picture", "class-3.job", "-o", "-"), drawn)
        self.assertEqual(drawn, (EXAMPLES / "class-3.svg").read_text(), "examples/class-3.svg is what ./gearcard picture examples/class-3.job draws")
        self.answers("picture", "class-3.job", "-o", "other.svg")
        self.assertEqual((self.folder / "other.svg").read_text(), drawn)
        self.assertEqual(sorted(path.name for path in self.folder.glob(".*")), [])

    def test_refused(self) -> None:
        self.ends(1, "refused 9 at 4: gear 1, held at second 4, would turn the engine past nmax", "picture", "refused.job")
        self.assertIn("refused 9 at 4: gear 1, held at second 4,", (self.folder / "refused.svg").read_text())
        self.file("cut.job", b"\x01\x05")
        self.ends(1, "refused 12 at 2: cut.job: the bytes end early, after 2 of them", "picture", "cut.job")
        self.assertIn("refused 12 at 2", (self.folder / "cut.svg").read_text())

    def test_unwritten(self) -> None:
        self.ends(2, "gearcard: none/a.svg could not be written: No such file or directory", "picture", "car-z.job", "-o", "none/a.svg")
        (self.folder / "folder.svg").mkdir()
        self.ends(2, "gearcard: folder.svg is a folder", "picture", "car-z.job", "-o", "folder.svg")


class Others(Words):
    def test_show(self) -> None:
        for path in EXAMPLES.glob("*.job"):
            text = self.answers("show", path)
            self.file("again.toml", text)
            _, out, said = self.run_words("card", "again.toml")
            self.assertEqual(out or said.split(":")[0] + "\n", path.with_suffix(".txt").read_text(), path)
        self.assertIn("f0 = 100.0            # N; 1000 tenths of N\n", self.answers("show", "car-z.job"))

    def test_cycle(self) -> None:
        def table(first: int, speeds: Iterable[int]) -> str:
            return "second,speed\n" + "".join(f"{first + k},{speed // 10}.{speed % 10}\n" for k, speed in enumerate(speeds))

        self.assertEqual(self.answers("cycle"), table(0, cycle()))
        self.assertEqual(self.answers("cycle", "--part", "2"), table(589, cycle(2)))
        self.assertEqual(self.answers("cycle", "--downscale", "0.25", "--part", "4"), table(1477, downscale(250, 4)))
        self.ends(1, "refused 18 at 0: the part is none of 1 to 4, or 0 for the whole cycle", "cycle", "--part", "5")
        self.ends(1, "refused 23 at 0: the downscaling factor is over 0.500", "cycle", "--downscale", "0.6")
        said = "gearcard: --downscale 0.1234 is no whole number of thousandths: the nearest that are, are 0.123 and 0.124"
        self.ends(2, said, "cycle", "--downscale", "0.1234")
        self.ends(2, "gearcard: --downscale half is no number", "cycle", "--downscale", "half")

    def test_coefficients(self) -> None:
        self.assertEqual(
            self.answers("coefficients", EXAMPLES / "loaded.export"),
            "f0 = 187.3            # N; 1873 tenths of N\n"
            "f1 = -0.313           # N/(km/h); -313 thousandths of N/(km/h)\n"
            "f2 = 0.05210          # N/(km/h)^2; 5210 hundred-thousandths of N/(km/h)^2\n"
            "mass = 2312           # kg\n",
        )
        self.ends(
            1,
            "refused 20 at 5: no-number.export: the record at byte 5 of the export has a float that is no finite number",
            "coefficients",
            EXAMPLES / "no-number.export",
        )

    def test_misuse(self) -> None:
        self.ends(2, "gearcard: it does not know what to do with 'draw' (--help says what it takes)", "draw")
        self.ends(2, "gearcard: it does not know what to do with '--help card' (--help says what it takes)", "--help", "card")
        self.ends(2, "gearcard: the following arguments are required: FILE (./gearcard card --help says what it takes)", "card")
        self.ends(2, "gearcard: unrecognized arguments: more (./gearcard --help says what it takes)", "card", "car-z.job", "more")
        self.ends(2, "gearcard: none.job could not be read: No such file or directory", "card", "none.job")
        self.ends(2, "gearcard: . could not be read: Is a directory", "show", ".")
        self.ends(2, "gearcard: argument --part: '-1' is no part from 0 to 4294967295 (./gearcard cycle --help says what it takes)", "cycle", "--part=-1")
        self.file("car.toml", TEXT.replace("idle = 800", "idle = 800.5"))
        self.ends(2, "gearcard: car.toml line 5: vehicle.idle = 800.5 is no whole number of min^-1: the nearest that are, are 800 and 801", "card", "car.toml")

    def test_command(self) -> None:
        """The command itself, from another folder and through a link."""
        self.assertEqual(self.run_command("card", "car-z.job"), (0, (EXAMPLES / "car-z.txt").read_text(), ""))
        self.assertEqual(self.run_command("card", "refused.job")[::2], (1, "refused 9 at 4: gear 1, held at second 4, would turn the engine past nmax\n"))
        self.assertEqual(self.run_command("card", "none.job"), (2, "", "gearcard: none.job could not be read: No such file or directory\n"))
        # modules of the user's own folder are not taken for Python's
        self.file("csv.py", "raise SystemExit(9)")
        self.file("gearcard.py", "raise SystemExit(9)")
        self.assertEqual(self.run_command("cycle", "--part", "9")[0], 1)

    def test_help(self) -> None:
        status, listed, said = self.run_command("--help")
        self.assertEqual((status, said), (0, ""))
        for word in ("make", "show", "card", "summary", "holds", "compare", "picture", "hold", "release", "mend", "edit", "export", "cycle", "coefficients"):
            self.assertIn(f"  {word} ", listed)
            self.assertIn(f"usage: gearcard {word}", self.answers(word, "--help"))

    def test_standard_output(self) -> None:
        for command in ("card class-3.job >/dev/full", "card --help >/dev/full", "cycle >&-", "picture car-z.job -o - >/dev/full"):
            ran = subprocess.run(f"'{TOP}/gearcard' {command}", shell=True, cwd=self.folder, capture_output=True, text=True)
            self.assertEqual((ran.returncode, ran.stderr), (2, "gearcard: standard output could not be written\n"), command)

    def test_without_the_kit(self) -> None:
        copy = self.folder / "copy"
        for name in ("python", "scripts", "include", "examples"):
            shutil.copytree(TOP / name, copy / name, ignore=shutil.ignore_patterns("__pycache__"))
        for name in ("gearcard", "library", "crates.txt", "VERSION"):
            shutil.copy(TOP / name, copy)
        (copy / "crates").mkdir()
        few = self.folder / "few"
        few.mkdir()
        for name in ("bash", "dirname", "readlink", "find", "uname", "python3", "sed", "env", "date"):
            (few / name).symlink_to(shutil.which(name) or "")
        ran = subprocess.run(
            [copy / "gearcard", "card", copy / "examples/car-z.job"],
            env={**os.environ, "PATH": str(few)},
            capture_output=True,
            text=True,
            stdin=subprocess.DEVNULL,
        )
        self.assertEqual((ran.returncode, ran.stdout, ran.stderr), (2, "", "library: the Rattle kit is missing: there is no command rt\n"))

    def test_seeded_cards(self) -> None:
        """The tool prints what document 01's program prints."""
        for seed in range(6):
            path = self.file(f"{seed}.job", seeded.encoded(seeded.job(seed)))
            with path.open("rb") as job:
                program = subprocess.run([TOP / "gearcard"], stdin=job, capture_output=True, text=True)
            status, out, said = self.run_words("card", path.name)
            self.assertEqual(status, program.returncode)
            self.assertEqual(out or said.split(":")[0] + "\n", program.stdout)
