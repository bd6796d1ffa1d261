"""The text form: what `show` prints is read as the same job, and every fault of a text is told with its key and line."""

from __future__ import annotations

import tempfile
import unittest
from array import array
from decimal import Decimal
from pathlib import Path

from gearcard import Job, Refused, cycle, downscale, read
from gearcard.errors import BadText, Misuse
from gearcard.jobtext import parse, show
from gearcard.lines import lines_of
from gearcard.units import F1, SPEED, NotExact

from . import seeded

TEXT = """\
version = 1

[vehicle]
ratios = [120.00, 70.00, 45.00, 35.00, 28.00]
idle = 800
rated = 5600
nmax = 6000
f0 = 100.0
f1 = 0.000
f2 = 0.04000
mass = 1500
margin = 10
curve = [
  [800, 10.0],
  [1800, 30.0], [2800, 50.0],
  [3800, 70.0], [4800, 85.0], [5600, 90.0],
  [6000, 88.0],
]

[trace]
speeds = [
  0.0, 5.0,
  15, # whole numbers too
  10.0,
  0,
]

[holds]
2 = 3
"""


def parsed(text: str, folder: Path = Path(".")) -> Job:
    return parse(text, "car.toml", folder).job


class RoundTrips(unittest.TestCase):
    def test_by_hand(self) -> None:
        job = parsed(TEXT)
        self.assertEqual(job.vehicle, seeded.CAR_Z)
        self.assertEqual(list(job.speeds), [0, 50, 150, 100, 0])
        self.assertEqual(list(job.holds), [0, 0, 3, 0, 0])
        self.assertEqual(seeded.encoded(job), Path("examples/car-z-held.job").read_bytes())

    def test_examples(self) -> None:
        for path in sorted(Path("examples").glob("*.job")):
            job = read(path.read_bytes())
            self.assertEqual(parsed(show(job)), job, path)
            self.assertEqual(seeded.encoded(parsed(show(job))), path.read_bytes(), path)

    def test_seeded(self) -> None:
        for seed in range(1000):
            job = seeded.job(seed)
            self.assertEqual(parsed(show(job)), job, f"seed {seed}")

    def test_built_in(self) -> None:
        def trace(words: str) -> list[int]:
            return list(parsed(TEXT[: TEXT.index("[trace]")] + "[trace]\ncycle = 'class 3'\n" + words).speeds)

        self.assertEqual(trace(""), list(cycle()))
        self.assertEqual(trace("part = 4"), list(cycle(4)))
        self.assertEqual(trace("part = 4\ndownscale = 0.123"), list(downscale(123, 4)))
        self.assertEqual(trace("downscale = 0.5"), list(downscale(500)))
        self.assertNotEqual(trace("downscale = 0.5"), trace(""))
        for words, said in (
            ("part = 5", "refused 18 at 0: car.toml line 22: trace.part = 5: the part is none of 1 to 4, or 0 for the whole cycle"),
            ("downscale = 0.501", "refused 23 at 0: car.toml line 22: trace.downscale = 0.501: the downscaling factor is over 0.500"),
        ):
            with self.assertRaises(Refused) as raised:
                trace(words)
            self.assertEqual(str(raised.exception), said)


class Units(unittest.TestCase):
    def test_texts(self) -> None:
        for whole, text in ((0, "0.0"), (5, "0.5"), (50, "5.0"), (1234, "123.4"), (65535, "6553.5")):
            self.assertEqual(SPEED.text(whole), text)
            self.assertEqual(SPEED.whole(Decimal(text)), whole)
        for whole, text in ((-5000, "-5.000"), (-313, "-0.313"), (-1, "-0.001"), (60535, "60.535")):
            self.assertEqual(F1.text(whole), text)
            self.assertEqual(F1.whole(Decimal(text)), whole)
        self.assertEqual(SPEED.whole(12), 120)
        self.assertEqual(SPEED.whole(Decimal("1.5000000000000000000000000000000000000")), 15)
        self.assertEqual(SPEED.whole(Decimal("1.5e1")), 150)

    def test_refused(self) -> None:
        for word in ("1.25", "-0.1", "6553.6", "1e30", "1e999999999", "1e-999999999", "nan", "inf", "1.4999999999999999999999999999999999999999999999"):
            with self.assertRaises(NotExact, msg=word):
                SPEED.whole(Decimal(word))
        with self.assertRaisesRegex(NotExact, "no whole number of thousandths of .*: the nearest that are, are -0.002 and -0.001"):
            F1.whole(Decimal("-0.0015"))


#: What is put in place of what in TEXT, the line that is told, and what is said.
FAULTS: tuple[tuple[str, str, int, str], ...] = (
    ("version = 1\n", "\n", 1, "version is missing"),
    ("version = 1\n", "version = '1'\n", 1, "version must be a whole number, and not a string"),
    ("version = 1\n", "version = 2\n", 14, "vehicle.curve[0] must have 3 numbers in version 2, min^-1, kW and per cent, and has 2"),
    ("margin = 10\n", "margin = 10\nprofile = 0\n", 13, "vehicle.profile needs version 3, and version = 1"),
    ("version = 1\n", "version = 65536\n", 1, "version = 65536 is not from 0 to 65535, which is what a job can carry"),
    ("version = 1\n", "version = 1.0\n", 1, "version must be a whole number, and not a number"),
    ("[vehicle]", "[car]", 3, "there is no key car (there are version, about, vehicle, trace, holds)"),
    (TEXT[TEXT.index("[vehicle]") : TEXT.index("[trace]")], "", 1, "vehicle is missing"),
    ("[holds]", "[colour]\nred = 1\n[holds]", 28, "there is no key colour"),
    ("idle = 800\n", "", 3, "vehicle.idle is missing"),
    ("idle = 800", "idle = '800'", 5, "vehicle.idle must be a number, and not a string"),
    ("idle = 800", "idle = true", 5, "vehicle.idle must be a number, and not true or false"),
    ("idle = 800", "idle = 2000-01-01", 5, "vehicle.idle must be a number, and not a date or a time"),
    ("idle = 800", "idle = 800.5", 5, "vehicle.idle = 800.5 is no whole number of min^-1: the nearest that are, are 800 and 801"),
    ("idle = 800", "idle = 65536", 5, "vehicle.idle = 65536 is not from 0 to 65535 min^-1, which is what a job can carry"),
    ("idle = 800", "idle = -1", 5, "vehicle.idle = -1 is not from 0 to 65535 min^-1, which is what a job can carry"),
    ("idle = 800", "idle = nan", 5, "vehicle.idle = NaN is no finite number"),
    ("idle = 800", "idel = 800", 5, "there is no key vehicle.idel; did you mean idle?"),
    ("mass = 1500", "mass = 1500\nmas = 1500", 12, "there is no key vehicle.mas; did you mean mass?"),
    ("f0 = 100.0", "f0 = 100.05", 8, "vehicle.f0 = 100.05 is no whole number of tenths of N: the nearest that are, are 100.0 and 100.1"),
    ("f1 = 0.000", "f1 = -5.001", 9, "vehicle.f1 = -5.001 is not from -5.000 to 60.535 N/(km/h), which is what a job can carry"),
    ("f2 = 0.04000", "f2 = 0.040001", 10, "the nearest that are, are 0.04000 and 0.04001"),
    ("ratios = [120.00, 70.00,", "ratios = [120.00,\n70.005,", 5, "vehicle.ratios[1] = 70.005 is no whole number of hundredths"),
    ("ratios = [120.00, 70.00, 45.00, 35.00, 28.00]", "ratios = 120.00", 4, "vehicle.ratios must be a list, and not a number"),
    ("ratios = [120.00, 70.00,", "ratios = ['120',", 4, "vehicle.ratios[0] must be a number, and not a string"),
    ("[2800, 50.0]", "[2800]", 15, "vehicle.curve[2] must have 2 numbers in version 1, min^-1 and kW, and has 1"),
    ("[2800, 50.0]", "2800", 15, "vehicle.curve[2] must be a list, and not a whole number"),
    ("[5600, 90.0]", "[5600, 90.01]", 16, "vehicle.curve[5][1] = 90.01 is no whole number of tenths of kW: the nearest that are, are 90.0 and 90.1"),
    ("10.0,\n", "10.05,\n", 24, "trace.speeds[3] = 10.05 is no whole number of tenths of km/h: the nearest that are, are 10.0 and 10.1"),
    ("10.0,\n", "[10.0],\n", 24, "trace.speeds[3] must be a number, and not a list"),
    ("speeds = [", "csv = 'drive.csv'\nspeeds = [", 21, "trace has speeds and csv, and only one can be"),
    ("speeds = [", "speed = [", 21, "there is no key trace.speed; did you mean speeds?"),
    ("speeds = [", "part = 1\nspeeds = [", 21, "trace.part does not go with trace.speeds"),
    ("2 = 3", "2 = 0", 29, "holds.2 = 0 is no gear that can be held: 1 to 255"),
    ("2 = 3", "2 = 256", 29, "holds.2 = 256 is no gear that can be held: 1 to 255"),
    ("2 = 3", "2 = '3'", 29, "holds.2 must be a whole number, and not a string"),
    ("2 = 3", "5 = 3", 29, "holds.5 is past the trace, which has 5 seconds, from 0"),
    ("2 = 3", "two = 3", 29, "'two' is no second"),
    ("2 = 3", "02 = 3", 29, "'02' is no second"),
    ("2 = 3", "-2 = 3", 29, "'-2' is no second"),
    ("[holds]\n2 = 3", "holds = 3", 28, "there is no key trace.holds"),
    ("version = 1\n", "version = 1\nholds = 3\n", 29, "it is no TOML: "),
    ("idle = 800", "idle 800", 5, "it is no TOML: "),
    ("idle = 800", "idle = 800\nidle = 900", 6, "it is no TOML: "),
    ("2 = 3\n", "2 = ", 29, "it is no TOML: "),
)

#: The same in place of the trace.
TRACE_FAULTS: tuple[tuple[str, int, str], ...] = (
    ("cycle = 'class 2'", 21, "trace.cycle = 'class 2' is not 'class 3', the cycle that is built in"),
    ("cycle = 3", 21, "trace.cycle must be a string, and not a whole number"),
    ("cycle = 'class 3'\npart = '1'", 22, "trace.part must be a whole number, and not a string"),
    ("cycle = 'class 3'\npart = -1", 22, "trace.part = -1 is no number of a part"),
    ("cycle = 'class 3'\ndownscale = 0.0005", 22, "the nearest that are, are 0.000 and 0.001"),
    ("cycle = 'class 3'\ncolumn = 1", 22, "trace.column does not go with trace.cycle"),
    ("", 20, "trace must have one of speeds, csv, cycle"),
    ("csv = 'none.csv'", 21, "none.csv could not be read: No such file or directory"),
    ("csv = 3", 21, "trace.csv must be a string, and not a whole number"),
    ("csv = 'none.csv'\ncolumn = 1.5", 22, "trace.column must be a string or a whole number, and not a number"),
)


class Faults(unittest.TestCase):
    def expect(self, text: str, line: int, words: str) -> None:
        with tempfile.TemporaryDirectory() as folder, self.assertRaises(BadText) as raised:
            parsed(text, Path(folder))
        said = str(raised.exception)
        self.assertIn(words, said)
        self.assertTrue(said.startswith(f"car.toml line {line}: "), said)
        self.assertNotIn("\n", said)

    def test_each(self) -> None:
        for old, new, line, words in FAULTS:
            with self.subTest(new):
                self.assertEqual(TEXT.count(old), 1, old)
                self.expect(TEXT.replace(old, new), line, words)

    def test_each_of_the_trace(self) -> None:
        head = TEXT[: TEXT.index("speeds = [")]
        for words, line, said in TRACE_FAULTS:
            with self.subTest(words):
                self.expect(f"{head}{words}\n", line, said)

    def test_no_utf8(self) -> None:
        from gearcard.files import load

        with tempfile.TemporaryDirectory() as folder:
            path = Path(folder) / "car.toml"
            path.write_bytes(TEXT.encode() + b"# \xff\n")
            with self.assertRaisesRegex(BadText, "car.toml line 30: it is no text in UTF-8"):
                load(path)
            with self.assertRaisesRegex(Misuse, "none.toml could not be read: No such file or directory"):
                load(Path(folder) / "none.toml")

    def test_profile(self) -> None:
        text = show(Job(seeded.CAR_Z, array("H", [0]), bytearray(1), 3))
        self.assertIn("\nprofile = 0 ", text)
        self.assertEqual(parsed(text.replace("profile = 0 ", "profile = 1 ")).vehicle.profile, 1)
        self.expect(text.replace("profile = 0 ", "# "), 3, "vehicle.profile is missing")
        self.expect(text.replace("profile = 0 ", "profile = true"), 13, "vehicle.profile must be a number, and not true or false")

    def test_lines_of_forms(self) -> None:
        text = 'a."b c".d = 3\nq = { x = 1, y = [1,\n2] }\ns = """x\n[t]\ny = 3\\""""\nl = \'\'\'\n\'\'\'\n[[m.n]]\nz = 1 # [u]\n[[m.n]]\nz = "#"\n'
        lines = lines_of(text)
        wanted: dict[tuple[str | int, ...], int] = {("a", "b c", "d"): 1, ("q", "y", 1): 3, ("s",): 4, ("l",): 7}
        wanted |= {("m", "n", 0, "z"): 10, ("m", "n", 1): 11, ("m", "n", 1, "z"): 12}
        self.assertEqual({path: lines[path] for path in wanted}, wanted)
        self.assertNotIn(("t",), lines)
