"""`table`, and `why` of several seconds: every number as the independent program works it out from the papers, and the forms for spreadsheets and programs."""

from __future__ import annotations

import csv
import io
import json
import resource
import subprocess

from gearcard import Job, Refused, clutch_down, gear_of, work, write
from gearcard.whys import CLUTCHES

from . import seeded
from .whys import GAP, GAP_SPEEDS
from .words import EXAMPLES, TOP, Words

JOBS = ("car-z", "car-z-held", "van", "class-3")


def independent(path: object) -> str:
    """The table that the program in tests/independent works out of a job by itself."""
    return subprocess.run([TOP / "tests/independent/run", "--table", str(path)], capture_output=True, text=True, check=True).stdout


class Table(Words):
    def test_every_number_is_the_independent_program_s(self) -> None:
        for name in JOBS:
            self.assertEqual(self.answers("table", f"{name}.job", "--csv"), independent(EXAMPLES / f"{name}.job"), name)

    def test_seeded(self) -> None:
        seconds = sentences = 0
        for seed in range(60):
            path = self.file("seeded.job", bytes(seeded.encoded(seeded.job(seed))))
            wanted = independent(path)
            if wanted.startswith("refused "):
                status, _, said = self.run_words("table", "seeded.job", "--csv")
                self.assertEqual((status, said.split(":")[0] + "\n"), (1, wanted))
            else:
                self.assertEqual(self.answers("table", "seeded.job", "--csv"), wanted, f"seed {seed}")
                seconds += wanted.count("\n") - 1
                sentences += wanted.count('"none has enough')
        print(f"tools: tables of 60 seeded jobs, {seconds} seconds: no byte differs from the independent program's")
        self.assertGreater(min(seconds, sentences), 100)

    def test_a_part(self) -> None:
        whole = self.answers("table", "class-3.job", "--csv").splitlines()
        for words, first, last in (("960-970", 960, 970), ("0", 0, 0), ("1800", 1800, 1800)):
            self.assertEqual(self.answers("table", "class-3.job", words, "--csv").splitlines(), [whole[0], *whole[first + 1 : last + 2]])
        said = "refused 11 at 1801: second 1801 is outside the trace, which has 1801"
        self.ends(1, said, "table", "class-3.job", "1799-1802")
        self.ends(1, "refused 9 at 4: gear 1, held at second 4, would turn the engine past nmax", "table", "refused.job", 0)

    def test_the_same_in_every_form(self) -> None:
        """The eye's rows, a spreadsheet's with either decimal mark, and a program's have the same cells."""
        for name in JOBS:
            rows = list(csv.reader(io.StringIO(self.answers("table", f"{name}.job", "--csv"))))
            commas = list(csv.reader(io.StringIO(self.answers("table", f"{name}.job", "--csv", "--decimal", "comma")), delimiter=";"))
            self.assertEqual([[cell.replace(",", ".", 1) if cell[:1] in "-0123456789" else cell for cell in row] for row in commas], rows)
            objects = json.loads(self.answers("table", f"{name}.job", "--json"))
            self.assertEqual([list(each) for each in objects], [rows[0]] * len(objects))
            for row, each in zip(rows[1:], objects, strict=True):
                for cell, value in zip(row, each.values()):
                    self.assertEqual(value, None if cell == "" else float(cell) if isinstance(value, (int, float)) else cell)
            lines = self.answers("table", f"{name}.job").splitlines()
            self.assertLessEqual(max(map(len, lines)), 180)
            for line, row in zip(lines[1:], rows[1:], strict=True):
                self.assertEqual(line.split(), " ".join(row).split())

    def test_time(self) -> None:
        """The table of the Class 3 cycle in at most a second of processor time."""
        before = resource.getrusage(resource.RUSAGE_CHILDREN)
        self.assertEqual(self.run_command("table", "class-3.job")[0], 0)
        after = resource.getrusage(resource.RUSAGE_CHILDREN)
        took = after.ru_utime + after.ru_stime - before.ru_utime - before.ru_stime
        print(f"tools: the table of the Class 3 cycle takes {took:.2f} s of processor time")
        self.assertLess(took, 1)


class Why(Words):
    def test_several_seconds(self) -> None:
        """The table of them, and then each as by itself."""
        single = [self.answers("why", "class-3.job", second) for second in range(960, 971)]
        self.assertEqual(self.answers("why", "class-3.job", "960-970"), "\n".join([self.answers("table", "class-3.job", "960-970"), *single]))
        objects = json.loads(self.answers("why", "class-3.job", "960-962", "--json"))
        self.assertEqual(objects, [json.loads(self.answers("why", "class-3.job", second, "--json")) for second in (960, 961, 962)])

    def test_without_the_hold(self) -> None:
        """Of every held second what the card of the job without that hold shows; of others nothing more."""
        held = 0
        for seed in range(80):
            job = seeded.job(seed)
            try:
                work(*job[:3])
            except Refused:
                continue
            self.file("seeded.job", bytes(seeded.encoded(job)))
            for second in [k for k, gear in enumerate(job.holds) if gear][:4]:
                told = [line for line in self.answers("why", "seeded.job", second).splitlines() if line.startswith("without the hold ")]
                self.assertEqual(told, [f"without the hold   {self.released(job, second)}"], f"seed {seed}, second {second}")
                held += 1
        self.assertGreater(held, 30)
        self.assertNotIn("without", self.answers("why", "class-3.job", 60) + self.answers("why", "class-3.job", 60, "--json"))
        without = json.loads(self.answers("why", "car-z-held.job", 2, "--json"))["without"]
        self.assertEqual(without, json.loads(self.answers("why", "car-z.job", 2, "--json")))

    def released(self, job: Job, second: int) -> str:
        holds = bytearray(job.holds)
        holds[second] = 0
        try:
            byte = work(job.vehicle, job.speeds, holds)[second]
        except Refused as refused:
            return f"refused 10 at {refused.place}: no gear fits there"
        self.file("free.job", write(job.vehicle, job.speeds, holds, job.version))
        (words,) = {words for words in CLUTCHES[2:] if words in self.answers("why", "free.job", second)}
        self.assertEqual(words.startswith("down"), clutch_down(byte))
        return f"{gear_of(byte)}  clutch {words}"

    def test_a_refused_second_among_several(self) -> None:
        """The first choices of each are shown, a row of the table where there is a card, and refusal 10 at the end."""
        self.file("gap.job", write(GAP, GAP_SPEEDS))
        status, out, said = self.run_words("why", "gap.job", "0-2")
        self.assertEqual((status, out.count("\nfirst choice "), said.split(":")[0]), (1, 3, "refused 10 at 2"))


class Decimals(Words):
    """--decimal comma, of every word that prints a CSV."""

    def test_each_word(self) -> None:
        for words in (("card", "car-z-held.job"), ("summary", "class-3.job"), ("holds", "car-z-held.job"), ("compare", "car-z.job", "car-z-held.job")):
            point, comma = self.answers(*words, "--csv"), self.answers(*words, "--csv", "--decimal", "comma")
            self.assertEqual(comma, point.replace(",", ";").replace(".", ","), words)
            self.assertEqual(self.answers(*words, "--csv", "--decimal", "point"), point)
            said = f"gearcard: --decimal goes with --csv alone (./gearcard {words[0]} --help says what it takes)"
            self.ends(2, said, *words, "--decimal", "comma")
            self.ends(2, said, *words, "--csv", "--json", "--decimal", "comma")

    def test_a_cycle_goes_round(self) -> None:
        """What is printed for such a spreadsheet is read as a trace again."""
        self.file("drive.csv", self.answers("cycle", "--part", 4, "--decimal", "comma"))
        text = (EXAMPLES / "class-3.toml").read_text()
        self.file("part.toml", text[: text.index("[trace]")] + '[trace]\ncsv = "drive.csv"\n')
        self.file("whole.toml", text[: text.index("[trace]")] + '[trace]\ncycle = "class 3"\npart = 4\n')
        for name in ("part", "whole"):
            self.answers("make", f"{name}.toml")
        self.assertEqual((self.folder / "part.job").read_bytes(), (self.folder / "whole.job").read_bytes())
