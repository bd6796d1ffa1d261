"""The words that change a job or write a file, and the messages: several seconds as one step, what is refused to be written over, lines and gears named."""

from __future__ import annotations

import json
import os
import shutil
import stat
import subprocess
import threading
import unittest
import unittest.mock
from array import array
from typing import Any, Callable

from gearcard import Hold, Job, Mend, RefusedEdit, Release, edit, export, hold, read, summary, work, write
from gearcard.edits import Edit

from . import seeded
from .texts import TEXT
from .words import EXAMPLES, TOP, Words

VERSION = (TOP / "VERSION").read_text().strip()


class Several(Words):
    def bytes_of(self, name: str) -> bytes:
        return (self.folder / name).read_bytes()

    def made_of(self, **changed: object) -> bytes:
        """The bytes of class-3.job with other lists, written from a text without the words that are tried."""
        return seeded.encoded(read(self.bytes_of("class-3.job"))._replace(**changed))  # type: ignore[arg-type]

    def test_ranges(self) -> None:
        job = read(self.bytes_of("class-3.job"))
        holds = bytearray(4 if 220 <= k <= 224 else 0 for k in range(1801))
        wanted = seeded.encoded(job._replace(holds=holds))
        shown = self.answers("hold", "class-3.job", "220-224", 4, "--dry-run")
        self.assertEqual(self.bytes_of("class-3.job"), (EXAMPLES / "class-3.job").read_bytes())
        self.assertEqual(self.answers("hold", "class-3.job", "220-224", 4), shown)
        self.assertIn("second 220: gear 4, clutch ", shown)
        self.assertEqual(self.bytes_of("class-3.job"), wanted)
        self.assertEqual(self.answers("holds", "class-3.job"), "".join(f"second {k}: gear 4\n" for k in range(220, 225)))
        self.assertEqual(self.answers("holds", "class-3.job", "--csv"), "second,gear\n" + "".join(f"{k},4\n" for k in range(220, 225)))
        self.assertEqual(json.loads(self.answers("holds", "class-3.job", "--json")), [{"second": k, "gear": 4} for k in range(220, 225)])
        self.answers("release", "class-3.job", "0-1800")
        self.assertEqual(self.bytes_of("class-3.job"), (EXAMPLES / "class-3.job").read_bytes())
        self.assertEqual(self.answers("holds", "class-3.job"), "")

    def test_all_or_nothing(self) -> None:
        before = self.bytes_of("car-z.job")
        for words, said in (
            (("hold", "car-z.job", "1-4", 2), "refused 8 at 4: gear 2, held at second 4, is at a standing second"),
            (("hold", "car-z.job", "1-3", 9), "refused 7 at 1: gear 9, held at second 1, is no gear to hold: the vehicle has 5"),
            (("hold", "car-z.job", "1-3", 0), "refused 7 at 1: gear 0, held at second 1, is no gear to hold: the vehicle has 5"),
            (("hold", "car-z.job", "3-9", 2), "refused 11 at 5: second 5 is outside the trace, which has 5"),
            (("release", "car-z.job", f"0-{2**64 - 1}"), "refused 11 at 5: second 5 is outside the trace, which has 5"),
            (("mend", "car-z.job", "1-4", "5.0"), "refused 6 at 4: second 4, 5.0 km/h, is not at rest, as the first and the last second must be"),
        ):
            self.ends(1, said, *words)
        for word, said in (
            ("3-1", "'3-1' has its last second before its first"),
            ("1-", "'' is no second"),
            ("-1", "'-1' is no second"),
            ("1-2-3", "'2-3' is no second"),
            ("1..3", "'1..3' is no second"),
        ):
            status, out, line = self.run_words("hold", "car-z.job", word, 2)
            self.assertEqual((status, out), (2, ""), word)
            self.assertIn(said, line)
        self.assertEqual(self.bytes_of("car-z.job"), before)

    def test_edit(self) -> None:
        job = read(self.bytes_of("class-3.job"))
        self.file("edits.txt", "# of Tuesday\nhold 220-224 4\n\nrelease 222  # not this one\nmend 228 50.5\n")
        speeds, holds = array("H", job.speeds), bytearray(1801)
        holds[220:225], speeds[228] = b"\4\4\0\4\4", 505
        wanted = seeded.encoded(job._replace(speeds=speeds, holds=holds))
        shown = self.answers("edit", "class-3.job", "edits.txt", "--dry-run")
        self.assertEqual(self.bytes_of("class-3.job"), (EXAMPLES / "class-3.job").read_bytes())
        self.assertEqual(self.answers("edit", "class-3.job", "edits.txt"), shown)
        self.assertEqual(self.bytes_of("class-3.job"), wanted)
        ran = subprocess.run(
            [TOP / "gearcard", "edit", "class-3.job", "-"],
            cwd=self.folder,
            input="release 0-1800\nmend 228 " + str(job.speeds[228] / 10),
            text=True,
            capture_output=True,
        )
        self.assertEqual((ran.returncode, ran.stderr), (0, ""))
        self.assertEqual(self.bytes_of("class-3.job"), (EXAMPLES / "class-3.job").read_bytes())

    def test_edit_refused(self) -> None:
        before = self.bytes_of("car-z.job")
        for text, status, said in (
            ("hold 1 2\n\nhold 2 9\nhold 3 2\n", 1, "refused 7 at 2: edits.txt line 3: gear 9, held at second 2, is no gear to hold: the vehicle has 5"),
            ("hold 2 9\nhold 2 3\nhold 4 1", 1, "refused 8 at 4: edits.txt line 3: gear 1, held at second 4, is at a standing second"),
            ("hold 1 1\nmend 2 35\n", 1, "refused 5 at 2: edits.txt line 2: second 2, 35.0 km/h, is more than 15 km/h from the second before"),
            ("mend 1 15\nmend 2 30.1\n", 1, "refused 5 at 2: edits.txt line 2: second 2, 30.1 km/h, is more than 15 km/h from the second before"),
            ("mend 1 15\nmend 2 30\n", 1, "refused 5 at 3: edits.txt line 2: second 3, 10.0 km/h, is more than 15 km/h from the second before"),
            ("hold 1 2\nrelease 1\nrelease 5\n", 1, "refused 11 at 5: edits.txt line 3: second 5 is outside the trace, which has 5"),
            ("hold 1 2\nhold 2\n", 2, "gearcard: edits.txt line 2: 'hold 2' is no edit: hold SECONDS GEAR, release SECONDS or mend SECONDS SPEED"),
            ("keep 1 2\n", 2, "gearcard: edits.txt line 1: 'keep 1 2' is no edit: hold SECONDS GEAR, release SECONDS or mend SECONDS SPEED"),
            ("hold 1 256\n", 2, "gearcard: edits.txt line 1: '256' is no gear from 0 to 255"),
            ("mend 1 5,5\n", 2, "gearcard: edits.txt line 1: the speed 5,5 is no number: a decimal point is read, and no comma"),
        ):
            self.file("edits.txt", text)
            self.ends(status, said, "edit", "car-z.job", "edits.txt")
        # in two steps the first would be refused; in one it is not
        self.file("edits.txt", "mend 2 30\nmend 1 15\nmend 3 15\n")
        self.ends(1, "refused 5 at 2: second 2, 30.0 km/h, is more than 15 km/h from the second before", "mend", "car-z.job", 2, "30")
        self.assertEqual(self.bytes_of("car-z.job"), before)
        self.answers("edit", "car-z.job", "edits.txt")
        self.assertEqual(list(read(self.bytes_of("car-z.job")).speeds), [0, 150, 300, 150, 0])

    def test_python(self) -> None:
        taken: tuple[tuple[Any, Any], ...] = ((array("H", [0, 50, 150, 100, 0]), bytearray(5)), ([0, 50, 150, 100, 0], [0] * 5))
        no_second: Any = 2.0
        wrong_edits: tuple[tuple[Edit, type[Exception]], ...] = (
            (Hold(5, 1), RefusedEdit),
            (Hold(2, 0), RefusedEdit),
            (Hold(2, 256), ValueError),
            (Mend(2, -1), ValueError),
            (Hold(no_second, 1), TypeError),
        )
        for speeds, holds in taken:
            job = Job(seeded.CAR_Z, speeds, holds)
            card = edit(job, [Hold(range(1, 3), 2), Release(1), Mend(3, 120)])
            self.assertEqual((list(speeds), list(holds)), ([0, 50, 150, 120, 0], [0, 0, 2, 0, 0]))
            self.assertEqual(card, work(seeded.CAR_Z, speeds, holds))
            with self.assertRaises(RefusedEdit) as raised:
                edit(job, [Release(2), Hold(2, 9), Mend(1, 60)])
            self.assertEqual((raised.exception.number, raised.exception.place, raised.exception.edit), (7, 2, 1))
            for wrong, error in wrong_edits:
                with self.assertRaises(error):
                    edit(job, [Release(2), wrong])
            self.assertEqual((list(speeds), list(holds)), ([0, 50, 150, 120, 0], [0, 0, 2, 0, 0]))
        not_taken: tuple[tuple[Any, Any], ...] = (((0, 50, 0), bytearray(3)), (array("i", [0, 50, 0]), bytearray(3)), ([0, 50, 0], bytes(3)))
        for speeds, holds in not_taken:
            job = Job(seeded.CAR_Z, speeds, holds)
            with self.assertRaisesRegex(TypeError, "cannot be edited"):
                edit(job, [Hold(1, 1)])

    def test_threads(self) -> None:
        """120 edits of one job from eight threads, each of two seconds: all are there."""
        job = Job(seeded.CAR_Z, array("H", [0, 150, 300, 450, *[600] * 260, 450, 300, 150, 0]), bytearray(268))

        def some(first: int) -> None:
            for second in range(first, 240, 16):
                edit(job, [Hold(4 + second, 4), Hold(5 + second, 5)])

        threads = [threading.Thread(target=some, args=(2 * k,)) for k in range(8)]
        for each in threads:
            each.start()
        for each in threads:
            each.join()
        self.assertEqual(job.holds, bytearray([0] * 4 + [4, 5] * 120 + [0] * 24))

    def test_threads_of_both_kinds(self) -> None:
        """Edits of several seconds beside calls that are lent the same lists, or copies of them, each from four threads: all are there."""
        kinds: tuple[Callable[[bytes], Any], ...] = (bytearray, list)
        for kind in kinds:
            job = Job(seeded.CAR_Z, array("H", [0, 150, 300, 450, *[600] * 260, 450, 300, 150, 0]), kind(bytes(268)))
            at_once = threading.Barrier(8)

            def several(first: int) -> None:
                at_once.wait()
                for second in range(first, 240, 16):
                    edit(job, [Hold(4 + second, 4), Hold(5 + second, 5)])

            def alone(first: int) -> None:
                card = bytearray(268)
                at_once.wait()
                for second in range(first, 240, 16):
                    hold(job.vehicle, job.speeds, job.holds, card, 4 + second, 4)
                    hold(job.vehicle, job.speeds, job.holds, card, 5 + second, 5)

            threads = [threading.Thread(target=several if k % 2 else alone, args=(2 * k,)) for k in range(8)]
            for each in threads:
                each.start()
            for each in threads:
                each.join()
            self.assertEqual(list(job.holds), [0] * 4 + [4, 5] * 120 + [0] * 24, kind)


class Onto(Words):
    def test_lost_holds(self) -> None:
        self.file("car.toml", TEXT)
        self.answers("make", "car.toml")
        self.answers("make", "car.toml")
        self.answers("hold", "car.job", 1, 1)
        held = (self.folder / "car.job").read_bytes()
        self.ends(2, "gearcard: car.job has 1 hold that car.toml lacks: 1 = 1 (--drop-holds makes it without)", "make", "car.toml")
        self.file("car.toml", TEXT.replace("2 = 3", "2 = 2"))
        said = "gearcard: car.job has 2 holds that car.toml lacks: 1 = 1, 2 = 3 (--drop-holds makes it without)"
        self.ends(2, said, "make", "car.toml")
        self.ends(2, said, "make", "car.toml", "--force")
        self.assertEqual((self.folder / "car.job").read_bytes(), held)
        self.answers("make", "car.toml", "--drop-holds")
        self.assertEqual(list(read((self.folder / "car.job").read_bytes()).holds), [0, 0, 2, 0, 0])

    def test_another_kind(self) -> None:
        self.file("car.toml", TEXT)
        self.file("notes.txt", "mine")
        for words, path in (
            (("make", "car.toml", "-o", "notes.txt"), "notes.txt is there, and is no job"),
            (("picture", "car-z.job", "-o", "notes.txt"), "notes.txt is there, and is no picture"),
            (("make", "car.toml", "-o", "car.toml"), "car.toml is what it is made from"),
            (("make", "car.toml", "-o", "./car.toml"), "./car.toml is what it is made from"),
            (("picture", "car-z.job", "-o", "car-z.job"), "car-z.job is what it is made from"),
            (("picture", "car-z.job", "-o", "van.job"), "van.job is there, and is no picture"),
        ):
            path = path.removeprefix("./")
            self.ends(2, f"gearcard: {path} (--force writes over it)", *words)
        self.assertEqual((self.folder / "notes.txt").read_text(), "mine")
        self.answers("make", "car.toml", "-o", "notes.txt", "--force")
        self.assertEqual((self.folder / "notes.txt").read_bytes(), (EXAMPLES / "car-z-held.job").read_bytes())
        self.file("empty.job", b"")
        self.answers("make", "car.toml", "-o", "empty.job")
        self.answers("make", "car.toml", "-o", "/dev/null")
        self.ends(2, "gearcard: . is a folder", "make", "car.toml", "-o", ".")

    def test_read_only(self) -> None:
        self.file("car-z.toml", TEXT)
        path, before = self.folder / "car-z.job", (EXAMPLES / "car-z.job").read_bytes()
        path.chmod(0o444)
        self.ends(2, "gearcard: car-z.job is read-only", "hold", "car-z.job", 2, 3)
        self.ends(2, "gearcard: car-z.job is read-only", "make", "car-z.toml", "--drop-holds", "--force")
        self.assertIn("second 2: gear 3", self.answers("hold", "car-z.job", 2, 3, "--dry-run"))
        self.assertEqual((path.read_bytes(), stat.S_IMODE(path.stat().st_mode)), (before, 0o444))

    def test_mode_and_link_stay(self) -> None:
        self.stays()

    @unittest.skipUnless(os.getuid() == 0, "only root can give a file to another")
    def test_owner_stays(self) -> None:
        os.chown(self.folder / "car-z.job", 1234, 5678)
        self.stays()

    def stays(self) -> None:
        """Owner, mode and a link to the job, after two changes of it."""
        path = self.folder / "car-z.job"
        path.chmod(0o664)
        old = path.stat()
        (self.folder / "link.job").symlink_to("car-z.job")
        for words in (("hold", "link.job", 2, 3), ("release", "link.job", "0-4")):
            self.answers(*words)
            new = path.stat()
            self.assertEqual((new.st_uid, new.st_gid, new.st_mode), (old.st_uid, old.st_gid, old.st_mode))
            self.assertTrue((self.folder / "link.job").is_symlink())
        self.assertEqual(path.read_bytes(), (EXAMPLES / "car-z.job").read_bytes())

    def test_owner_that_cannot_stay(self) -> None:
        """The job is another user's by what the system says of it, so that anybody can try this, and cannot be given to that user."""
        job, real = os.stat(self.folder / "car-z.job"), os.fstat

        def fstat(file: int) -> os.stat_result:
            found = real(file)
            return os.stat_result((*found[:4], found.st_uid + 1234, *found[5:])) if os.path.samestat(found, job) else found

        with unittest.mock.patch("os.fstat", fstat), unittest.mock.patch("os.fchown", side_effect=PermissionError(1, "Operation not permitted")):
            status, out, said = self.run_words("hold", "car-z.job", 2, 3)
        self.assertEqual((status, out), (2, ""))
        self.assertIn("car-z.job belongs to another user, and could not after this: take a copy", said)
        self.assertEqual((self.folder / "car-z.job").read_bytes(), (EXAMPLES / "car-z.job").read_bytes())

    def test_stale_file(self) -> None:
        for name in (f".car-z.job.{os.getpid()}", ".gearcard-0000000000000000"):
            self.file(name, "left by another")
        self.answers("hold", "car-z.job", 2, 3)

    def test_standard_output_first(self) -> None:
        """What cannot be printed is found out before the job is changed."""
        before = (self.folder / "car-z.job").read_bytes()
        shutil.copy(EXAMPLES / "loaded.export", self.folder)
        for to in (">/dev/full", ">&-"):
            for words in ("hold car-z.job 2 3", "mend car-z.job 3 0", "hold car-z.job 1-2 2", "export car-z.job loaded.export"):
                ran = subprocess.run(f"'{TOP}/gearcard' {words} {to}", shell=True, cwd=self.folder, capture_output=True, text=True)
                self.assertEqual((ran.returncode, ran.stderr), (2, "gearcard: standard output could not be written\n"), (words, to))
                self.assertEqual((self.folder / "car-z.job").read_bytes(), before, (words, to))


class Messages(Words):
    def test_help(self) -> None:
        """-h as --help, help WORD, --version."""
        self.assertEqual(self.run_command("-h"), self.run_command("--help"))
        self.assertEqual(self.run_command("help"), self.run_command("--help"))
        self.assertEqual(self.answers("mend", "-h"), self.answers("mend", "--help"))
        self.assertEqual(self.answers("help", "mend"), self.answers("mend", "--help"))
        self.assertIn("in km/h, with one decimal: 9.5", self.answers("help", "mend"))
        self.assertEqual(self.run_command("--version"), (0, f"gearcard {VERSION}\n", ""))
        self.ends(2, "gearcard: it does not know what to do with 'help draw' (--help says what it takes)", "help", "draw")
        for word in ("make", "holds", "compare", "edit", "export"):
            self.assertIn(f"\n    {word} ", self.answers("--help"))

    def test_standard_input(self) -> None:
        job = (EXAMPLES / "car-z.job").read_bytes()
        for words, given, wanted in (
            (("card", "-"), job, (EXAMPLES / "car-z.txt").read_bytes()),
            (("card", "-"), TEXT.encode(), (EXAMPLES / "car-z-held.txt").read_bytes()),
            (("make", "-"), TEXT.encode(), (EXAMPLES / "car-z-held.job").read_bytes()),
            (("coefficients", "-"), (EXAMPLES / "car-z.export").read_bytes(), b"f0 = 100.0"),
            (("picture", "-"), job, b"<svg "),
        ):
            ran = subprocess.run([TOP / "gearcard", *words], cwd=self.folder, input=given, capture_output=True)
            self.assertEqual((ran.returncode, ran.stderr, ran.stdout[: len(wanted)]), (0, b"", wanted), words)
        self.ends(2, "gearcard: - is standard input: a job is changed in its file", "hold", "-", 2, 3)

    def test_json(self) -> None:
        rows = json.loads(self.answers("card", "car-z-held.job", "--json"))
        self.assertEqual(rows[2], {"second": 2, "speed": 15.0, "gear": 3, "clutch": "down", "hold": 3})
        self.assertEqual(len(rows), 5)
        self.assertEqual(json.loads(self.answers("summary", "car-z.job", "--json"))[0], {"what": "standing", "count": 2})
        self.assertEqual(len(json.loads(self.answers("cycle", "--json"))), 1801)

    def test_lines_and_gears(self) -> None:
        """Refusal 3 names the gear or the point, wherever it is, and its line."""
        spread = TEXT.replace("ratios = [120.00, 70.00, 45.00, 35.00, 28.00]", "ratios = [\n120.00,\n70.00,\n45.00,\n35.00,\n28.00]")
        for place, old, new in (
            *((0, "120.00", "500.01"), (0, "120.00", "0.00"), (1, "70.00", "120.00"), (1, "70.00", "0.00")),
            *((2, "45.00", "70.00"), (4, "28.00", "35.00"), (4, "28.00", "0")),
        ):
            self.file("car.toml", spread.replace(f"{old},\n" if old != "28.00" else "28.00]", f"{new},\n" if old != "28.00" else f"{new}]"))
            status, _, said = self.run_words("card", "car.toml")
            self.assertEqual(status, 1)
            shown = new if "." in new else f"{new}.00"
            begins = f"refused 3 at 2: car.toml line {5 + place}: vehicle.ratios[{place}] = {shown}, gear {place + 1}: each is"
            self.assertTrue(said.startswith(begins), (new, said))
        for place, line, old, new in (
            (0, 14, "800, 10.0", "0, 10.0"),
            (1, 15, "1800, 30.0", "1801, 30.0"),
            (2, 15, "2800, 50.0", "2800, 500.1"),
            (5, 16, "5600, 90.0", "4800, 90.0"),
            (6, 17, "6000, 88.0", "6601, 88.0"),
        ):
            self.file("car.toml", TEXT.replace(f"[{old}]", f"[{new}]"))
            status, _, said = self.run_words("card", "car.toml")
            self.assertTrue(said.startswith(f"refused 3 at 12: car.toml line {line}: vehicle.curve[{place}] = [{new}]: each point is"), (new, said))

    def test_any_case(self) -> None:
        for name in ("Class 3", "CLASS 3", "class 3"):
            self.file("car.toml", TEXT[: TEXT.index("speeds = [")] + f"cycle = '{name}'\n")
            self.assertEqual(len(self.answers("card", "car.toml").splitlines()), 1802)

    def test_without_a_card(self) -> None:
        """A job that is written and has no card: status 0, and a line that says so."""
        gap = TEXT.replace("15, # whole numbers too\n", "15, 30, 45, 51, 45, 30, 15, # whole numbers too\n").replace("2 = 3", "1 = 1")
        gap = gap.replace("ratios = [120.00, 70.00, 45.00, 35.00, 28.00]", "ratios = [120.00, 0.01]")
        self.file("gap.toml", gap)
        words = "trace.speeds[5], 51.0 km/h, has no gear that fits, and no hold"
        self.assertEqual(self.run_words("make", "gap.toml"), (0, "", f"gearcard: gap.toml has no card: refused 10 at 5: gap.toml line 23: {words}\n"))
        job = read((self.folder / "gap.job").read_bytes())
        twice = [*job.speeds, *job.speeds]
        self.file("twice.job", write(job.vehicle, twice, None))
        place = len(job.speeds) + 5
        said = f"gearcard: twice.job has no card: refused 10 at {place}: second {place}, 51.0 km/h, has no gear that fits, and no hold\n"
        self.assertEqual(self.run_words("hold", "twice.job", 5, 2), (0, "", said))
        self.assertEqual(self.run_words("hold", "twice.job", place, 2)[::2], (0, ""))
        # of several as one step, the whole must have a card
        self.file("edits.txt", f"release 5\nrelease {place}\n")
        self.ends(1, "refused 10 at 5: edits.txt line 1: second 5, 51.0 km/h, has no gear that fits, and no hold", "edit", "twice.job", "edits.txt")

    def test_compare(self) -> None:
        z = "hold of second 2: none; gear 3\nsecond 2: 15.0 km/h, gear 2, clutch up; 15.0 km/h, gear 3, clutch down\n"
        z += "gear 2: 2; 1\ngear 3: 0; 1\nchanges: 1; 2\n"
        self.assertEqual(self.answers("compare", "car-z.job", "car-z-held.job"), z)
        self.assertEqual(self.answers("compare", EXAMPLES / "car-z.toml", "car-z.job"), "car-z.toml and car-z.job have the same card\n")
        csv = "second,speed,gear,clutch,other speed,other gear,other clutch\n2,15.0,2,up,15.0,3,down\n"
        self.assertEqual(self.answers("compare", "car-z.job", "car-z-held.job", "--csv"), csv)
        self.assertEqual(json.loads(self.answers("compare", "car-z.job", "car-z-held.job", "--json"))[0]["other gear"], 3)
        rows = self.answers("compare", "car-z.job", "class-3.job").splitlines()
        self.assertIn("second 1800: none; 0.0 km/h, gear 0, clutch up", rows)
        found = [summary(job.speeds, work(*job[:3])) for job in (read((EXAMPLES / f"{name}.job").read_bytes()) for name in ("car-z", "class-3"))]
        self.assertIn(f"standing: {found[0].standing}; {found[1].standing}", rows)
        self.assertIn(f"gear 6: none; {found[1].gears[5]}", rows)
        self.ends(1, "refused 9 at 4: gear 1, held at second 4, would turn the engine past nmax", "compare", "car-z.job", "refused.job")

    def test_export(self) -> None:
        found = export((EXAMPLES / "loaded.export").read_bytes())
        lines = ["f0 = 187.3; was 100.0", "f1 = -0.313; was 0.000", "f2 = 0.05210; was 0.04000", "mass = 2312; was 1500"]
        shown = self.answers("export", "car-z.job", EXAMPLES / "loaded.export", "--dry-run")
        self.assertEqual(shown.splitlines()[:4], lines)
        self.assertEqual((self.folder / "car-z.job").read_bytes(), (EXAMPLES / "car-z.job").read_bytes())
        self.assertEqual(self.answers("export", "car-z.job", EXAMPLES / "loaded.export"), shown)
        car = read((self.folder / "car-z.job").read_bytes()).vehicle
        self.assertEqual((car.f0, car.f1, car.f2, car.tm), found)
        self.answers("export", "car-z.job", EXAMPLES / "car-z.export")
        self.assertEqual((self.folder / "car-z.job").read_bytes(), (EXAMPLES / "car-z.job").read_bytes())
        said = "refused 20 at 5: no-number.export: the record at byte 5 of the export has a float that is no finite number"
        self.ends(1, said, "export", "car-z.job", EXAMPLES / "no-number.export")

    def test_about(self) -> None:
        """A name and a note stay in the text; a picture of the text has the name."""
        self.file("car.toml", TEXT.replace("[vehicle]", '[about]\nname = "Van 4 & co"\nnote = "with a roof rack"\n[vehicle]', 1))
        self.answers("make", "car.toml")
        self.assertEqual((self.folder / "car.job").read_bytes(), (EXAMPLES / "car-z-held.job").read_bytes())
        self.assertIn(">Van 4 &amp; co<", self.answers("picture", "car.toml", "-o", "-"))
        self.file("car.toml", TEXT.replace("[vehicle]", "[about]\ncolour = 'red'\n[vehicle]", 1))
        self.ends(2, "gearcard: car.toml line 4: there is no key about.colour (there are name, note)", "make", "car.toml")
        self.file("car.toml", TEXT.replace("[vehicle]", "[about]\nname = 4\n[vehicle]", 1))
        self.ends(2, "gearcard: car.toml line 4: about.name must be a string, and not a whole number", "make", "car.toml")
