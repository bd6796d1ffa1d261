"""Many edits of one job at the same time: the file has exactly those that were answered 0. And what else may be done to a file meanwhile."""

from __future__ import annotations

import os
import random
import signal
import subprocess
import sys
import time
import unittest.mock
from array import array
from typing import Callable

from gearcard import hold, mend, read, release, work, write
from gearcard.store import change

from . import seeded
from .texts import TEXT
from .words import TOP, Words

#: Car Z at 60.0 km/h, up and down in steps of 15 km/h.
PLATEAU = [0, 150, 300, 450, *[600] * 240, 450, 300, 150, 0]

#: Seconds of it in pairs, each pair away from the others. One of a pair may go up by 8 km/h or the other down by 8 km/h, but not both.
PAIRS = [(second, second + 1) for second in range(8, 8 + 30 * 4, 4)]


def words_of(seed: int) -> list[tuple[str, ...]]:
    """200 edits of 60 seconds: the two mends of each pair, of which only one can be accepted, and 140 holds and releases."""
    r = random.Random(seed)
    edits: list[tuple[str, ...]] = [("mend", str(second), speed) for pair in PAIRS for second, speed in zip(pair, ("68.0", "52.0"))]
    seconds = [str(second) for pair in PAIRS for second in pair]
    edits += [("hold", second, r.choice("345")) for second in seconds + r.sample(seconds, 60)]
    edits += [("release", second) for second in r.sample(seconds, 20)]
    r.shuffle(edits)
    return edits


class Parallel(Words):
    def setUp(self) -> None:
        super().setUp()
        self.job = self.file("plateau.job", write(seeded.CAR_Z, PLATEAU))

    def test_200_edits(self) -> None:
        asked = words_of(36)
        start = time.monotonic()
        running = [
            subprocess.Popen(
                [TOP / "gearcard", word, self.job, *more, "--wait", "600"],
                stdin=subprocess.DEVNULL,
                stdout=subprocess.DEVNULL,
                stderr=subprocess.PIPE,
                text=True,
            )
            for word, *more in asked
        ]
        said = [each.communicate()[1] for each in running]
        took = time.monotonic() - start
        statuses = [each.returncode for each in running]
        for words, status, line in zip(asked, statuses, said):
            # only a mend is refused, for the other one of its pair
            self.assertIn(status, (0, 1) if words[0] == "mend" else (0,), (words, line))
            self.assertRegex(line, (r"\A\Z", r"\Arefused 5 at \d+: .*\n\Z")[status], words)
        accepted = [words for words, status in zip(asked, statuses) if status == 0]
        by_word = {words: status for words, status in zip(asked, statuses) if words[0] == "mend"}
        for first, second in PAIRS:
            self.assertEqual(by_word["mend", str(first), "68.0"] + by_word["mend", str(second), "52.0"], 1, (first, second))
        kept = self.replayed(accepted)
        print(f"tools: parallel edits: {len(asked)} asked, {len(accepted)} answered 0, {kept} kept, {statuses.count(1)} refused; {took:.1f} s")
        self.assertEqual(kept, len(accepted))
        self.assertEqual([path.name for path in self.folder.iterdir() if path.name.startswith(".")], [])

    def replayed(self, accepted: list[tuple[str, ...]]) -> int:
        """The accepted edits one after the other, those last that the file shows, each by its proved function: all are accepted, and give the file. Answers
        how many the file accounts for: their second has what they put there, or what another accepted one did."""
        found = read(self.job.read_bytes())
        last = [words for words in accepted if words[0] == "mend" or int((*words, "0")[2]) == found.holds[int(words[1])]]
        speeds, holds = array("H", PLATEAU), bytearray(len(PLATEAU))
        card = work(seeded.CAR_Z, speeds)
        for words in [words for words in accepted if words not in last] + last:
            lent, second = (seeded.CAR_Z, speeds, holds, card), int(words[1])
            if words[0] == "mend":
                mend(*lent, second, int(words[2].replace(".", "")))
            elif words[0] == "hold":
                hold(*lent, second, int(words[2]))
            else:
                release(*lent, second)
        self.assertEqual(write(seeded.CAR_Z, speeds, holds), self.job.read_bytes())
        shown = {(words[0] == "mend", words[1]) for words in last}
        return sum((words[0] == "mend", words[1]) in shown for words in accepted)


class Meanwhile(Words):
    def locker(self, name: str) -> subprocess.Popen[str]:
        """A process that has the file's lock, until it is killed."""
        program = f"import fcntl, time; file = open({name!r}, 'r+b'); fcntl.flock(file, fcntl.LOCK_EX); print('locked', flush=True); time.sleep(600)"
        locker = subprocess.Popen([sys.executable, "-c", program], cwd=self.folder, stdout=subprocess.PIPE, text=True)
        assert locker.stdout is not None
        self.assertEqual(locker.stdout.readline(), "locked\n")
        self.addCleanup(locker.stdout.close)
        self.addCleanup(locker.wait)
        self.addCleanup(locker.kill)
        return locker

    def test_waiting_is_bounded(self) -> None:
        before = (self.folder / "car-z.job").read_bytes()
        locker = self.locker("car-z.job")
        for words in (("hold", "car-z.job", 2, 3), ("release", "car-z.job", 2), ("mend", "car-z.job", 2, "14.0")):
            begun = time.monotonic()
            said = "gearcard: car-z.job was not changed: another is changing it, for 0.2 s (--wait SECONDS waits longer)"
            self.ends(2, said, *words, "--wait", "0.2")
            self.assertLess(time.monotonic() - begun, 5)
        self.file("car-z.toml", TEXT)
        self.ends(2, "gearcard: car-z.job was not changed: another is changing it, for 0 s (--wait SECONDS waits longer)", "make", "car-z.toml", "--wait", "0")
        # to look at it needs no lock
        self.assertEqual(self.answers("card", "car-z.job"), (TOP / "examples/car-z.txt").read_text())
        self.assertIn("second 2: gear 3", self.answers("hold", "car-z.job", 2, 3, "--dry-run"))
        self.assertEqual((self.folder / "car-z.job").read_bytes(), before)
        locker.kill()
        self.assertIn("second 2: gear 3", self.answers("hold", "car-z.job", 2, 3))

    def test_changed_without_a_lock(self) -> None:
        """Another program writes the file between the reading and the writing, in place or by a new one: it is read again."""
        path = self.folder / "car-z.job"

        def replaced(data: bytes) -> None:
            self.file("new", data)
            os.replace(self.folder / "new", path)

        others: tuple[Callable[[bytes], object], ...] = (path.write_bytes, replaced)
        for other in others:
            path.write_bytes(b"first")
            seen: list[bytes | None] = []

            def renewed(old: bytes | None) -> bytes:
                seen.append(old)
                if len(seen) == 1:
                    other(b"second")
                return (old or b"") + b" and more"

            change(path, 5, renewed)
            self.assertEqual((seen, path.read_bytes()), ([b"first", b"second"], b"second and more"))

    def test_changed_while_it_prints(self) -> None:
        path = self.folder / "car-z.job"
        with self.assertRaisesRegex(ValueError, "car-z.job was changed by another meanwhile, and not by this"):
            change(path, 5, lambda old: b"mine", lambda: (path.write_bytes(b"another's"), None)[1])
        self.assertEqual(path.read_bytes(), b"another's")

    def test_made_by_another_first(self) -> None:
        path = self.folder / "new.job"
        seen: list[bytes | None] = []

        def renewed(old: bytes | None) -> bytes:
            seen.append(old)
            if old is None:
                path.write_bytes(b"another's")
            return b"mine"

        change(path, 5, renewed, create=True)
        self.assertEqual((seen, path.read_bytes()), ([None, b"another's"], b"mine"))
        with unittest.mock.patch("os.link", side_effect=OSError(1, "Operation not permitted")):
            change(self.folder / "no-links.job", 5, lambda old: b"mine", create=True)
        self.assertEqual((self.folder / "no-links.job").read_bytes(), b"mine")
        self.assertEqual([each.name for each in self.folder.iterdir() if each.name.startswith(".")], [])


#: A process that holds second 60 of class-3.job again and again, and sends itself SIGINT before the first step of Python in the files that change a job or
#: hear signals, then before the second, until all were tried; an interrupt without a step of its own is never sent. It prints how many ended with each status.
STEPPED = """
import collections, contextlib, io, os, signal, sys
from pathlib import Path
from gearcard import interrupts
interrupts.prepare()
from gearcard import posix, store
from gearcard.cli import main

job, ended = Path("class-3.job"), collections.Counter()
before = job.read_bytes()
watched = {store.__file__, posix.__file__, interrupts.__file__, contextlib.__file__}

def run(at):
    left = at
    def traced(frame, event, _):
        nonlocal left
        if frame.f_code.co_filename not in watched:
            return None
        frame.f_trace_opcodes, frame.f_trace_lines = True, False
        if event == "opcode":
            left -= 1
            if left == 0:
                os.kill(os.getpid(), signal.SIGINT)
        return traced
    job.write_bytes(before)
    with contextlib.redirect_stdout(io.TextIOWrapper(io.BytesIO())), contextlib.redirect_stderr(io.StringIO()):
        sys.settrace(traced)
        status = main(["hold", "class-3.job", "60", "3"])
        sys.settrace(None)
    # one that came too late waits still
    signal.sigtimedwait(interrupts.STOPS, 0)
    return status, left > 0

status, _ = run(0)
after = job.read_bytes()
assert status == 0 and after != before
at, over = 0, False
while not over:
    at += 1
    status, over = run(at)
    left = [each for each in os.listdir() if each.startswith(".")]
    assert job.read_bytes() == {130: before, 0: after}[status] and not left, (at, status, left)
    ended[status] += 1
print(ended[130], ended[0])
"""


class Interrupted(Words):
    """SIGINT to all processes of the command, as a terminal sends it, at moments from its start to its end."""

    def setUp(self) -> None:
        super().setUp()
        # A shell has what it starts in the background ignore it, and what that starts in turn; these tests are of a command that a terminal started.
        self.addCleanup(signal.signal, signal.SIGINT, signal.signal(signal.SIGINT, signal.default_int_handler))

    def test_at_every_step(self) -> None:
        env = {**os.environ, "PYTHONPATH": str(TOP / "python")}
        ran = subprocess.run([sys.executable, "-c", STEPPED], cwd=self.folder, env=env, capture_output=True, text=True)
        self.assertEqual((ran.returncode, ran.stderr), (0, ""))
        stopped, late = map(int, ran.stdout.split())
        print(f"tools: interrupts at every step: {stopped} ended with 130 and changed nothing, {late} came too late")
        self.assertGreater(min(stopped, late), 100)

    def whole_run(self) -> float:
        """How long the command takes where nothing interrupts it."""
        begun = time.monotonic()
        self.assertEqual(self.run_command("hold", "class-3.job", 60, 3)[0], 0)
        return time.monotonic() - begun

    def test_at_any_moment(self) -> None:
        before = (self.folder / "class-3.job").read_bytes()
        longest = 1.2 * min(self.whole_run() for _ in range(5))
        after = (self.folder / "class-3.job").read_bytes()
        ended = {130: 0, 0: 0}
        for k in range(50):
            (self.folder / "class-3.job").write_bytes(before)
            running = subprocess.Popen(
                [TOP / "gearcard", "hold", "class-3.job", "60", "3"],
                cwd=self.folder,
                stderr=subprocess.PIPE,
                stdout=subprocess.PIPE,
                text=True,
                start_new_session=True,
            )
            time.sleep(longest * k / 50)
            if running.poll() is None:
                os.killpg(running.pid, signal.SIGINT)
            out, said = running.communicate()
            # before the script or the tool has begun, the signal itself ends it, which a shell counts as 130 too
            status = 130 if running.returncode == -signal.SIGINT else running.returncode
            self.assertIn(status, ended, said)
            self.assertIn(said, ("", "gearcard: interrupted, and nothing was changed\n"), k)
            self.assertEqual((self.folder / "class-3.job").read_bytes(), before if status == 130 else after, k)
            ended[status] += 1
        print(f"tools: interrupts: {ended[130]} ended with 130 and changed nothing, {ended[0]} came too late")
        self.assertGreater(ended[130], 5)
        self.assertEqual([each.name for each in self.folder.iterdir() if each.name.startswith(".")], [])
