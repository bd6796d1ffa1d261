"""Where a change of a file goes: folders, hard links, and what a killed process leaves beside a job."""

from __future__ import annotations

import fcntl
import os
import signal
import subprocess
import sys
import time
import unittest.mock
from pathlib import Path

from .texts import TEXT
from .words import TOP, Words

#: A process that has written the new file beside a job, and has not renamed it.
STOPPED = """
import os, sys, time
from pathlib import Path
from gearcard import store
os.replace = lambda *words: (print('beside', flush=True), time.sleep(600))
store.change(Path(sys.argv[1]), 10, lambda old: old + b'more')
"""


class Folders(Words):
    def test_a_name_that_ends_with_a_slash(self) -> None:
        self.file("car.toml", TEXT)
        for word in ("new/", "new/.", "a/b/"):
            status, out, said = self.run_words("make", "car.toml", "-o", word)
            self.assertEqual((status, out), (2, ""))
            self.assertIn(f"'{word}' is a folder, and no file", said)
            self.assertFalse((self.folder / word.split("/")[0]).exists())
        status, _, said = self.run_words("hold", "class-3.job/", 60, 3)
        self.assertEqual(status, 2)
        self.assertIn("'class-3.job/' is a folder", said)

    def test_make_names_the_job_whose_holds_it_would_lose(self) -> None:
        self.file("car.toml", TEXT)
        self.answers("make", "car.toml", "-o", "mine.job")
        self.answers("hold", "mine.job", 1, 1)
        self.ends(2, "gearcard: mine.job has 1 hold that car.toml lacks: 1 = 1 (--drop-holds makes it without)", "make", "car.toml", "-o", "mine.job")


class Links(Words):
    def test_a_hard_link_that_breaks_is_said(self) -> None:
        job, other, third = (self.folder / name for name in ("class-3.job", "other.job", "third.job"))
        before = job.read_bytes()
        os.link(job, other)
        words = "gearcard: class-3.job is changed under this name alone: its other name (hard links) still has the file as it was\n"
        status, out, said = self.run_words("hold", "class-3.job", 60, 3)
        self.assertEqual((status, said), (0, words))
        self.assertNotEqual(out, "")
        self.assertEqual(other.read_bytes(), before)
        self.assertNotEqual(job.read_bytes(), before)
        self.answers("release", "class-3.job", 60)
        os.link(other, third)
        self.assertEqual(self.run_words("hold", "other.job", 60, 3, "--dry-run")[2], "")


class Left(Words):
    def beside(self) -> list[str]:
        return sorted(each.name for each in self.folder.iterdir() if each.name.startswith("."))

    def test_what_a_killed_process_left_is_swept_and_what_a_living_one_has_is_not(self) -> None:
        processes = []
        for name in ("car-z.job", "van.job"):
            process = subprocess.Popen(
                [sys.executable, "-c", STOPPED, name], cwd=self.folder, stdout=subprocess.PIPE, text=True, env={**os.environ, "PYTHONPATH": str(TOP / "python")}
            )
            assert process.stdout is not None
            self.assertEqual(process.stdout.readline(), "beside\n")
            self.addCleanup(process.stdout.close)
            self.addCleanup(process.wait)
            self.addCleanup(process.kill)
            processes.append(process)
        self.assertEqual(len(self.beside()), 2)
        self.answers("hold", "class-3.job", 60, 3)
        self.assertEqual(len(self.beside()), 2, "both are at work")
        processes[0].send_signal(signal.SIGKILL)
        processes[0].wait()
        self.file(".gearcard-notes", "mine")
        self.answers("release", "class-3.job", 60)
        self.assertEqual(len(self.beside()), 2, "another's file of a name like it stays")
        (self.folder / ".gearcard-notes").unlink()
        processes[1].send_signal(signal.SIGKILL)
        processes[1].wait()
        self.answers("hold", "car-z.job", 1, 1)
        self.assertEqual(self.beside(), [])

    def test_one_that_sweeps_before_the_lock_takes_nothing_away(self) -> None:
        """The new file is removed between its making and its lock: the next is made."""
        real = fcntl.flock
        taken: list[str] = []

        def swept(file: int, how: int) -> None:
            fresh = [each for each in self.folder.iterdir() if each.name.startswith(".gearcard-")]
            if fresh and not taken:
                taken.append(fresh[0].name)
                fresh[0].unlink()
            real(file, how)

        with unittest.mock.patch.object(fcntl, "flock", swept):
            self.answers("hold", "class-3.job", 60, 3)
        self.assertEqual((len(taken), self.beside()), (1, []))
        self.assertIn("second 60: gear 3", self.answers("holds", "class-3.job"))

    def test_many_at_once_leave_nothing(self) -> None:
        words: list[list[str | Path]] = [[TOP / "gearcard", "hold", "class-3.job", str(60 + k), "3", "--wait", "100"] for k in range(12)]
        running = [subprocess.Popen(each, cwd=self.folder, stdout=subprocess.DEVNULL, stderr=subprocess.PIPE) for each in words]
        begun = time.monotonic()
        said = [each.communicate()[1] for each in running]
        self.assertEqual([(each.returncode, words) for each, words in zip(running, said)], 12 * [(0, b"")], time.monotonic() - begun)
        self.assertEqual(self.beside(), [])
        self.assertEqual(self.answers("holds", "class-3.job").count("gear 3"), 12)
