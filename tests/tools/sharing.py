"""What several commands share in a checkout: made once, read whole, and one line where it cannot be made. All in copies of the checkout."""

from __future__ import annotations

import os
import shutil
import subprocess
import tempfile
import unittest
from pathlib import Path

TOP = Path(__file__).resolve().parents[2]

#: What the commands need of a checkout.
PARTS = ("gearcard", "library", "crates", "crates.txt", "VERSION", "scripts", "python", "js", "web", "examples", "include")

#: Commands at once.
MANY = 12

#: A command that counts its calls and then is the one behind it in the path.
COUNTED = """#!/bin/sh
printf '%s\\n' "$*" >>"$COUNTED/{name}"
exec {real} "$@"
"""

#: What makes one script of several: here it only takes its time, and has a letter that is not ASCII.
ESBUILD = """#!/bin/sh
printf '%s\\n' "$*" >>"$COUNTED/esbuild"
sleep 0.3
printf '/* \\303\\251 */\\n'
cat "$1"
"""

#: The kit's `rt` where nothing is to be proved: it takes its time, and the program is the one that the real one made.
RT = """#!/bin/sh
[ "$1" != doc ] || exec "$REAL" doc
printf '%s %s\\n' "$*" "$(basename "$PWD")" >>"$COUNTED/rt"
sleep 1
[ "$1" != run ] || { mkdir -p out && cp "$PROGRAM" out/gearcard; }
"""


class Checkout(unittest.TestCase):
    """A copy of the checkout, with what has been proved, and commands that count."""

    def setUp(self) -> None:
        self.folder = Path(tempfile.mkdtemp())
        self.addCleanup(shutil.rmtree, self.folder)
        self.folder.chmod(0o755)
        self.top = self.folder / "checkout"
        self.top.mkdir()
        for name in PARTS:
            if (TOP / name).is_dir():
                shutil.copytree(TOP / name, self.top / name, ignore=shutil.ignore_patterns("__pycache__", "out"))
            else:
                shutil.copy2(TOP / name, self.top / name)
        shutil.copytree(TOP / "target/lib", self.top / "target/lib", symlinks=True)
        shutil.copytree(TOP / "target/staticlib", self.top / "target/staticlib")
        self.counted = self.folder / "counted"
        self.path = self.folder / "path"
        for each in (self.counted, self.path):
            each.mkdir()
        self.command("esbuild", ESBUILD)
        self.environment = {**os.environ, "PATH": f"{self.path}:{os.environ['PATH']}", "COUNTED": str(self.counted)}

    def command(self, name: str, script: str) -> None:
        (self.path / name).write_text(script)
        (self.path / name).chmod(0o755)

    def calls(self, name: str) -> list[str]:
        file = self.counted / name
        return file.read_text().splitlines() if file.exists() else []

    def at_once(self, words: list[list[str]], stdin: Path = Path(os.devnull)) -> list[subprocess.CompletedProcess[bytes]]:
        running = []
        for each in words:
            with stdin.open("rb") as file:
                running.append(
                    subprocess.Popen(each, cwd=self.folder, env=self.environment, stdin=file, stdout=subprocess.PIPE, stderr=subprocess.PIPE)
                )
        return [subprocess.CompletedProcess(each.args, each.wait(), *ended) for each in running for ended in (each.communicate(),)]


class Once(Checkout):
    def test_the_page(self) -> None:
        """Made once, and every file has the whole of it."""
        for name, count in (("whole.html", 2), ("again.html", 2)):
            ended = self.at_once([[str(self.top / "gearcard"), "page", "-o", f"{k}-{name}"] for k in range(MANY)])
            self.assertEqual([(each.returncode, each.stdout, each.stderr) for each in ended], MANY * [(0, b"", b"")])
            pages = {(self.folder / f"{k}-{name}").read_bytes() for k in range(MANY)}
            self.assertEqual(len(pages), 1)
            self.assertTrue(pages.pop().endswith(b"</html>\n"))
            self.assertEqual(len(self.calls("esbuild")), count, "its script and its style, once each")
        ended = self.at_once([[str(self.top / "gearcard"), "page", str(self.top / "examples/van.job"), "-o", f"{k}.html"] for k in range(MANY)])
        self.assertEqual([each.returncode for each in ended], MANY * [0], [each.stderr for each in ended])

    def test_the_page_after_a_change(self) -> None:
        page = [str(self.top / "gearcard"), "page", "-o", "page.html", "--force"]
        self.assertEqual(self.at_once([page])[0].returncode, 0)
        for name in ("web/src/dom.js", "web/style.css", "js/gearcard/engine.js", "target/lib/gearcard.wasm", "examples/class-3.job"):
            before = len(self.calls("esbuild"))
            os.utime(self.top / name)
            self.assertEqual(self.at_once([page])[0].returncode, 0)
            self.assertEqual(len(self.calls("esbuild")) - before, 2, name)

    def test_the_library(self) -> None:
        shutil.rmtree(self.top / "target/lib")
        (self.top / "target/lib").mkdir()
        (self.top / "target/lib/.libgearcard.so.12345").write_bytes(b"what one that was killed left")
        self.command("mv", COUNTED.format(name="mv", real=shutil.which("mv")))
        ended = self.at_once([[str(self.top / "library")] for _ in range(4)])
        self.assertEqual([(each.returncode, each.stderr) for each in ended], 4 * [(0, b"")])
        self.assertEqual(len(self.calls("mv")), 3, "an archive, a shared library and the engine of the page, once each")
        self.assertEqual([each.name for each in (self.top / "target/lib").iterdir() if each.name.startswith(".")], [])

    def test_the_first_run(self) -> None:
        self.command("rt", RT)
        self.environment |= {"PROGRAM": str(TOP / "crates/gearcard/out/gearcard"), "REAL": str(shutil.which("rt"))}
        ended = self.at_once(4 * [[str(self.top / "gearcard")]], self.top / "examples/car-z.job")
        wanted = (TOP / "examples/car-z.txt").read_bytes()
        self.assertEqual([(each.returncode, each.stdout, each.stderr) for each in ended], 4 * [(0, wanted, b"")])
        self.assertEqual(self.calls("rt"), ["run gearcard"])


class Anywhere(Checkout):
    """In any locale, for any user, and where nothing can be written."""

    def test_a_locale_without_letters(self) -> None:
        self.environment |= {"LC_ALL": "C", "PYTHONUTF8": "0", "PYTHONCOERCECLOCALE": "0"}
        job = self.folder / "höhe.job"
        shutil.copy(TOP / "examples/van.job", job)
        drawn = (["page", "-o", "a.html"], ["page", str(job), "-o", "b.html"], ["picture", str(job), "-o", "ö.svg"])
        for words in (*drawn, ["card", str(job)], ["show", str(job)]):
            ended = self.at_once([[str(self.top / "gearcard"), *words]])[0]
            self.assertEqual((ended.returncode, ended.stderr), (0, b""), words)
        self.assertIn('data-name="höhe.job"', (self.folder / "b.html").read_text(encoding="utf-8"))

    def as_another(self, *words: str) -> tuple[int, bytes]:
        """A word of ./gearcard by one who may read the checkout and write his own folder, and nothing else."""
        own = self.folder / "own"
        own.mkdir(exist_ok=True)
        who, groups = (65534, list[str | int]()) if os.geteuid() == 0 else (None, None)
        if who is not None:
            os.chown(own, who, who)
        command: list[str | Path] = [self.top / "gearcard", *words]
        env = {**self.environment, "HOME": str(own)}
        ended = subprocess.run(command, cwd=own, env=env, stdin=subprocess.DEVNULL, capture_output=True, user=who, group=who, extra_groups=groups)
        self.assertEqual(ended.stdout, b"")
        return ended.returncode, ended.stderr

    def read_only(self) -> None:
        for folder, _, files in os.walk(self.top, topdown=False):
            for name in files:
                os.chmod(os.path.join(folder, name), 0o555)
            os.chmod(folder, 0o555)
        self.addCleanup(lambda: subprocess.run(["chmod", "-R", "u+w", str(self.top)]))

    def test_a_checkout_that_cannot_be_written(self) -> None:
        self.read_only()
        status, said = self.as_another("page", "-o", "page.html")
        wanted = f"gearcard: the page could not be made: {self.top / 'target/web'} could not be written: Permission denied\n"
        self.assertEqual((status, said.decode()), (2, wanted))

    def test_a_page_that_another_made(self) -> None:
        self.assertEqual(self.at_once([[str(self.top / "gearcard"), "page", "-o", "first.html"]])[0].returncode, 0)
        self.read_only()
        self.assertEqual(self.as_another("page", "-o", "page.html"), (0, b""))
        self.assertEqual((self.folder / "own/page.html").read_bytes(), (self.folder / "first.html").read_bytes())
