"""What README.md and the documents for users show is so: their commands print what stands below them, their programs what their comments say."""

from __future__ import annotations

import os
import re
import shutil
import subprocess
import sys
import unittest
from collections.abc import Callable
from pathlib import Path

TOP = Path(__file__).resolve().parents[2]

#: Where the programs of the documents are built and run.
ROOM = TOP / "target/readme"

#: Every document but the papers, which are not ours; README first, whose commands write what others read.
DOCUMENTS = ("README.md", *sorted({path.relative_to(TOP).as_posix() for folder in ("docs", "examples", "tests/*") for path in TOP.glob(f"{folder}/*.md")} - {
    "docs/01-scope.md",
    "docs/02-change-requests.md",
}))

#: The commands of the documents write these, and find none at the start.
WRITTEN = "mine*"

#: Lines of README; scripts/names holds the width of all documents.
LONGEST = 140


def blocks(document: str, kind: str) -> list[str]:
    return re.findall(rf"^```{kind}\n(.*?)^```$", (TOP / document).read_text(), re.M | re.S)


def prints(program: str) -> str:
    """What the comments of a program say that it prints."""
    return "".join(f"{line}\n" for line in re.findall(r"(?:#|//) prints: (.*)", program))


def ran(*words: str | Path, env: dict[str, str] | None = None) -> tuple[int, str]:
    """Status, and what is printed, on standard output and standard error as they come."""
    done = subprocess.run(words, cwd=TOP, stdin=subprocess.DEVNULL, stdout=subprocess.PIPE, stderr=subprocess.STDOUT, text=True, env=env)
    return done.returncode, done.stdout


def python(program: str) -> tuple[int, str]:
    return ran(sys.executable, "-c", program, env={**os.environ, "PYTHONPATH": "python"})


def c(program: str) -> tuple[int, str]:
    source = ROOM / "mine.c"
    source.write_text(program)
    status, said = ran("cc", "-Wall", "-Werror", "-Iinclude", source, "target/lib/libgearcard.a", "-o", ROOM / "mine")
    return (status, said) if status else ran("bash", "-c", f"{ROOM / 'mine'} <examples/class-3.job")


def js(program: str) -> tuple[int, str]:
    """As npm lays a package out: with the engine in it, in reach of the program."""
    package, source = ROOM / "node_modules/gearcard", ROOM / "mine.mjs"
    shutil.copytree(TOP / "js/gearcard", package, dirs_exist_ok=True)
    shutil.copy(TOP / "target/lib/gearcard.wasm", package)
    source.write_text(program)
    return ran("node", source)


LANGUAGES: dict[str, Callable[[str], tuple[int, str]]] = {"python": python, "c": c, "js": js}


class Readme(unittest.TestCase):
    @classmethod
    def setUpClass(cls) -> None:
        needed = "needs cc gcc libc6-dev && needs node nodejs && needs esbuild esbuild"
        subprocess.run(["bash", "-c", f". scripts/kit.sh && {needed} && ./library >/dev/null"], cwd=TOP, check=True)
        shutil.rmtree(ROOM, ignore_errors=True)
        ROOM.mkdir(parents=True)
        for old in (TOP / "target").glob(WRITTEN):
            old.unlink()

    def test_programs(self) -> None:
        for kind, run in LANGUAGES.items():
            for document in ("README.md", "docs/API.md"):
                programs = blocks(document, kind)
                self.assertTrue(programs, f"{document} has no program in {kind}")
                for program in programs:
                    with self.subTest(document=document, kind=kind, program=program):
                        self.assertTrue(prints(program), "it does not say what it prints")
                        self.assertEqual(run(program), (0, prints(program)))

    def test_commands(self) -> None:
        """In the order of the documents: a command may use what one above it wrote."""
        met = 0
        for document in DOCUMENTS:
            for block in blocks(document, "console"):
                for command, printed in re.findall(r"^\$ (.*)\n((?:(?!\$ ).*\n)*)", block, re.M):
                    met += 1
                    with self.subTest(document=document, command=command):
                        self.assertEqual(ran("bash", "-c", command)[1], printed)
        self.assertGreater(met, 9)

    def test_first_job(self) -> None:
        """The text in README is that of examples/car-z.job."""
        (text,) = blocks("README.md", "toml")
        source = ROOM / "first.toml"
        source.write_text(text)
        self.assertEqual(ran("./gearcard", "make", source), (0, ""))
        self.assertEqual(source.with_suffix(".job").read_bytes(), (TOP / "examples/car-z.job").read_bytes())

    def test_refusals(self) -> None:
        """Each number that the tools know is in the table of README, and in that of the header, once."""
        from gearcard.refusals import WORDS

        for document, row in (("README.md", r"^\| (\d+) \|"), ("include/gearcard.h", r"^ {3,4}(\d+)  \w")):
            with self.subTest(document=document):
                numbers = re.findall(row, (TOP / document).read_text(), re.M)
                self.assertEqual(sorted(map(int, numbers)), sorted(WORDS))

    def test_looks(self) -> None:
        for document in DOCUMENTS:
            lines = (TOP / document).read_text().splitlines()
            for link in re.findall(r"\]\(([^)#:]+)\)", "\n".join(lines)):
                with self.subTest(document=document):
                    self.assertTrue((TOP / document).parent.joinpath(link).exists(), link)
        self.assertLessEqual(len((TOP / "README.md").read_text().splitlines()), LONGEST)
