"""The wheel's own list of its files, held against the files: pip installs without looking at it, and others do look."""

from __future__ import annotations

import base64
import csv
import hashlib
import importlib
import io
import sys
import tempfile
import unittest
import unittest.mock
import zipfile
from pathlib import Path

TOP = Path(__file__).resolve().parents[2]


class Wheels(unittest.TestCase):
    def made(self, folder: Path, processor: str, called: str = "libgearcard.so") -> Path:
        """A wheel as ./release makes it, with a page and a library that stand for theirs."""
        with unittest.mock.patch.object(sys, "path", [str(TOP / "scripts"), *sys.path]):
            wheels = importlib.import_module("wheels")
        library = folder / called
        library.write_bytes(b"a library")
        with unittest.mock.patch.object(wheels, "page", return_value=b"<!doctype html>"):
            name: str = wheels.wheel(folder, processor, library)
            return folder / name

    def test_record(self) -> None:
        """RECORD has each file once, with its SHA-256 in base64 without padding and its length, and itself without either."""
        with tempfile.TemporaryDirectory() as folder, zipfile.ZipFile(self.made(Path(folder), "x86_64")) as wheel:
            names = wheel.namelist()
            (record,) = (name for name in names if name.endswith(".dist-info/RECORD"))
            rows = list(csv.reader(io.StringIO(wheel.read(record).decode())))
            self.assertEqual([row[0] for row in rows], names)
            self.assertEqual(names[-1], record)
            for name, said, length in rows[:-1]:
                data = wheel.read(name)
                digest = base64.urlsafe_b64encode(hashlib.sha256(data).digest()).decode().rstrip("=")
                self.assertEqual((said, length), (f"sha256={digest}", str(len(data))), name)
            self.assertEqual(rows[-1], [record, "", ""])
            files = {path.name for path in (TOP / "python/gearcard").iterdir() if path.suffix == ".py"}
            self.assertLessEqual({f"gearcard/{name}" for name in files | {"py.typed", "VERSION", "page.html", "libgearcard.so"}}, set(names))
            self.assertEqual((wheel.read("gearcard/libgearcard.so"), wheel.read("gearcard/page.html")), (b"a library", b"<!doctype html>"))

    def test_names_and_tags(self) -> None:
        """The file's name, its tags and the version agree, as the standard for wheels has it."""
        version = (TOP / "VERSION").read_text().strip()
        linux = [(each, f"manylinux_2_17_{each}.manylinux2014_{each}", "libgearcard.so") for each in ("x86_64", "aarch64")]
        windows = [("x86_64", "win_amd64", "gearcard.dll"), ("aarch64", "win_arm64", "gearcard.dll")]
        for processor, tags, called in linux + windows:
            with tempfile.TemporaryDirectory() as folder:
                path = self.made(Path(folder), processor, called)
                self.assertEqual(path.name, f"gearcard-{version}-py3-none-{tags}.whl")
                with zipfile.ZipFile(path) as wheel:
                    said = wheel.read(f"gearcard-{version}.dist-info/WHEEL").decode().splitlines()
                    self.assertEqual([line for line in said if line.startswith("Tag: ")], [f"Tag: py3-none-{tag}" for tag in tags.split(".")])
                    self.assertIn("Root-Is-Purelib: false", said)
                    metadata = wheel.read(f"gearcard-{version}.dist-info/METADATA").decode()
                    self.assertIn(f"\nVersion: {version}\n", metadata)
                    entry = wheel.read(f"gearcard-{version}.dist-info/entry_points.txt").decode()
                    self.assertEqual(entry, "[console_scripts]\ngearcard = gearcard.entry:main\n")
                    library = wheel.getinfo(f"gearcard/{called}")
                    self.assertEqual(library.external_attr >> 16 & 0o777, 0o755)
