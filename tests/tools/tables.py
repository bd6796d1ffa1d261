"""Traces from spreadsheets: each is read as what it is, or refused with its line. The page's reader is held to the same samples, tests/tables.json."""

from __future__ import annotations

import json
import tempfile
import unittest
from pathlib import Path
from typing import Any

from gearcard.errors import BadText, Misuse
from gearcard.tables import Layout, read_speeds

#: Each has a text, or bytes as the characters of Latin-1, how often, what a job's text says of it, and its speeds or what is said behind the name.
SAMPLES = json.loads((Path(__file__).resolve().parents[1] / "tables.json").read_text(encoding="utf-8"))


def data_of(sample: dict[str, Any]) -> bytes:
    data: bytes = sample["text"].encode() if "text" in sample else sample["latin1"].encode("latin-1")
    repeat: int = sample.get("repeat", 1)
    return data * repeat


class Tables(unittest.TestCase):
    def read(self, data: bytes, layout: Layout) -> tuple[list[int], list[int]]:
        with tempfile.TemporaryDirectory() as folder:
            path = Path(folder) / "drive.csv"
            path.write_bytes(data)
            return read_speeds(path, "drive.csv", layout)

    def test_the_samples(self) -> None:
        kinds = {"speeds": 0, "words": 0}
        for sample in SAMPLES:
            with self.subTest(data_of(sample)[:80]):
                said: list[int] | str
                try:
                    said, kind = self.read(data_of(sample), Layout(**sample.get("layout", {})))[0], "speeds"
                except BadText as why:
                    said, kind = str(why).removeprefix("drive.csv"), "words"
                    self.assertTrue(said.startswith(sample.get("words", "none: it is read")), said)
                else:
                    self.assertEqual(said, sample.get("speeds"))
                kinds[kind] += 1
        print(f"tools: {len(SAMPLES)} sheets: {kinds['speeds']} read, {kinds['words']} refused")
        self.assertGreater(min(kinds.values()), 40)

    def test_lines(self) -> None:
        self.assertEqual(self.read(b"sep=;\nrun 3\n\nt;speed\ns;km/h\n0;0\n1;5\n", Layout(skip=2))[1], [6, 7])

    def test_no_file(self) -> None:
        with self.assertRaisesRegex(Misuse, "none.csv could not be read"):
            read_speeds(Path("none.csv"), "none.csv")
        with self.assertRaisesRegex(Misuse, "drive.csv has more than 16,777,216 bytes, which is more than such a file can have"):
            read_speeds(Path("/dev/zero"), "drive.csv")
