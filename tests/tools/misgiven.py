"""What a program gives that is no edit, no job or no byte of a card: `TypeError` or `ValueError` that says which."""

from __future__ import annotations

import unittest
from pathlib import Path

from gearcard import Hold, clutch_down, edit, gear_of, read

CAR_Z = (Path(__file__).resolve().parents[2] / "examples/car-z.job").read_bytes()


class Misgiven(unittest.TestCase):
    def test_edits(self) -> None:
        job = read(CAR_Z)
        for wrong, words in (
            ([1], "edit 0 is no Hold, Release or Mend: int"),
            ([None], "edit 0 is no Hold, Release or Mend: NoneType"),
            ([Hold(1, 1), "hold 60 3"], "edit 1 is no Hold, Release or Mend: str"),
            ([(1, 2)], "edit 0 is no Hold, Release or Mend: tuple"),
            ("hold 60 3", "edit 0 is no Hold, Release or Mend: str"),
        ):
            with self.subTest(wrong):
                with self.assertRaises(TypeError) as raised:
                    edit(job, wrong)  # type: ignore[arg-type]
                self.assertEqual(str(raised.exception), words)
                self.assertEqual(job, read(CAR_Z))

    def test_jobs(self) -> None:
        for wrong in (None, CAR_Z, tuple(read(CAR_Z))):
            with self.assertRaisesRegex(TypeError, "^job is no Job: "):
                edit(wrong, [Hold(1, 1)])  # type: ignore[arg-type]

    def test_bytes_of_a_card(self) -> None:
        for function in (gear_of, clutch_down):
            for wrong in (2.5, "3", None, float("nan")):
                with self.assertRaisesRegex(TypeError, "is no card byte: it takes a whole number"):
                    function(wrong)  # type: ignore[arg-type]
            for number in (-1, 256):
                with self.assertRaisesRegex(ValueError, "is no card byte from 0 to 255"):
                    function(number)
        self.assertEqual((gear_of(26), clutch_down(26), gear_of(0), clutch_down(15)), (10, True, 0, False))
