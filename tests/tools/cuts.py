"""Jobs that are cut, longer ones than those that are read at once; and every byte that a card can have."""

from __future__ import annotations

import unittest

from gearcard import Refused, clutch_down, gear_of, read

from .words import EXAMPLES


class Cuts(unittest.TestCase):
    def test_a_long_job_cut_anywhere(self) -> None:
        """It says more seconds than it has bytes: what is refused is the cut, at its end, and not the room that it was read into."""
        whole = (EXAMPLES / "class-3.job").read_bytes()
        for length in [*range(400), *range(400, len(whole), 37)]:
            with self.assertRaises(Refused) as raised:
                read(whole[:length])
            self.assertEqual((raised.exception.number, raised.exception.place), (12, length))

    def test_every_byte_of_a_card(self) -> None:
        """The gear, 0 to 10, plus 16 where the clutch is down."""
        for gear in range(11):
            for down in (False, True):
                self.assertEqual((gear_of(gear + 16 * down), clutch_down(gear + 16 * down)), (gear, down))
