"""The mark of a refusal in the picture: read back by the labels of the axis, it stands at the refused second, whichever row that is in."""

from __future__ import annotations

import re
import unittest
import xml.etree.ElementTree as ET
from pathlib import Path

from gearcard import Refused, read
from gearcard.picture import picture, picture_of_bytes

SVG = "{http://www.w3.org/2000/svg}"


def second_of(svg: str) -> float:
    """The second at which the one mark stands, by the labels of the row that it is drawn in: the last row before it."""
    row: ET.Element | None = None
    found: list[float] = []
    for each in ET.fromstring(svg):
        if each.tag == f"{SVG}g":
            row = each
        elif each.get("class") == "mark" and row is not None:
            labels = [(float(text.get("x", "")), int(text.text or "")) for text in row.iter(f"{SVG}text") if (text.get("class") or "").startswith("second")]
            (a, first), (b, last) = labels[0], labels[-1]
            places = {float(x) for x, _ in re.findall(r"([-0-9.]+) ([-0-9.]+)", each.get("d", ""))}
            assert len(places) == 1, places
            found.append(first + (places.pop() - a) * (last - first) / (b - a))
    (one,) = found
    return one


class Marks(unittest.TestCase):
    def test_the_second_of_a_refusal(self) -> None:
        job = read(Path("examples/class-3.job").read_bytes())
        for place in (0, 1, 59, 309, 310, 900, 1799, 1800):
            drawn = picture("a job", job, None, Refused(9, place))
            self.assertAlmostEqual(second_of(drawn), place, delta=0.01)
            self.assertIn(f">refused 9 at {place}<", drawn)
        self.assertAlmostEqual(second_of(picture("refused.job", read(Path("examples/refused.job").read_bytes()), None, Refused(9, 4))), 4, delta=0.01)

    def test_the_byte_of_a_refusal(self) -> None:
        """Of a file that is no job the bar goes from byte 0 to its length."""
        for length, place in ((40, 40), (40, 10), (400, 7)):
            root = ET.fromstring(picture_of_bytes("cut.job", length, Refused(12, place)))
            (mark,) = (path for path in root.iter(f"{SVG}path") if path.get("class") == "mark")
            (bar,) = (rect for rect in root.iter(f"{SVG}rect") if rect.get("class") == "trip")
            at = float(re.findall(r"M([-0-9.]+) ", mark.get("d", ""))[0])
            left, wide = float(bar.get("x", "")), float(bar.get("width", ""))
            self.assertAlmostEqual(length * (at - left) / wide, place, delta=0.01)
