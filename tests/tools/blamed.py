"""Which gear or which point a refusal names, and what separates the cells of a sheet without a header."""

from __future__ import annotations

from gearcard.tables import Layout, read_speeds

from .words import EXAMPLES, Words


class Blamed(Words):
    def said(self, old: str, new: str) -> str:
        """What is said of car Z's text with this in place of that, without the bounds."""
        text = (EXAMPLES / "car-z.toml").read_text()
        line = next(line for line in text.splitlines() if line.startswith(old))
        self.file("car.toml", text.replace(line, new))
        status, out, said = self.run_words("make", "car.toml")
        self.assertEqual((status, out), (1, ""), said)
        return said.split(": ")[2]

    def test_each_gear(self) -> None:
        """Out of bounds, or not below the one before it."""
        for ratios, place, value in (
            ("500.01, 70, 45, 35, 28", 0, "500.01"),
            ("120, 500.01, 45, 35, 28", 1, "500.01"),
            ("120, 120, 45, 35, 28", 1, "120.00"),
            ("120, 70, 70, 35, 28", 2, "70.00"),
            ("120, 70, 45, 35, 0", 4, "0.00"),
        ):
            self.assertEqual(self.said("ratios", f"ratios = [{ratios}]"), f"vehicle.ratios[{place}] = {value}, gear {place + 1}", ratios)

    def test_each_point(self) -> None:
        for points, place in (
            ("[800, 500.1], [1800, 30], [2800, 50], [3800, 70], [4800, 85], [5600, 90], [6000, 88]", 0),
            ("[800, 10], [1800, 500.1], [2800, 50], [3800, 70], [4800, 85], [5600, 90], [6000, 88]", 1),
            ("[800, 10], [1801, 30], [2800, 50], [3800, 70], [4800, 85], [5600, 90], [6000, 88]", 1),
            ("[800, 10], [1800, 30], [2800, 50], [3800, 70], [4800, 85], [5600, 90], [5600, 88]", 6),
        ):
            text = (EXAMPLES / "car-z.toml").read_text()
            start = text.index("curve = [")
            self.file("car.toml", f"{text[:start]}curve = [{points}]\n{text[text.index('[trace]'):]}")
            status, _, said = self.run_words("make", "car.toml")
            self.assertEqual((status, said.split(": ")[2].split(" = ")[0]), (1, f"vehicle.curve[{place}]"), said)


class Marks(Words):
    def test_a_semicolon_comes_before_a_comma(self) -> None:
        """Where the first line has both, as with decimal commas and no header, the semicolon stands between the columns; a tab does too."""
        for data in (b"0;0,0\n1;5,0\n2;15,3\n3;0,0\n", b"0\t0,0\n1\t5,0\n2\t15,3\n3\t0,0\n", b"time;speed, measured\n0;0,0\n1;5,0\n2;15,3\n3;0,0\n"):
            path = self.file("drive.csv", data)
            self.assertEqual(read_speeds(path, "drive.csv", Layout(2))[0], [0, 50, 153, 0], data)
