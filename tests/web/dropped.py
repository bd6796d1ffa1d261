"""A table that is dropped on the page: it is said what it is, it stands in the form of the trace, and from there it is used or refused with its line."""

from __future__ import annotations

from .browser import PageTest, until
from .files import DROP

FORM = "return [document.getElementById('trace').open, document.getElementById('trace-form').elements.way.value]"


class Dropped(PageTest):
    def drop(self, name: str, data: bytes) -> None:
        self.js(DROP, name, list(data))
        until("the form is open", lambda: self.js(FORM) == [True, "pasted"])

    def said(self) -> str:
        words: str = self.js("const line = document.getElementById('pasted-error'); return line.hidden ? '' : line.textContent")
        return words

    def test_a_table(self) -> None:
        for name, data in (
            ("drive.csv", b"second,speed\n0,0\n1,5.5\n2,0\n"),
            ("drive.txt", "Zeit [s];v [km/h]\n0;0\n1;5,5\n2;0\n".encode("utf-16")),
            ("drive", b"time,speed\n09:59:59,0\n10:00:00,5.5\n10:00:01,0\n"),
        ):
            with self.subTest(name):
                self.drop(name, data)
                self.assertEqual((self.said(), self.text("pasted-found")), ("", "3 seconds, up to 5.5 km/h"))
                self.assertIn(f"{name} is a table", self.text("status"))
                self.js("document.getElementById('trace-form').requestSubmit()")
                self.assertEqual(self.present()["speeds"], [0, 55, 0])
                self.assertIn(f"3 seconds of {name}", self.text("status"))
                self.assertRight()
                self.click("undo")

    def test_a_table_that_cannot_be_read(self) -> None:
        before = self.present()
        self.drop("drive.csv", b"second,speed [mph]\n0,0\n1,5.5\n2,0\n")
        self.assertEqual(self.said(), "drive.csv line 1: the speed is in mph, and km/h is read")
        self.js("document.getElementById('trace-form').requestSubmit()")
        self.assertEqual((self.js(FORM)[0], self.present()), (True, before))
