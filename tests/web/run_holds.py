"""Holds amid the run: the driver sees them come, or the engineer is asked once; what lies behind the driver is the job's alone."""

from __future__ import annotations

from typing import Any

from .browser import PageTest, until
from .run_slips import ANSWER, ASKED
from .run_window import GOOD

YES = "Change it, and ask no more in this run"
DRIVER = "return gearcardPage.driver().document.getElementById(arguments[0]).textContent"


class Holds(PageTest):
    def setUp(self) -> None:
        super().setUp()
        self.click("driver-open")
        until("it is filled", lambda: self.js(GOOD))
        self.choose(60)
        self.click("run-from")
        self.click("start")
        # So that the second stays: a paused run is a run.
        self.click("start")
        self.at = int(self.js("return gearcardPage.at()"))

    def hold(self, second: int, gear: str) -> None:
        self.choose(second)
        self.keys(gear)

    def held(self, second: int) -> int:
        gear: int = self.present()["holds"][second]
        return gear

    def edits(self) -> list[dict[str, Any]]:
        found: list[dict[str, Any]] = self.js("return gearcardPage.record().edits")
        return found

    def test_close_to_the_driver_it_asks_once(self) -> None:
        self.hold(self.at + 1, "4")
        self.assertEqual(self.held(self.at + 1), 0)
        self.assertEqual(self.js(ASKED), f"Second {self.at + 1} is closer than 3 s to the driver, who may not see it come.")
        self.js(ANSWER, "Leave it")
        self.assertEqual((self.held(self.at + 1), self.js(ASKED), self.edits()), (0, "", []))
        self.hold(self.at + 1, "4")
        self.js(ANSWER, YES)
        self.assertEqual((self.held(self.at + 1), self.js(ASKED)), (4, ""))
        self.hold(self.at, "4")
        self.assertEqual((self.held(self.at), self.js(ASKED)), (4, ""), "once in a run")
        first, second = self.edits()
        self.assertEqual((first["what"], first["first"], first["driven"]), (f"second {self.at + 1} held in gear 4", self.at + 1, True))
        self.assertEqual((second["first"], second["driven"]), (self.at, True))
        self.assertGreater(first["ahead"], 0)
        self.assertTrue(any(each[0] <= self.at + 1 <= each[1] for each in first["changed"]), first)
        self.assertRight()

    def test_beyond_the_lead_time_it_does_not_ask(self) -> None:
        self.hold(self.at + 5, "4")
        self.assertEqual((self.held(self.at + 5), self.js(ASKED)), (4, ""))
        self.write("lead", "10")
        self.hold(self.at + 6, "4")
        self.assertEqual((self.held(self.at + 6), self.js(ASKED)), (0, f"Second {self.at + 6} is closer than 10 s to the driver, who may not see it come."))

    def test_behind_the_driver_it_is_the_job_s_alone(self) -> None:
        self.hold(self.at - 10, "3")
        self.assertEqual((self.held(self.at - 10), self.js(ASKED)), (3, ""))
        self.assertIn("It was not driven: the driver is past it.", self.text("status"))
        self.assertEqual([each["driven"] for each in self.edits()], [False])
        self.assertLess(self.edits()[0]["ahead"], 0)

    def test_without_a_run_nobody_is_asked(self) -> None:
        self.click("stop")
        self.js(ANSWER, "Discard")
        self.hold(self.at + 1, "4")
        self.assertEqual((self.held(self.at + 1), self.js(ASKED)), (4, ""))

    def test_the_driver_is_told_for_two_seconds(self) -> None:
        self.hold(767, "4")
        until("he is told", lambda: self.js(DRIVER, "news") == "4 from 12:47, held", 2)
        until("no longer", lambda: self.js(DRIVER, "news") == "", 4)
        self.hold(self.at - 10, "3")
        self.assertEqual(self.js(DRIVER, "news"), "", "what lies behind him is not told")

    def test_the_lead_time_is_on_the_road(self) -> None:
        picture = "return gearcardPage.driver().document.querySelector('canvas').toDataURL()"
        frames = "const done = arguments[0], w = gearcardPage.driver(); w.requestAnimationFrame(() => w.requestAnimationFrame(() => done()))"
        seen = []
        for lead in ("0", "3", "10"):
            self.write("lead", lead)
            self.browser.execute_async_script(frames)
            seen.append(self.js(picture))
        self.assertEqual(len(set(seen)), 3)
