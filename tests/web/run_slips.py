"""A run is not lost by a slip: leaving asks, another job, trace or vehicle waits, and what the browser kept of a page that crashed is offered."""

from __future__ import annotations

import json
import time

from .browser import DOWNLOADS, TOP, PageTest, until
from .files import DROP
from .run_window import GOOD, START

EXAMPLES = TOP / "examples"
WAITS = "a run is on, and would be lost: “End run” ends it"
LEAVING = "const leaving = new Event('beforeunload', {cancelable: true}); window.dispatchEvent(leaving); return leaving.defaultPrevented"
ASKED = "return document.getElementById('ask').hidden ? '' : document.getElementById('ask-words').textContent"
ANSWER = "Array.from(document.querySelectorAll('#ask-answers button')).find((each) => each.textContent === arguments[0]).click()"


class Slips(PageTest):
    def begin(self) -> None:
        self.click("driver-open")
        until("it is filled", lambda: self.js(GOOD))
        self.js(START, "10")
        until("some seconds are shown", lambda: len(self.js("return gearcardPage.record().shown")) > 5)

    def waited(self, name: str) -> None:
        until("it is said", self.alert)
        self.assertIn(WAITS, self.alert())
        self.assertEqual((self.present()["name"], self.present()["vehicle"], self.present()["speeds"]), self.before, name)
        self.assertFalse(self.js("return document.querySelector('dialog[open]') !== null"), name)
        self.js("document.getElementById('alert').hidden = true; document.getElementById('alert').textContent = ''")

    def test_what_would_lose_a_run_waits(self) -> None:
        state = self.present()
        self.before = (state["name"], state["vehicle"], state["speeds"])
        self.choose(5)
        self.mend("1.0")
        self.click("undo")
        self.begin()
        for name in ("van.job", "loaded.export"):
            self.take(EXAMPLES / name)
            self.waited(name)
            self.js(DROP, name, list((EXAMPLES / name).read_bytes()))
            self.waited(f"{name}, dropped")
        self.js(DROP, "drive.csv", list(b"second,speed\n0,0\n1,5\n2,0\n"))
        self.waited("a table")
        for name in ("trace-open", "vehicle-open"):
            self.click(name)
            self.waited(name)
        self.assertTrue(self.js("return gearcardPage.record().ended === null"))
        self.click("start")
        self.take(EXAMPLES / "van.job")
        self.waited("a pause is no end")
        self.click("stop")
        self.take(EXAMPLES / "van.job")
        until("it is open", lambda: self.present()["name"] == "van.job")

    def test_undoing_a_vehicle_amid_a_run_waits_too(self) -> None:
        self.js("document.getElementById('vehicle-open').click(); document.getElementById('vehicle-form').elements.tm.value = '1450'")
        self.js("document.getElementById('vehicle-form').requestSubmit()")
        state = self.present()
        self.assertEqual(state["vehicle"]["tm"], 1450)
        self.before = (state["name"], state["vehicle"], state["speeds"])
        self.begin()
        self.click("undo")
        self.waited("undo")
        self.click("stop")
        self.click("undo")
        self.assertEqual(self.present()["vehicle"]["tm"], 1400)

    def test_leaving_asks(self) -> None:
        self.assertFalse(self.js(LEAVING))
        self.begin()
        self.assertTrue(self.js(LEAVING))
        self.click("start")
        self.assertTrue(self.js(LEAVING), "a pause is no end")
        self.click("stop")
        self.assertTrue(self.js(LEAVING), "the record is not saved")
        self.js(ANSWER, "Discard")
        self.assertFalse(self.js(LEAVING))

    def test_what_the_browser_kept_of_a_crash_is_offered(self) -> None:
        self.begin()
        time.sleep(1.5)
        shown = len(self.js("return gearcardPage.record().shown"))
        # As a crash: the page ends, and is asked nothing.
        self.load(self.page)
        self.assertRegex(self.js(ASKED), "^A run of class-3.job, begun .* UTC, ended with its page. Its record was kept.$")
        path = DOWNLOADS / "class-3.run.json"
        path.unlink(missing_ok=True)
        self.js(ANSWER, "Save record")
        until("it is saved", path.exists)
        kept = json.loads(until("it is whole", path.read_text))
        self.assertGreater(len(kept["shown"]), 5)
        self.assertGreaterEqual(len(kept["shown"]) + 20, shown, "at most a second is missing")
        self.load(self.page)
        self.assertEqual(self.js(ASKED), "", "it is offered until it is saved")

    def test_where_the_browser_keeps_nothing_it_is_said(self) -> None:
        script = "Object.defineProperty(window, 'localStorage', { get() { throw new DOMException('no', 'SecurityError') } })"
        added = self.cdp("Page.addScriptToEvaluateOnNewDocument", source=script)["identifier"]
        self.load(self.page)
        self.cdp("Page.removeScriptToEvaluateOnNewDocument", identifier=added)
        self.click("start")
        self.assertRegex(self.alert(), "^This browser keeps nothing for a page from a file: ")
        self.click("stop")
        self.js(ANSWER, "Discard")

    def test_the_end_of_the_trace_ends_the_run_and_asks(self) -> None:
        self.take(EXAMPLES / "car-z.job")
        until("it is open", lambda: self.present()["name"] == "car-z.job")
        self.click("driver-open")
        until("it is filled", lambda: self.js(GOOD))
        self.js(START, "2")
        until("it asks", lambda: self.js(ASKED))
        self.assertEqual(self.js(ASKED), "The run of car-z.job has ended; its record has 5 seconds that the driver was shown.")
        self.assertTrue(self.element("stop").get_property("disabled"))
        for name in ("car-z.run.json", "car-z.run.csv"):
            (DOWNLOADS / name).unlink(missing_ok=True)
        self.js(ANSWER, "Save record")
        for name in ("car-z.run.json", "car-z.run.csv"):
            until("it is saved", (DOWNLOADS / name).exists)
        self.assertEqual(self.js(ASKED), "")
