"""The page in other engines than Chromium's: it opens, works jobs that nobody wrote it for, holds, undoes and draws, and so does the driver's window."""

from __future__ import annotations

import random
import unittest
from typing import TYPE_CHECKING, Any

from tests.tools import seeded

from . import others
from .browser import OUT, PAGE, PRESENT, RIGHT, TOP, gearcard, until
from .jobs import ANSWERS, answers

#: Jobs that are compared in each engine.
JOBS = 40

#: How many colours a canvas has, and how many of its pixels are drawn.
DRAWN = """
const canvas = document.getElementById(arguments[0]);
const { data } = canvas.getContext('2d').getImageData(0, 0, canvas.width, canvas.height), seen = new Set();
let count = 0;
for (let k = 0; k < data.length; k += 4) if (data[k + 3]) { count++; seen.add(data[k] << 16 | data[k + 1] << 8 | data[k + 2]); }
return [seen.size, count / (canvas.width * canvas.height)];
"""

FRAMES = "const done = arguments[arguments.length - 1]; requestAnimationFrame(() => requestAnimationFrame(() => setTimeout(done, 50)))"

CHOOSE = """
for (const [id, value] of [['from', arguments[0]], ['to', arguments[1]]]) document.getElementById(id).value = value;
document.getElementById('range').requestSubmit();
"""

#: The tests are unittest's in the classes of the engines alone: by themselves they would be run without an engine.
if TYPE_CHECKING:
    Test = unittest.TestCase
else:
    Test = object


class Engine(Test):
    """The tests, for each engine."""

    kind: type
    browser: others.WebKit | others.Firefox

    def setUp(self) -> None:
        if not PAGE.exists():
            OUT.mkdir(parents=True, exist_ok=True)
            self.assertEqual(gearcard("page", "-o", PAGE).returncode, 0)
        self.browser = others.started(self.kind)
        self.main = self.browser.window()
        self.open()

    def open(self) -> None:
        self.browser.get(PAGE.as_uri())
        until("the page is ready", lambda: self.browser.js("return document.documentElement.dataset.ready !== undefined"))

    def tearDown(self) -> None:
        for each in self.browser.windows():
            if each != self.main:
                self.browser.switch(each)
                self.browser.close()
        self.browser.switch(self.main)

    def text(self, name: str) -> str:
        text: str = self.browser.js("return document.getElementById(arguments[0]).textContent", name)
        return text

    def present(self) -> dict[str, Any]:
        state: dict[str, Any] = self.browser.js(PRESENT)
        return state

    def test_it_opens_on_the_cycle_and_draws_it(self) -> None:
        self.browser.resize(1280, 900)
        self.browser.later(FRAMES)
        card = (TOP / "examples/class-3.txt").read_text().splitlines()[1:]
        rows = [[f"{byte % 16}", "down" if byte >= 16 else "up"] for byte in self.present()["card"]]
        self.assertEqual(rows, [line.split()[2:] for line in card])
        for name, colours in (("picture", 5), ("overview", 3)):
            found, share = self.browser.js(DRAWN, name)
            self.assertGreater(found, colours, name)
            self.assertGreater(share, 0.02, name)
        self.assertEqual(self.text("alert"), "")

    def test_jobs_that_nobody_wrote_it_for(self) -> None:
        r, accepted = random.Random(49), 0
        for seed in range(1000, 1000 + JOBS):
            job = seeded.job(seed)
            second = r.randrange(len(job.speeds))
            asked = (second, r.randint(1, len(job.vehicle.ratios)), max(0, job.speeds[second] + r.randint(-40, 40)))
            found = self.browser.js(ANSWERS, list(seeded.encoded(job)), *asked)
            self.assertEqual(found, answers(job, *asked), f"seed {seed}")
            accepted += len(found) > 1
        print(f"web: {JOBS} seeded jobs in {self.kind.__name__}, {accepted} with a card: no byte differs from the native library's")
        self.assertGreater(accepted, JOBS // 2)

    def test_holds_mends_undoes_and_refuses(self) -> None:
        before = self.present()
        self.browser.js(CHOOSE, "60", "60")
        self.browser.type("chart", "4")
        self.assertEqual((self.present()["holds"][60], self.text("fact-gear")), (4, "4"))
        self.browser.js(CHOOSE, "700", "720")
        self.browser.type("chart", "3")
        self.browser.js(CHOOSE, "705", "705")
        self.browser.js("document.getElementById('speed').value = '20.5'; document.getElementById('mend').requestSubmit()")
        self.assertEqual((self.present()["holds"][720], self.present()["speeds"][705]), (3, 205))
        self.assertTrue(self.browser.js(RIGHT))
        self.browser.js(CHOOSE, "1700", "1700")
        self.browser.type("chart", "1")
        self.assertRegex(self.text("alert"), "^refused 9 at 1700: ")
        self.assertEqual(self.present()["holds"][1700], 0)
        for _ in range(3):
            self.browser.click("undo")
        self.assertEqual(self.present(), before)
        self.browser.click("redo")
        self.assertEqual(self.present()["holds"][60], 4)
        self.assertTrue(self.browser.js(RIGHT))

    def test_the_driver_s_window(self) -> None:
        self.browser.click("driver-open")
        other = until("there is a second window", lambda: next((each for each in self.browser.windows() if each != self.main), None))
        self.browser.js(CHOOSE, "60", "60")
        self.browser.click("run-from")
        self.browser.type("chart", "4")
        self.browser.switch(other)
        shown = "return ['gear', 'hold', 'clutch'].map((id) => document.getElementById(id)?.textContent)"
        until("the hold is shown", lambda: self.browser.js(shown) == ["4", "HELD", "Clutch up"])
        self.browser.picture(OUT / f"{self.kind.__name__.lower()}-driver.png")

    def test_pictures(self) -> None:
        """To be looked at: both themes, in three sizes."""
        self.browser.js(CHOOSE, "760", "768")
        for theme in ("light", "dark"):
            self.browser.js("if (document.documentElement.matches('.dark') !== (arguments[0] === 'dark')) document.getElementById('theme').click()", theme)
            for width, height in ((800, 600), (1280, 800), (1900, 1000)):
                self.browser.resize(width, height)
                self.browser.later(FRAMES)
                path = OUT / f"{self.kind.__name__.lower()}-{theme}-{width}.png"
                self.browser.picture(path)
                self.assertGreater(path.stat().st_size, 10000)
                self.assertLessEqual(self.browser.js("return document.documentElement.scrollWidth - innerWidth"), 0)


class InWebKit(Engine, unittest.TestCase):
    kind = others.WebKit


class InFirefox(Engine, unittest.TestCase):
    kind = others.Firefox
