"""The driver's window in a run, from a file: loaded anew, closed, or not given back. He sees the present second again, or the engineer is told in red."""

from __future__ import annotations

import time
import unittest
from typing import Any

from . import others
from .browser import OUT, PAGE, PageTest, gearcard, until

#: Times that the window is loaded anew in one run.
RELOADS = 20

#: Looks in every frame of the engineer's window, and in every tenth of a second: for a window that has shown the same second for two and a half of the wall's
#: while no red line stands, and for a gear or a clutch that the card has not at the second that is shown.
WATCH = """
window.seen = { looks: 0, frames: 0, blind: 0, wrong: 0, first: '', blindest: 0 };
const cards = gearcardPage.present().card;
let last = performance.now(), before = '';
const look = () => {
  const { seen } = window, red = !document.getElementById('lost').hidden;
  seen.looks++;
  let page;
  try { page = gearcardPage.driver()?.document; } catch { page = undefined; }
  const gear = page?.getElementById('gear')?.textContent, second = page?.body?.dataset.second;
  if (gear && second !== undefined) {
    seen.frames++;
    const byte = cards[Number(second)], wanted = byte % 16 ? String(byte % 16) : 'N';
    if (gear !== wanted || page.getElementById('clutch').textContent !== (byte >= 16 ? 'Clutch down' : 'Clutch up')) {
      seen.wrong++;
      seen.first ||= `second ${second}: ${gear}, and the card has ${byte}`;
    }
    if (second !== before) { last = performance.now(); before = second; }
  }
  const age = performance.now() - last;
  seen.blindest = Math.max(seen.blindest, age);
  if (age > 2500 && !red) seen.blind++;
};
setInterval(look, 100);
const each = () => { look(); requestAnimationFrame(each); };
requestAnimationFrame(each);
"""

#: Whether the driver's window shows the present second.
GOOD = """
try {
  const page = gearcardPage.driver().document, second = Number(page.body.dataset.second);
  return page.getElementById('gear').textContent !== '' && Math.abs(second - gearcardPage.at()) < 3;
} catch { return false }
"""

START = """
const rate = document.getElementById('rate');
rate.value = arguments[0];
rate.dispatchEvent(new Event('change'));
document.getElementById('start').click();
"""


def told(name: str, longest: float, seen: dict[str, Any]) -> str:
    looks = f"{seen['frames']} looks, {seen['wrong']} wrong, {seen['blind']} blind unsaid"
    return f"web: {RELOADS} reloads in {name}: there again after at most {longest * 1000:.0f} ms; {looks}"


class Reloaded(PageTest):
    """In Chromium, where a window that was loaded anew is another origin's."""

    def setUp(self) -> None:
        super().setUp()
        self.main = self.browser.current_window_handle
        self.click("driver-open")
        until("it is filled", lambda: self.js(GOOD))

    def other(self) -> str:
        found: str = until("there is a second window", lambda: next((each for each in self.browser.window_handles if each != self.main), None))
        return found

    def reload(self) -> None:
        self.browser.switch_to.window(self.other())
        self.browser.refresh()
        self.browser.switch_to.window(self.main)

    def events(self) -> list[str]:
        return [each["event"] for each in self.js("return gearcardPage.record().events")]

    def test_20_reloads_in_one_run(self) -> None:
        self.js(WATCH)
        self.js(START, "2")
        longest = 0.0
        for _ in range(RELOADS):
            self.reload()
            begun = time.monotonic()
            until("it shows the present second", lambda: self.js(GOOD))
            longest = max(longest, time.monotonic() - begun)
        seen = self.js("return window.seen")
        print(told("Chromium", longest, seen))
        self.assertEqual((seen["wrong"], seen["first"], seen["blind"]), (0, "", 0))
        self.assertGreater(seen["frames"], RELOADS)
        self.assertLess(longest, 5)
        self.assertTrue(self.js("return gearcardPage.record().ended === null"))

    def test_a_window_that_is_not_given_back_is_said_in_red_and_offered(self) -> None:
        self.js(START, "1")
        self.js("window.given = window.open; window.open = () => null")
        self.reload()
        until("it is said", lambda: self.js("return !document.getElementById('lost').hidden"), 5)
        self.assertRegex(self.text("lost-words"), "^The driver sees nothing")
        self.browser.save_screenshot(str(OUT / "run-lost.png"))
        colour = self.js("return getComputedStyle(document.getElementById('lost')).backgroundColor")
        red, green, blue = (int(each) for each in colour[4:-1].split(","))
        self.assertGreater(red, 100 + max(green, blue))
        self.js("window.open = window.given")
        self.click("driver-again")
        until("it is there", lambda: self.js(GOOD))
        until("it is no longer said", lambda: self.js("return document.getElementById('lost').hidden"))
        self.assertEqual(self.events()[-2:], ["lost", "found"])

    def test_a_window_that_is_closed(self) -> None:
        self.js(START, "1")
        self.browser.switch_to.window(self.other())
        self.browser.close()
        self.browser.switch_to.window(self.main)
        until("it is said", lambda: self.js("return !document.getElementById('lost').hidden"), 5)
        self.click("driver-open")
        until("it is there", lambda: self.js(GOOD))
        until("it is no longer said", lambda: self.js("return document.getElementById('lost').hidden"))
        self.assertEqual(self.events()[-2:], ["lost", "found"])

    def test_without_a_run_nothing_is_said(self) -> None:
        self.browser.switch_to.window(self.other())
        self.browser.close()
        self.browser.switch_to.window(self.main)
        time.sleep(1)
        self.assertTrue(self.js("return document.getElementById('lost').hidden"))


class ReloadedInWebKit(unittest.TestCase):
    def test_20_reloads_in_one_run(self) -> None:
        if not PAGE.exists():
            OUT.mkdir(parents=True, exist_ok=True)
            self.assertEqual(gearcard("page", "-o", PAGE).returncode, 0)
        browser = others.started(others.WebKit)
        main = browser.window()
        browser.get(PAGE.as_uri())
        until("the page is ready", lambda: browser.js("return document.documentElement.dataset.ready !== undefined"))
        browser.click("driver-open")
        other = until("there is a second window", lambda: next((each for each in browser.windows() if each != main), None))
        until("it is filled", lambda: browser.js(GOOD))
        browser.js(WATCH)
        browser.js(START, "2")
        longest = 0.0
        for count in range(1, RELOADS + 1):
            browser.switch(other)
            browser.reload()
            browser.switch(main)
            begun = time.monotonic()
            until("it shows the present second", lambda: browser.js(GOOD))
            longest = max(longest, time.monotonic() - begun)
            # A browser may let a window that is behind another look seldom.
            until("it was looked at", lambda: browser.js("return window.seen.frames") >= count)
        seen = browser.js("return window.seen")
        browser.js("document.getElementById('stop').click()")
        browser.js("localStorage.clear()")
        browser.switch(other)
        browser.close()
        browser.switch(main)
        print(told("WebKit", longest, seen))
        self.assertEqual((seen["wrong"], seen["first"], seen["blind"]), (0, "", 0))
        self.assertGreaterEqual(seen["frames"], RELOADS)
        self.assertLess(longest, 5)
