"""The looks that a trial found wrong: the browser's parts in the dark, what wraps or is cut, colours of the user's own, 200 per cent, Escape in the vehicle."""

from __future__ import annotations

from selenium.webdriver.common.keys import Keys

from .browser import OUT, PageTest, until

BOX = "const box = document.querySelector(arguments[0]).getBoundingClientRect(); return [box.left, box.top, box.right, box.bottom]"

#: The places where text is drawn on a canvas, while it draws.
TEXTS = """
const drawn = [], pen = CanvasRenderingContext2D.prototype, real = pen.fillText;
pen.fillText = function (words, x, y) {
  const { width } = this.measureText(words), left = this.textAlign === 'right' ? x - width : x;
  drawn.push([words, left, y - 8, left + width, y]);
  return real.call(this, words, x, y);
};
document.querySelector('#vehicle [name=curve]').dispatchEvent(new Event('input'));
pen.fillText = real;
return drawn;
"""

#: What is drawn narrower than two pixels of the page in one frame, as the bars of a dense trace are, and of that what is narrower than one.
BARS = """
const done = arguments[0], pen = CanvasRenderingContext2D.prototype, real = pen.fillRect;
let bars = 0, narrow = 0;
pen.fillRect = function (x, y, width, height) {
  if (this.canvas.id === 'picture' && width < 2) { bars++; if (width < 1) narrow++; }
  return real.call(this, x, y, width, height);
};
window.dispatchEvent(new Event('resize'));
document.getElementById('whole').click();
requestAnimationFrame(() => requestAnimationFrame(() => { pen.fillRect = real; done([bars, narrow]); }));
"""


class Looks(PageTest):
    def style(self, selector: str, name: str, part: str = "") -> str:
        script = "return getComputedStyle(document.querySelector(arguments[0]), arguments[2] || null).getPropertyValue(arguments[1])"
        value: str = self.js(script, selector, name, part)
        return value

    def test_the_browser_s_own_parts_follow_the_theme(self) -> None:
        for media in ("light", "dark"):
            self.cdp("Emulation.setEmulatedMedia", features=[{"name": "prefers-color-scheme", "value": media}])
            self.open()
            for _ in range(2):
                dark = self.js("return document.documentElement.classList.contains('dark')")
                self.assertEqual(self.style("html", "color-scheme"), "dark" if dark else "light")
                self.js("document.getElementById('theme').click()")
        self.cdp("Emulation.setEmulatedMedia", features=[])

    def test_at_1280_by_800(self) -> None:
        self.choose(964)
        first, last = self.js(BOX, "#from"), self.js(BOX, "#range button")
        self.assertLess(abs(first[1] - last[1]), 6, "one row")
        panel = self.js(BOX, ".panel")
        self.assertLessEqual(last[2], panel[2] - 10)
        self.assertLessEqual(self.js(BOX, "#summary tr:last-child")[3], 765, "the whole summary is seen")
        start, there = self.js(BOX, "#start"), self.js(BOX, "#run-from")
        self.assertLess(abs(start[1] - there[1]), 6, "the run's controls are one row")
        self.js("document.getElementById('why').open = true")
        until("it is shown", lambda: self.js("return document.querySelectorAll('#why-gears tr').length") == 6)
        rows = self.js("return Array.from(document.querySelectorAll('#why-gears tr'), (row) => row.getBoundingClientRect().height)")
        self.assertLess(max(rows), 30, "a line each")
        self.assertIn("past nmax", self.text("why-gears"))
        self.assertLessEqual(self.js(BOX, "#why-table")[2], panel[2] - 10)

    def test_fields_of_the_longest_trace(self) -> None:
        self.take_longest()
        self.choose(16381, 16382)
        for name in ("from", "to"):
            room, wanted = self.js("const field = document.getElementById(arguments[0]); return [field.clientWidth, field.scrollWidth]", name)
            self.assertLessEqual(wanted, room, name)

    def test_the_curve_s_preview_writes_nothing_over_another(self) -> None:
        self.click("vehicle-open")
        drawn = self.js(TEXTS)
        self.assertIn("kW", [words for words, *_ in drawn])
        for k, (a, *box) in enumerate(drawn):
            for b, *other in drawn[k + 1 :]:
                apart = box[2] <= other[0] or other[2] <= box[0] or box[3] <= other[1] or other[3] <= box[1]
                self.assertTrue(apart, (a, b))

    def test_colours_of_the_user_s_own(self) -> None:
        self.cdp("Emulation.setEmulatedMedia", features=[{"name": "forced-colors", "value": "active"}])
        self.open()
        for each in ("speed", "gear", "clutch", "held", "now"):
            self.assertNotIn(self.style(f".legend .{each}", "background-color", "::before"), ("rgba(0, 0, 0, 0)", self.style("body", "background-color")), each)
        self.browser.save_screenshot(str(OUT / "forced-colours.png"))
        self.cdp("Emulation.setEmulatedMedia", features=[])

    def test_at_200_per_cent_the_trace_is_a_line(self) -> None:
        self.cdp("Emulation.setDeviceMetricsOverride", width=640, height=400, deviceScaleFactor=2, mobile=False)
        bars, _ = self.browser.execute_async_script(BARS)
        self.assertLess(bars, 100, "only what is narrow besides")
        self.take_longest()
        _, narrow = self.browser.execute_async_script(BARS)
        self.assertGreater(narrow, 1000, "a bar for each pixel of the screen")

    def test_escape_in_the_vehicle_asks(self) -> None:
        opened = "return document.getElementById('vehicle').open"
        self.js("window.confirm = (words) => { window.asked = words; return window.answer === true }")
        self.click("vehicle-open")
        self.keys(Keys.ESCAPE)
        self.assertEqual((self.js(opened), self.js("return window.asked ?? ''")), (False, ""), "nothing was typed")
        self.click("vehicle-open")
        field = self.browser.find_element("css selector", "#vehicle [name=idle]")
        field.clear()
        field.send_keys("760")
        self.keys(Keys.ESCAPE)
        self.assertEqual((self.js(opened), field.get_attribute("value")), (True, "760"))
        self.assertRegex(self.js("return window.asked"), "^Discard")
        self.js("window.answer = true")
        self.keys(Keys.ESCAPE)
        self.assertFalse(self.js(opened))

    def test_pictures(self) -> None:
        """To be looked at: both themes, in three sizes and at 200 per cent."""
        self.choose(760, 768)
        for theme in ("light", "dark"):
            self.js("if (document.documentElement.classList.contains('dark') !== (arguments[0] === 'dark')) document.getElementById('theme').click()", theme)
            for width, height, sharp in ((800, 600, 1), (1280, 800, 1), (1920, 1080, 1), (640, 400, 2)):
                self.cdp("Emulation.setDeviceMetricsOverride", width=width, height=height, deviceScaleFactor=sharp, mobile=False)
                self.browser.execute_async_script("const done = arguments[0]; requestAnimationFrame(() => requestAnimationFrame(() => setTimeout(done, 50)))")
                path = OUT / f"chromium-{theme}-{width * sharp}-{100 * sharp}.png"
                self.browser.save_screenshot(str(path))
                self.assertGreater(path.stat().st_size, 10000)
                self.assertLessEqual(self.js("return document.documentElement.scrollWidth"), width)
