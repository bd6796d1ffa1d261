"""What the page is: one file that asks nothing of anybody, for everyone's eyes, hands and paper."""

from __future__ import annotations

import base64
import re

from selenium.webdriver.common.keys import Keys

from .browser import OUT, PAGE, TOP, PageTest, until

#: The lowest contrast of the texts that are seen, and which text that is; a text's ground is that of the nearest ancestor that has one.
CONTRAST = """
const channel = (c) => { c /= 255; return c <= 0.03928 ? c / 12.92 : ((c + 0.055) / 1.055) ** 2.4 };
const light = ([r, g, b]) => 0.2126 * channel(r) + 0.7152 * channel(g) + 0.0722 * channel(b);
const parts = (colour) => { const found = colour.match(/[\\d.]+/g).map(Number); return found.length < 4 ? [...found, 1] : found };
const ratio = (a, b) => { const [x, y] = [light(a), light(b)].sort((p, q) => q - p); return (x + 0.05) / (y + 0.05) };
const ground = (element) => {
  for (let at = element; at; at = at.parentElement) { const c = parts(getComputedStyle(at).backgroundColor); if (c[3] === 1) return c }
  return [255, 255, 255, 1];
};
let lowest = [99, '', 0];
const walker = document.createTreeWalker(document.body, NodeFilter.SHOW_TEXT);
let count = 0;
while (walker.nextNode()) {
  const element = walker.currentNode.parentElement;
  if (!walker.currentNode.data.trim() || ['SCRIPT', 'STYLE'].includes(element.tagName)) continue;
  const box = element.getBoundingClientRect();
  if (box.width < 2 || box.height < 2 || getComputedStyle(element).visibility === 'hidden') continue;
  count++;
  const found = ratio(parts(getComputedStyle(element).color), ground(element));
  if (found < lowest[0]) lowest = [found, walker.currentNode.data.trim().slice(0, 40)];
}
const style = getComputedStyle(document.documentElement);
const named = (name) => { const found = style.getPropertyValue(name).trim(); const n = parseInt(found.slice(1), 16); return [n >> 16, n >> 8 & 255, n & 255] };
// What is written on the canvas.
for (const ink of ['--ink', '--muted', '--danger', '--held']) for (const paper of ['--surface', '--band']) {
  const found = ratio(named(ink), named(paper));
  if (found < lowest[0]) lowest = [found, `${ink} on ${paper}`];
}
return [lowest[0], lowest[1], count];
"""


#: What would lead out of the page, or keep something; the record of a run alone is kept, at one place.
OUTSIDE = r"https?:|//[a-z]|\bwww\.|@import|url\(|src=|<link|fetch\(|XMLHttp|WebSocket|sessionStorage|indexedDB|document\.cookie"

#: Everything that a hand can reach, by its id or its words.
CONTROLS = """
const all = document.querySelectorAll('header button, header summary, main button, main input, main select, #chart');
return Array.from(all, (each) => each.id || each.textContent).filter((each) => each);
"""


class File(PageTest):
    def test_one_file_with_no_address_and_nothing_fetched(self) -> None:
        # The engine and the job stand there as base64, in which anything may be read.
        text = re.sub(r'(<script type="text/plain"[^>]*>)[^<]*', r"\1", PAGE.read_text(encoding="utf-8"))
        self.assertLessEqual(PAGE.stat().st_size, 400 * 1024)
        self.assertEqual(re.findall(OUTSIDE, text), [])
        self.assertEqual(len(re.findall("localStorage", text)), 1)
        entries = self.js("return performance.getEntriesByType('resource').map((each) => each.name)")
        self.assertEqual(entries, [])

    def test_the_policy_lets_nothing_else_run(self) -> None:
        policy = self.js("return document.querySelector('meta[http-equiv]').content")
        hashed = "'sha256-[^']+'"
        self.assertRegex(policy, f"^default-src 'none'; script-src {hashed} 'wasm-unsafe-eval'; style-src {hashed}; base-uri 'none'; form-action 'none'$")
        added = (
            "const script = document.createElement('script'); script.textContent = 'window.ran = true'; "
            "document.body.append(script); return window.ran === true"
        )
        self.assertFalse(self.js(added))
        said = self.logged()
        self.assertTrue(any("Content Security Policy" in each for each in said), said)

    def test_it_says_what_is_proved_and_which_version_it_is(self) -> None:
        self.assertRegex(self.text("made"), r"^gearcard [0-9.]+, commit [0-9a-f]{7,}")
        self.assertIn((TOP / "VERSION").read_text().strip(), self.text("made"))
        self.js("document.getElementById('about-open').click()")
        words = self.element("about").text
        for each in ("Proved in Rattle", "Trusted", "Not proved", "Nothing is sent and nothing is kept but the record of a run"):
            self.assertIn(each, words)
        self.assertEqual(self.js("return Array.from(document.querySelectorAll('a[href]'), (link) => link.getAttribute('href'))"), ["#chart"])


class Everyone(PageTest):
    def test_contrast(self) -> None:
        for theme in ("light", "dark"):
            for dialog in ("", "vehicle", "trace", "keys", "about"):
                if dialog:
                    self.js("document.getElementById(`${arguments[0]}-open`).click()", dialog)
                else:
                    self.choose(0)
                    self.keys("2")
                lowest, words, count = self.js(CONTRAST)
                self.assertGreater(count, 20)
                self.assertGreaterEqual(lowest, 4.5, f"{theme} {dialog}: {words}")
                if dialog:
                    self.js("document.getElementById(arguments[0]).close()", dialog)
            print(f"web: lowest contrast of the {theme} page {lowest:.1f}")
            self.js("document.getElementById('theme').click()")
        self.click("driver-open")
        main = self.browser.current_window_handle
        other = until("there is a second window", lambda: next((each for each in self.browser.window_handles if each != main), None))
        self.browser.switch_to.window(other)
        for _ in range(2):
            until("it is drawn", lambda: self.text("gear"))
            lowest, words, _ = self.js(CONTRAST)
            self.assertGreaterEqual(lowest, 4.5, words)
            self.click("theme")

    def test_everything_has_a_role_and_a_name(self) -> None:
        self.cdp("Accessibility.enable")
        wanted = {"button", "textbox", "checkbox", "radio", "combobox", "slider", "dialog", "img", "table", "spinbutton", "menuitem"}
        for dialog in ("", "vehicle", "trace", "keys", "about"):
            if dialog:
                self.js("document.getElementById(`${arguments[0]}-open`).click()", dialog)
            nodes = [node for node in self.cdp("Accessibility.getFullAXTree")["nodes"] if not node.get("ignored")]
            roles = [(node["role"]["value"], node.get("name", {}).get("value", "")) for node in nodes]
            without = [role for role, name in roles if role in wanted - {"table"} and not name.strip()]
            self.assertEqual(without, [], dialog)
            self.assertGreater(sum(role in wanted for role, _ in roles), 1)
            if dialog:
                self.js("document.getElementById(arguments[0]).close()", dialog)
        self.cdp("Accessibility.disable")

    def test_the_keyboard_reaches_everything(self) -> None:
        wanted = set(self.js(CONTROLS))
        hidden = {"csv", "svg", "print", "record-json", "record-csv", "keys-open", "about-open", "theme", "undo", "redo", "stop"}
        self.js("document.body.focus()")
        seen = set()
        for _ in range(60):
            self.keys(Keys.TAB)
            seen.add(self.js("return document.activeElement.id || document.activeElement.textContent"))
        self.assertEqual(wanted - seen, hidden, "a shut menu and what is not possible now are passed over")

    def test_a_job_by_keys_alone(self) -> None:
        self.js("document.getElementById('chart').focus()")
        self.keys(*([Keys.PAGE_DOWN] * 2), "4", "m", "15.0", Keys.ENTER, Keys.ESCAPE, "w", "t", "+", "-")
        state = self.present()
        self.assertEqual((state["holds"][60], state["speeds"][60]), (4, 150))
        self.chord(Keys.CONTROL, "z")
        self.chord(Keys.CONTROL, "z")
        self.assertEqual(self.present()["holds"][60], 0)
        self.assertRight()

    def test_a_narrow_window(self) -> None:
        self.resize(360, 740)
        self.frame()
        self.assertEqual(self.js("return document.documentElement.scrollWidth"), 360)
        self.choose(60)
        self.js("document.querySelector('#gears button:nth-child(3)').click()")
        self.assertEqual(self.present()["holds"][60], 3)
        for dialog in ("vehicle", "trace", "keys", "about"):
            self.js("document.getElementById(`${arguments[0]}-open`).click()", dialog)
            widths = "[box.scrollWidth - box.clientWidth, box.getBoundingClientRect().width]"
            wide = self.js(f"const box = document.getElementById(arguments[0]); return {widths}", dialog)
            self.assertEqual((wide[0], wide[1] <= 360), (0, True), dialog)
            self.js("document.getElementById(arguments[0]).close()", dialog)

    def test_it_prints_the_picture(self) -> None:
        data = base64.b64decode(self.cdp("Page.printToPDF", printBackground=True)["data"])
        (OUT / "page.pdf").write_bytes(data)
        self.assertTrue(data.startswith(b"%PDF") and len(data) > 20000, len(data))
        self.cdp("Emulation.setEmulatedMedia", media="print")
        shown = "const shown = (id) => getComputedStyle(document.querySelector(id)).display !== 'none'"
        seen = self.js(f"{shown}; return [shown('main'), shown('header'), shown('#paper')]")
        rows = self.js("return document.getElementById('paper').shadowRoot.querySelectorAll('g.row').length")
        self.cdp("Emulation.setEmulatedMedia", media="")
        self.assertEqual((seen, rows), ([False, False, True], 6))

    def frame(self) -> None:
        self.browser.execute_async_script("const done = arguments[0]; requestAnimationFrame(() => requestAnimationFrame(() => setTimeout(done, 50)))")

    def test_pictures(self) -> None:
        self.choose(760, 768)
        self.keys("4", "t")
        self.click("tolerances")
        for width, height in ((1280, 800), (360, 740)):
            self.resize(width, height)
            self.js("window.scrollTo(0, 0)")
            # Until what changed is no longer marked, and the frame after that.
            frames = -1
            while frames != (frames := self.js("return gearcardPage.frames()")):
                self.frame()
            path = OUT / f"engineer-{width}x{height}.png"
            self.browser.save_screenshot(str(path))
            self.assertGreater(path.stat().st_size, 10000)
