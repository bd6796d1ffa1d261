"""The driver's window: one state and one clock with the engineer's. The fault that began all this is a test here."""

from __future__ import annotations

import time

from .browser import OUT, PageTest, until

#: Edits of the fault test.
EDITS = 500

#: The driver's window from the page's script.
OTHER = "gearcardPage.driver()"

#: While the run plays, holds, releases and mends the very second that is being driven and the next, at random moments, by the page's own fields and keys. A
#: look is taken in every frame of the driver's window, behind the page's own drawing of it: what is shown must be of the card of the present holds and
#: speeds, worked afresh.
FAULT = """
const [edits, done] = arguments;
const other = %s, by = (id) => document.getElementById(id);
let seed = 5, frames = 0, wrong = 0, heldFrames = 0, made = 0, refused = 0, changed = 0, unkept = 0, seen = new Set(), first = '';
const below = (most) => { seed = (Math.imul(seed, 1103515245) + 12345) & 0x7fffffff; return Math.floor(seed / 0x80000000 * most); };
const shown = (id) => other.document.getElementById(id).textContent;
const look = () => {
  if (made < edits) other.requestAnimationFrame(look);
  const p = gearcardPage.present(), second = Number(other.document.body.dataset.second);
  const byte = gearcard.work(p.vehicle, p.speeds, p.holds)[second], gear = byte %% 16;
  const held = p.holds[second];
  const right = shown('gear') === (gear ? String(gear) : 'N') && shown('clutch') === (byte >= 16 ? 'Clutch down' : 'Clutch up')
    && shown('hold') === (held ? 'HELD' : '') && (!held || shown('gear') === String(held)) && Math.abs(second - gearcardPage.at()) < 3;
  const row = gearcardPage.shown();
  const kept = row && row.second === second && (row.gear ? String(row.gear) : 'N') === shown('gear') && `Clutch ${row.clutch}` === shown('clutch')
    && (row.hold ? 'HELD' : '') === shown('hold');
  if (!kept) { unkept++; first ||= `second ${second}: ${shown('gear')}; the record has ${JSON.stringify(row)}`; }
  frames++; seen.add(second);
  if (held) heldFrames++;
  if (!right) { wrong++; first ||= `second ${second}: ${shown('gear')}, ${shown('clutch')}, ${shown('hold')}; card ${byte}, hold ${held}`; }
};
other.requestAnimationFrame(() => other.requestAnimationFrame(look));
const edit = () => {
  const second = Math.min(1800, Math.floor(gearcardPage.at()) + below(2));
  const before = gearcardPage.present();
  by('from').value = second; by('to').value = second; by('range').requestSubmit();
  const key = (name) => document.body.dispatchEvent(new KeyboardEvent('keydown', {key: name, bubbles: true, cancelable: true}));
  const kind = below(10);
  if (kind < 6) key(String(1 + below(6)));
  else if (kind < 8) key('Delete');
  else { by('speed').value = (Math.max(0, before.speeds[second] + below(30) - 15) / 10).toFixed(1); by('mend').requestSubmit(); }
  // The first asks, since it is so close.
  document.querySelector('#ask:not([hidden]) button')?.click();
  if (!by('alert').hidden) refused++;
  const after = gearcardPage.present();
  if (after.card.some((each, k) => each !== before.card[k])) changed++;
  if (++made < edits) setTimeout(edit, below(28));
  else other.requestAnimationFrame(() => done({frames, wrong, unkept, heldFrames, refused, changed, seconds: seen.size, first}));
};
setTimeout(edit, 50);
""" % OTHER


#: The parts of the driver's window whose words are wider than the part that they stand in.
OUTSIDE = """
return Array.from(document.querySelectorAll('#gear, #hold, #clutch, #next, #speed, #place'))
  .filter((part) => part.scrollWidth > part.clientWidth + 1 || part.getBoundingClientRect().right > part.parentElement.getBoundingClientRect().right + 1)
  .map((part) => part.id);
"""


#: Runs on a clock of the system that leaps, unevenly, between frames, until so many seconds have gone; answers what has gone, in ms, and the place.
LEAPS = """
const [seconds, done] = arguments, real = performance.now.bind(performance);
let ahead = 0, k = 0;
performance.now = () => real() + ahead;
document.getElementById('start').click();
const started = performance.now();
const leap = () => {
  const gone = performance.now() - started;
  if (gone >= 1000 * seconds) { const place = gearcardPage.at(); done([performance.now() - started, place]); return; }
  ahead += 997.3 + 4001.7 * (k++ % 13);
  requestAnimationFrame(leap);
};
requestAnimationFrame(leap);
"""


class Driver(PageTest):
    def setUp(self) -> None:
        super().setUp()
        self.main = self.browser.current_window_handle
        self.click("driver-open")
        self.window = until("there is a second window", lambda: next((each for each in self.browser.window_handles if each != self.main), None))

    def in_driver(self) -> None:
        self.browser.switch_to.window(self.window)

    def in_main(self) -> None:
        self.browser.switch_to.window(self.main)

    def shown(self, name: str) -> str:
        text: str = self.js(f"return {OTHER}.document.getElementById(arguments[0]).textContent", name)
        return text

    def drive_at(self, second: int) -> None:
        self.choose(second)
        self.click("run-from")

    def frame(self) -> None:
        self.browser.execute_async_script(f"const done = arguments[0], w = {OTHER}; w.requestAnimationFrame(() => w.requestAnimationFrame(() => done()))")

    def test_it_shows_gear_clutch_next_change_and_hold(self) -> None:
        self.drive_at(60)
        self.frame()
        card = self.present()["card"]
        self.assertEqual(self.shown("gear"), str(card[60] % 16))
        change = next(k for k in range(61, 1801) if card[k] % 16 != card[60] % 16)
        self.assertEqual(self.shown("next"), f"{card[change] % 16} in {change - 60} s")
        self.assertEqual((self.shown("hold"), self.shown("speed")), ("", "14.7"))
        self.keys("4")
        self.frame()
        self.assertEqual((self.shown("gear"), self.shown("hold")), ("4", "HELD"))
        self.drive_at(0)
        self.frame()
        self.assertEqual((self.shown("gear"), self.shown("clutch")), ("N", "Clutch up"))
        self.drive_at(12)
        self.frame()
        self.assertEqual((self.shown("gear"), self.shown("clutch")), ("1", "Clutch down"))

    def test_start_pause_step_and_speed(self) -> None:
        at = "return gearcardPage.at()"
        self.click("ahead")
        self.click("ahead")
        self.click("back")
        self.assertEqual(self.js(at), 1)
        self.js("document.getElementById('rate').value = '10'; document.getElementById('rate').dispatchEvent(new Event('change'))")
        self.click("start")
        until("it runs", lambda: self.js(at) > 3)
        self.assertEqual(self.text("start"), "Pause")
        self.in_driver()
        self.keys(" ")
        self.in_main()
        stood = self.js(at)
        time.sleep(0.2)
        self.assertEqual(self.js(at), stood)
        self.frame()
        self.assertEqual(self.shown("start"), "Start")
        self.in_driver()
        self.click("start")
        self.in_main()
        until("it runs on", lambda: self.js(at) > stood + 0.5)
        self.click("start")
        self.click("rewind")
        self.assertEqual(self.js(at), 0)
        self.drive_at(1799)
        self.click("start")
        until("it ends", lambda: self.js(at) == 1800)
        until("it is said", lambda: self.text("start") == "Start")

    def test_the_tolerances_are_not_shown_to_the_driver(self) -> None:
        picture = f"return {OTHER}.document.querySelector('canvas').toDataURL()"
        self.drive_at(60)
        self.frame()
        without = self.js(picture)
        engineer = "return document.getElementById('picture').toDataURL()"
        before = self.js(engineer)
        self.click("tolerances")
        self.frame()
        self.assertNotEqual(self.js(engineer), before)
        self.assertEqual(self.js(picture), without)

    def test_the_window_goes_with_the_page_and_can_be_opened_again(self) -> None:
        self.in_driver()
        self.browser.close()
        self.in_main()
        self.click("driver-open")
        until("it is there again", lambda: len(self.browser.window_handles) == 2)
        self.open()
        until("it went with its page", lambda: len(self.browser.window_handles) == 1)

    def test_a_window_that_is_loaded_anew_is_filled_again(self) -> None:
        self.js(f"{OTHER}.document.body.className = ''; {OTHER}.document.body.replaceChildren()")
        self.drive_at(60)
        until("it is filled", lambda: self.js(f"return {OTHER}.document.getElementById('gear')?.textContent") == "2")

    def test_the_fault_that_began_all_this(self) -> None:
        """While the run plays, the very second that is being driven is held, released and mended: no frame shows another gear than the card's."""
        self.js("document.getElementById('rate').value = '5'; document.getElementById('rate').dispatchEvent(new Event('change'))")
        self.drive_at(20)
        self.click("start")
        found = self.browser.execute_async_script(FAULT, EDITS)
        print(
            f"web: fault test: {EDITS} edits ({found['refused']} refused, {found['changed']} changed the card), {found['frames']} frames looked at "
            f"in {found['seconds']} seconds of the trace, {found['heldFrames']} of a held second; {found['wrong']} showed what is not the card's, "
            f"{found['unkept']} what the record has not"
        )
        self.assertEqual((found["wrong"], found["unkept"], found["first"]), (0, 0, ""))
        self.assertGreater(found["frames"], EDITS // 2)
        self.assertGreater(found["heldFrames"], 50)
        self.assertGreater(found["changed"], EDITS // 5)
        self.assertRight()

    def test_the_fault_test_would_see_a_fault(self) -> None:
        """The same look at a window whose gear is not brought up to date: it must find wrong frames."""
        stuck = "gear.id = 'old'; const stuck = gear.cloneNode(true); stuck.id = 'gear'; gear.after(stuck)"
        self.js(f"const gear = {OTHER}.document.getElementById('gear'); {stuck}")
        self.drive_at(20)
        self.click("start")
        self.assertGreater(self.browser.execute_async_script(FAULT, 40)["wrong"], 0)

    def test_the_clock_does_not_drift(self) -> None:
        """1,801 seconds on a clock that is set ahead in uneven leaps, while frames go on; and ten seconds of the real one."""
        self.take_longest()
        gone, place = self.browser.execute_async_script(LEAPS, 1801)
        faked = abs(place * 1000 - gone)
        self.open()
        self.click("start")
        # Both in one reading of the page, so that the way to it does not count.
        read = "return [1000 * gearcardPage.at(), Date.now()]"
        before, then = self.js(read)
        time.sleep(10)
        after, now = self.js(read)
        real = abs((after - before) - (now - then))
        print(
            f"web: the clock after {gone / 1000:.0f} s of a faked system clock is {faked:.1f} ms off, "
            f"and {real:.1f} ms after {(now - then) / 1000:.0f} s of the real one"
        )
        self.assertLess(faked, 50)
        self.assertLess(real, 50)

    def test_pictures(self) -> None:
        self.choose(760, 768)
        self.keys("4")
        self.drive_at(762)
        for width, height in ((1280, 800), (360, 740)):
            self.in_driver()
            self.resize(width, height)
            self.frame_here()
            self.browser.save_screenshot(str(OUT / f"driver-{width}x{height}.png"))
            wide = self.js("return [document.documentElement.scrollWidth, document.documentElement.scrollHeight]")
            self.assertLessEqual((wide[0], wide[1]), (width, height), "nothing stands outside the window")
            gear = self.js("return document.getElementById('gear').getBoundingClientRect().height")
            self.assertGreater(gear, height / 6)
            self.assertEqual(self.js(OUTSIDE), [], "no part stands over its neighbour")
            self.in_main()

    def test_a_gear_of_two_digits_has_room(self) -> None:
        self.click("vehicle-open")
        ratios = ("133", "71.5", "47.6", "35.1", "30", "28", "27", "26", "25", "24")
        self.js("arguments[0].forEach((ratio, k) => (document.getElementById('vehicle-form').elements[`ratio${k}`].value = ratio))", ratios)
        self.js("document.getElementById('vehicle-form').requestSubmit()")
        self.drive_at(762)
        self.keys("0")
        self.frame()
        self.assertEqual((self.shown("gear"), self.shown("hold")), ("10", "HELD"))
        self.in_driver()
        for size in ((1280, 800), (360, 740)):
            self.resize(*size)
            self.frame_here()
            self.assertEqual(self.js(OUTSIDE), [])

    def frame_here(self) -> None:
        self.browser.execute_async_script("const done = arguments[0]; requestAnimationFrame(() => requestAnimationFrame(() => setTimeout(done, 50)))")
