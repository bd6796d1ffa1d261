"""The edits, as an engineer makes them: clicks, keys and fields. After each the present state is what a whole working gives."""

from __future__ import annotations

from typing import Callable

from gearcard import Vehicle, read, why, write
from selenium.webdriver.common.keys import Keys

from .browser import OUT, RIGHT, TOP, PageTest, until

#: A car whose second gear does not fit after first gear at 16.0 km/h: released or held in first, second 2 leaves second 3 without a gear, by document 02's
#: request Two.
GAP = Vehicle((6600, 5000), 800, 900, 1000, 0, 0, 0, 1000, 10, ((800, 1000), (1000, 1000)))
GAP_SPEEDS = (0, 100, 150, 160, 160, 150, 100, 0)
GAP_HOLDS = (0, 0, 2, 0, 0, 0, 0, 0)


class Edits(PageTest):
    def gear_shown(self) -> str:
        return self.text("fact-gear")

    def test_click_a_second_press_a_digit_see_the_gear(self) -> None:
        chart = self.element("chart")
        width = chart.rect["width"]
        x = 46 + (width - 56) * 60.5 / 1801
        self.actions().move_to_element_with_offset(chart, x - width / 2, 0).click().perform()
        self.assertEqual(self.text("chosen-title"), "Second 60")
        before = self.gear_shown()
        self.keys("4")
        self.assertNotEqual(before, "4")
        self.assertEqual((self.gear_shown(), self.text("fact-hold")), ("4", "gear 4"))
        self.assertEqual(self.present()["holds"][60], 4)
        self.assertIn("Second 60 held in gear 4", self.text("status"))
        said = self.js("return document.getElementById('chart').getAttribute('aria-valuetext')")
        self.assertEqual(said, "second 60, 14.7 km/h, gear 4, clutch up, held in 4")
        self.assertRight()
        self.keys(Keys.DELETE)
        self.assertEqual((self.gear_shown(), self.text("fact-hold")), (before, "none"))
        self.assertRight()

    def test_buttons_hold_and_release(self) -> None:
        self.choose(200)
        self.js("document.querySelector('#gears button:nth-child(3)').click()")
        self.assertEqual(self.present()["holds"][200], 3)
        self.assertEqual(self.js("return document.querySelector('#gears [aria-pressed=true]').textContent"), "3")
        self.assertRight()
        self.click("release")
        self.assertEqual(self.present()["holds"][200], 0)
        self.assertRight()

    def test_why_shows_what_the_proved_call_answers(self) -> None:
        """A second in which correction B decides; after a hold it is the held gear, and the last gear of the steps is the card's at every second."""
        self.js("document.getElementById('why').open = true")
        job = read((TOP / "examples/class-3.job").read_bytes())
        second = next(k for k in range(1801) if (found := why(*job[:3], k)).after_b < found.after_a)
        self.choose(second)
        steps = until("the steps", lambda: self.js("return Array.from(document.querySelectorAll('#why-steps li'), (each) => each.textContent)"))
        found = why(*job[:3], second)
        self.assertIn(f"B, rising speed: {found.after_b}, ceiling {found.ceiling}, floor {found.floor}", steps)
        self.assertEqual(self.js("return document.querySelectorAll('#why-gears tr').length"), len(job.vehicle.ratios))
        self.assertEqual(self.js("return document.querySelector('#why-gears .chosen th').textContent"), str(found.choice))
        self.keys(str(found.choice))
        self.assertIn(f"First choice {found.choice}: the held gear", self.js("return document.getElementById('why-steps').textContent"))
        self.assertRight()

    def test_a_field_mends_a_speed(self) -> None:
        self.choose(60)
        self.mend("15.2")
        self.assertEqual((self.present()["speeds"][60], self.text("fact-speed")), (152, "15.2 km/h"))
        self.assertRight()

    def test_the_summary_is_the_one_that_the_call_answered(self) -> None:
        self.choose(60)
        self.keys("4")
        rows = self.js("return Array.from(document.querySelectorAll('#summary tr'), (row) => [row.cells[0].textContent, row.cells[2].textContent])")
        counted = self.present()["summary"]
        gears = [[f"Gear {k + 1}", f"{counted['gears'][k]} s"] for k in range(6)]
        self.assertEqual(rows, [["Standing", f"{counted['standing']} s"], *gears, ["Changes", str(counted["changes"])]])

    def test_a_range_is_one_step(self) -> None:
        self.choose(30, 50)
        self.keys("3")
        state = self.present()
        self.assertEqual([state["holds"][k] for k in (29, 30, 50, 51)], [0, 3, 3, 0])
        self.assertRight()
        self.chord(Keys.CONTROL, "z")
        self.assertEqual(set(self.present()["holds"]), {0})
        self.assertRight()
        self.chord(Keys.CONTROL, "y")
        self.assertEqual(self.present()["holds"], state["holds"])
        self.keys(Keys.DELETE)
        self.assertEqual(set(self.present()["holds"]), {0})
        self.assertRight()

    def test_shift_and_arrows_choose_a_range(self) -> None:
        self.choose(60)
        self.chord(Keys.SHIFT, Keys.ARROW_RIGHT)
        self.chord(Keys.SHIFT, Keys.ARROW_RIGHT)
        self.assertEqual(self.text("chosen-title"), "Seconds 60 to 62")
        self.keys(Keys.ARROW_LEFT)
        self.assertEqual(self.text("chosen-title"), "Second 61")
        self.keys(Keys.END, Keys.ARROW_RIGHT)
        self.assertEqual(self.text("chosen-title"), "Second 1800")
        self.keys(Keys.HOME, Keys.PAGE_DOWN)
        self.assertEqual(self.text("chosen-title"), "Second 30")

    def test_undo_and_redo_all_the_way(self) -> None:
        states = [self.present()]
        self.choose(60)
        for edit in ("3", "4", Keys.DELETE, "2"):
            self.keys(edit)
            states.append(self.present())
        self.mend("15.0")
        states.append(self.present())
        for wanted in reversed(states[:-1]):
            self.chord(Keys.CONTROL, "z")
            self.assertEqual(self.present(), wanted)
            self.assertRight()
        self.assertFalse(self.element("undo").is_enabled())
        for wanted in states[1:]:
            self.click("redo")
            self.assertEqual(self.present(), wanted)
            self.assertRight()
        self.assertFalse(self.element("redo").is_enabled())

    def test_releasing_a_free_second_is_no_step(self) -> None:
        self.choose(60)
        self.keys(Keys.DELETE)
        self.assertFalse(self.element("undo").is_enabled())

    def test_what_changed_is_marked_for_a_moment(self) -> None:
        self.choose(60)
        frames = self.js("return gearcardPage.frames()")
        self.keys("4")
        self.js("return new Promise((done) => setTimeout(done, 300))")
        during = self.js("return gearcardPage.frames()")
        self.js("return new Promise((done) => setTimeout(done, 1700))")
        after = self.js("return gearcardPage.frames()")
        self.js("return new Promise((done) => setTimeout(done, 300))")
        self.assertGreater(during, frames + 3)
        self.assertEqual(self.js("return gearcardPage.frames()"), after, "a page at rest draws nothing")

    def test_the_check_button_works_afresh(self) -> None:
        self.choose(60)
        self.keys("4")
        self.click("check")
        self.assertIn("all 1801 seconds of the card and the summary are the same", self.text("status"))

    def refused(self, number: int, place: int, edit: Callable[[], None]) -> None:
        """An edit that is refused: said with number, place and words, its place marked, and nothing else changes."""
        before = self.present()
        edit()
        self.assertRegex(self.alert(), f"^refused {number} at {place}: .{{15,}}")
        self.assertEqual(self.present(), before)
        self.assertRight()

    def test_every_refusal_that_an_edit_can_give(self) -> None:
        self.choose(60)
        self.refused(7, 60, lambda: self.keys("7"))
        self.refused(7, 60, lambda: self.keys("0"))
        self.refused(4, 60, lambda: self.mend("200.1"))
        self.refused(5, 60, lambda: self.mend("40.0"))
        self.keys("3")
        self.assertEqual(self.alert(), "", "what is accepted takes the line away")
        self.refused(8, 60, lambda: self.mend("0.5"))
        self.choose(0)
        self.refused(8, 0, lambda: self.keys("2"))
        self.refused(6, 0, lambda: self.mend("5.0"))
        self.choose(1800)
        self.refused(6, 1800, lambda: self.mend("1.0"))
        self.choose(1700)
        self.refused(9, 1700, lambda: self.keys("1"))
        self.choose(1700, 1710)
        self.refused(9, 1700, lambda: self.keys("2"))
        self.choose(95, 105)
        self.refused(8, 99, lambda: self.keys("2"))

    def test_the_place_of_a_refusal_is_marked_until_the_next_edit(self) -> None:
        picture = "return new Promise((done) => requestAnimationFrame(() => requestAnimationFrame(() => done(document.getElementById('picture').toDataURL()))))"
        self.choose(60)
        before = self.js(picture)
        self.keys("7")
        self.assertNotEqual(self.js(picture), before)
        self.keys(Keys.DELETE)
        self.assertEqual(self.js(picture), before)

    def test_refusal_10_at_a_later_second(self) -> None:
        job = OUT / "gap.job"
        job.write_bytes(write(GAP, list(GAP_SPEEDS), list(GAP_HOLDS)))
        self.take(job)
        until("the job is open", lambda: self.present()["name"] == "gap.job")
        self.choose(2)
        self.refused(10, 3, lambda: self.keys(Keys.DELETE))
        self.refused(10, 3, lambda: self.keys("1"))
        self.choose(5)
        self.refused(10, 5, lambda: self.mend("15.5"))

    def test_refusal_11_is_the_package_s_and_the_fields_choose_no_such_second(self) -> None:
        hold = "gearcard.hold(p.vehicle, p.speeds, p.holds, p.card, 1801, 2)"
        script = f"const p = gearcardPage.present(); try {{ {hold} }} catch (why) {{ return [why.number, why.place] }}"
        self.assertEqual(self.js(script), [11, 1801])
        self.choose(1801)
        self.assertEqual(self.alert(), "the trace has seconds 0 to 1800")

    def test_keys_in_a_field_are_the_field_s(self) -> None:
        self.choose(60)
        self.element("speed").send_keys("3")
        self.assertEqual(set(self.present()["holds"]), {0})

    def test_300_seeded_edits_by_the_page_s_own_handlers(self) -> None:
        """Keys and fields from a seed, as events; after every one the state is looked at, and at the end all are undone."""
        script = """
        let seed = 37;
        const below = (most) => { seed = (Math.imul(seed, 1103515245) + 12345) & 0x7fffffff; return Math.floor(seed / 0x80000000 * most); };
        const by = (id) => document.getElementById(id);
        const right = () => { %s };
        const key = (name) => document.body.dispatchEvent(new KeyboardEvent('keydown', {key: name, bubbles: true, cancelable: true}));
        const first = JSON.stringify(gearcardPage.present());
        let [wrong, refused] = [0, 0];
        document.activeElement.blur();
        for (let k = 0; k < 300; k++) {
          const a = below(1801), b = below(4) ? a : Math.min(1800, a + below(40));
          by('from').value = a; by('to').value = b; by('range').requestSubmit();
          const kind = below(4);
          if (kind < 2) key(String(1 + below(7)));
          else if (kind === 2) key('Delete');
          else if (a === b) {
            by('speed').value = (Math.max(0, gearcardPage.present().speeds[a] + below(80) - 40) / 10).toFixed(1);
            by('mend').requestSubmit();
          }
          if (!by('alert').hidden) refused++;
          if (!right()) wrong++;
        }
        while (!by('undo').disabled) by('undo').click();
        return [wrong, refused, JSON.stringify(gearcardPage.present()) === first];
        """ % RIGHT
        wrong, refused, back = self.js(script)
        print(f"web: 300 seeded edits, {refused} refused, {wrong} states that were not what a whole working gives")
        self.assertEqual((wrong, back), (0, True))
        self.assertTrue(30 < refused < 270, refused)
