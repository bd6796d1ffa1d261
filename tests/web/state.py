"""What stands beside the picture, and the state behind it: the steps that can be undone, the clock, the facts of a second and its reasons, and what counts
as saved. What must be shown is what the native library answers."""

from __future__ import annotations

from decimal import ROUND_HALF_UP, Decimal

import gearcard
from gearcard import why
from gearcard.whys import CLUTCHES, KINDS, ROLES, RULES, SENTENCES
from selenium.webdriver.common.keys import Keys

from .browser import DOWNLOADS, TOP, PageTest, until
from .run_slips import ANSWER

#: Whether leaving the page would ask.
ASKS = "const leaving = new Event('beforeunload', {cancelable: true}); window.dispatchEvent(leaving); return leaving.defaultPrevented"

#: Runs on a clock of the system that is set ahead by hand: so many milliseconds at each of these rates, one after the other without a pause; answers the
#: places after each.
RATES = """
const by = (id) => document.getElementById(id), places = [];
let now = performance.now();
performance.now = () => now;
by('start').click();
for (const [rate, more] of arguments[0]) {
  by('rate').value = String(rate); by('rate').dispatchEvent(new Event('change'));
  now += more;
  places.push(gearcardPage.at());
}
by('start').click();
now += 5000;
places.push(gearcardPage.at());
delete performance.now;
return places;
"""

#: The rows of the gears, a value for each column: a cell that goes over several is followed by as many that have none.
ROWS = """
const cells = (row) => Array.from(row.cells, (cell) => [cell.textContent, ...Array(cell.colSpan - 1).fill(null)]).flat();
return Array.from(document.querySelectorAll('#why-gears tr'), (row) => [row.className, row.title, ...cells(row)]);
"""
STEPS = "return Array.from(document.querySelectorAll('#why-steps li'), (each) => each.textContent)"


def fixed(value: float, decimals: int) -> str:
    """As JavaScript rounds: of two that are as near the larger."""
    return str(Decimal(value).quantize(Decimal(1).scaleb(-decimals), ROUND_HALF_UP))


class Steps(PageTest):
    def test_a_new_edit_after_an_undo_leaves_nothing_to_redo(self) -> None:
        self.choose(60)
        self.keys("3")
        self.chord(Keys.CONTROL, "z")
        self.assertTrue(self.element("redo").is_enabled())
        self.choose(200)
        self.keys("4")
        after = self.present()
        self.assertFalse(self.element("redo").is_enabled())
        self.chord(Keys.CONTROL, "y")
        self.assertEqual(self.present(), after)
        self.chord(Keys.CONTROL, "z")
        self.assertEqual(set(self.present()["holds"]), {0})
        self.assertFalse(self.element("undo").is_enabled())

    def test_what_leaves_all_as_it_was_is_no_step(self) -> None:
        self.choose(60)
        self.keys(Keys.DELETE)
        self.mend("14.7")
        self.assertFalse(self.element("undo").is_enabled())
        self.assertFalse(self.js(ASKS))

    def test_a_refused_edit_keeps_what_can_be_redone(self) -> None:
        self.choose(60)
        self.keys("3")
        self.chord(Keys.CONTROL, "z")
        self.keys("7")
        self.assertTrue(self.alert())
        self.chord(Keys.CONTROL, "y")
        self.assertEqual(self.present()["holds"][60], 3)


class Clock(PageTest):
    def tearDown(self) -> None:
        # A run that is on, and a record that is not saved, ask when the page is left.
        until("a run is on", self.element("stop").is_enabled)
        self.click("stop")
        self.js(ANSWER, "Discard")
        super().tearDown()

    def test_each_rate(self) -> None:
        """A second of the system's clock is as many of the run as the rate says, from where it was when the rate changed."""
        rates = [(10, 1234), (1, 3000), (60, 100), (2, 450), (5, 2000), (30, 300)]
        places = self.js(RATES, rates)
        at, wanted = 0.0, []
        for rate, more in rates:
            at += rate * more / 1000
            wanted.append(at)
        for found, place in zip(places, [*wanted, at], strict=True):
            self.assertAlmostEqual(found, place, places=6)

    def test_a_step_goes_to_a_whole_second(self) -> None:
        """From between two, as on a film: back to the one before, ahead to the one after."""
        self.js(RATES, [(10, 1234)])
        self.click("ahead")
        self.assertEqual(self.js("return gearcardPage.at()"), 13)
        self.js(RATES, [(1, 400)])
        self.click("back")
        self.assertEqual(self.js("return gearcardPage.at()"), 12)

    def test_it_ends_with_the_trace_and_begins_anew(self) -> None:
        # The click that pauses it elsewhere finds it at its end.
        self.assertEqual(self.js(RATES, [(60, 60_000)]), [1800, 300])


class Facts(PageTest):
    def test_every_fact_of_a_second(self) -> None:
        """Seconds with the clutch down and up, standing, in trips and held, before any of this is looked at again."""
        self.choose(760)
        self.keys("4")
        job = gearcard.read((TOP / "examples/class-3.job").read_bytes())
        job.holds[760] = 4
        card = gearcard.work(*job[:3])
        trips = [(a, next(b for b in range(a, 1801) if job.speeds[b] < 10)) for a in range(1, 1801) if job.speeds[a] >= 10 > job.speeds[a - 1]]
        seconds = [0, 11, 12, 60, 760, 761, 1799, 1800, *(k for k in range(1, 1801) if card[k] >= 16 and card[k] % 16 > 1)][:16]
        self.assertEqual({card[k] >= 16 for k in seconds}, {True, False})
        for second in seconds:
            self.choose(second)
            byte, trip = card[second], [(k, *each) for k, each in enumerate(trips, 1) if each[0] <= second < each[1]]
            wanted = {
                "chosen-title": f"Second {second}",
                "fact-speed": f"{job.speeds[second] / 10:.1f} km/h",
                "fact-gear": str(byte % 16) if byte % 16 else "N, neutral",
                "fact-clutch": "down" if byte >= 16 else "up",
                "fact-hold": f"gear {job.holds[second]}" if job.holds[second] else "none",
                "fact-trip": f"{trip[0][0]} of {len(trips)}, seconds {trip[0][1]} to {trip[0][2] - 1}" if trip else "standing",
            }
            self.assertEqual({name: self.text(name) for name in wanted}, wanted)

    def test_a_mend_that_ends_a_trip(self) -> None:
        """A second of it that stands makes two trips of one, and mended back they are one again."""
        job = gearcard.read((TOP / "examples/class-3.job").read_bytes())
        first, stop = next((a, b) for a in range(1, 1801) if job.speeds[a] >= 10 > job.speeds[a - 1] for b in range(a, 1801) if job.speeds[b] < 10)
        second = next(k for k in range(first + 2, stop - 2) if max(job.speeds[k - 1 : k + 2]) < 150)
        self.choose(second)
        whole, speed = self.text("fact-trip"), self.text("fact-speed").split()[0]
        self.mend("0.0")
        self.assertEqual(self.text("fact-trip"), "standing")
        self.choose(first)
        self.assertEqual(self.text("fact-trip"), f"1 of {int(whole.split()[2].rstrip(',')) + 1}, seconds {first} to {second - 1}")
        self.choose(second)
        self.mend(speed)
        self.assertEqual(self.text("fact-trip"), whole)

    def test_every_cell_of_the_reasons(self) -> None:
        """At seconds of every kind, role, sentence and reason of the clutch that the cycle has, and where the corrections give different gears."""
        self.js("document.getElementById('why').open = true")
        job = gearcard.read((TOP / "examples/class-3.job").read_bytes())
        told = [why(*job[:3], second) for second in range(1801)]
        wanted: dict[object, int] = {}
        for each in told:
            gears = ((4, gear.rule, gear.enough, gear.under_nmax) for gear in each.gears)
            for kind in ((0, each.kind), (1, each.role), (2, each.sentence), (3, each.clutch_reason), *gears):
                wanted.setdefault(kind, each.second)
            if each.kind and each.second == each.about:
                different = (each.choice != each.after_a, each.after_a != each.after_b, each.after_b != each.after_c, each.floor != each.ceiling)
                wanted.setdefault((5, *different), each.second)
        self.assertTrue(any(told[second].after_b != told[second].after_c for second in wanted.values()))
        for second in sorted(set(wanted.values())):
            self.choose(second)
            self.shows(told[second])

    def test_the_reasons_where_there_is_a_crawler(self) -> None:
        self.take(TOP / "examples/van.job")
        until("it is open", lambda: self.present()["name"] == "van.job")
        self.js("document.getElementById('why').open = true")
        job = gearcard.read((TOP / "examples/van.job").read_bytes())
        told = [why(*job[:3], second) for second in range(len(job.speeds))]
        # A driven gear is past nmax too.
        found = next(each for each in told if each.kind and not each.gears[1].under_nmax)
        self.assertEqual(found.gears[0].rule, 0)
        self.choose(found.second)
        self.shows(found)

    def shows(self, found: gearcard.Why) -> None:
        moving = found.kind != 0
        words = KINDS[found.kind]
        if moving:
            words += f"; second {found.about} is {ROLES[found.role]}; {fixed(found.required / 3.24e12, 3)} kW required"
        until("the reasons are shown", lambda: self.text("why-second") == words, 5)
        self.assertEqual(self.js(ROWS), [self.row(found, k, gear) for k, gear in enumerate(found.gears, 1)] if moving else [])
        self.assertEqual(self.js(STEPS), self.steps(found) if moving else [f"Clutch {CLUTCHES[0]}"])

    def row(self, found: gearcard.Why, k: int, gear: gearcard.Gear) -> list[str | None]:
        first = ["chosen" if k == found.choice else "", RULES[gear.rule], str(k)]
        if gear.rule == 0:
            return [*first, "a crawler, which is not driven", None, None, None, None]
        yes = {True: "yes", False: "no"}
        turns = [fixed(gear.engine / 1000, 1), str(gear.minimum)]
        if not gear.under_nmax:
            self.assertEqual((gear.fits, gear.enough, gear.q, gear.w), (False, False, 0, 0))
            return [*first, *turns, "no, past nmax", None, None]
        return [*first, *turns, yes[bool(gear.fits)], fixed(gear.q / (1e6 * gear.w), 3), yes[bool(gear.enough)]]

    def steps(self, found: gearcard.Why) -> list[str]:
        def step(name: str, gear: int, before: int, note: str) -> str:
            return f"{name}: {gear} stays" if gear == before else f"{name}: {gear}, {note}"

        return [
            f"First choice {found.choice}: {SENTENCES[found.sentence]}",
            step("A, one-second peak", found.after_a, found.choice, f"floor {found.floor}"),
            step("B, rising speed", found.after_b, found.after_a, f"ceiling {found.ceiling}, floor {found.floor}"),
            step("C, closing run", found.after_c, found.after_b, "the lowest gear becomes the next"),
            f"Clutch {CLUTCHES[found.clutch_reason]}",
        ]


class Saved(PageTest):
    def test_only_the_job_s_own_file_saves_it(self) -> None:
        """A card as CSV or as a picture has no vehicle and no trace: the edits are as unsaved as before."""
        self.choose(60)
        self.keys("4")
        for name in ("csv", "svg"):
            path = DOWNLOADS / f"class-3.{name}"
            path.unlink(missing_ok=True)
            self.browser.find_element("css selector", ".menu summary").click()
            self.click(name)
            until(f"{path.name} is saved", path.exists)
            self.assertTrue(self.js(ASKS), name)
            self.assertTrue(self.element("unsaved").is_displayed(), name)
        path = DOWNLOADS / "class-3.job"
        path.unlink(missing_ok=True)
        self.click("save")
        self.assertFalse(self.js(ASKS))
        until("the job is saved", path.exists)
        job = gearcard.read((TOP / "examples/class-3.job").read_bytes())
        job.holds[60] = 4
        self.assertEqual(path.read_bytes(), gearcard.write(*job), "in the version that it was read in")
