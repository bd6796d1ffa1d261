"""The pictures of both windows, read back from what is drawn, as a person reads them: a second, a gear and a speed by the labels of the axes. What they
must show is the card of the native library."""

from __future__ import annotations

import math
from typing import Any, NamedTuple

import gearcard
from selenium.webdriver.common.keys import Keys

from .browser import OUT, TOP, PageTest, until
from .drawing import Scale, Sheet, pixels, recorded, scale, sheet, whole

PICTURE = "document.getElementById('picture')"
OTHER = "window.open('', 'gearcard-driver')"
ROAD = f"{OTHER}.document.querySelector('canvas')"

#: Sets the clock of the run to a second and so many milliseconds more, by a clock of the system that is set ahead.
PLACE = """
const [second, more] = arguments, by = (id) => document.getElementById(id);
by('from').value = second; by('to').value = second; by('range').requestSubmit(); by('run-from').click();
if (more) {
  let now = performance.now();
  performance.now = () => now;
  by('start').click();
  now += more;
  by('start').click();
  delete performance.now;
}
"""

#: Where the engineer's picture begins, in pixels; what begins before it is cut there.
LEFT = 46

Card = tuple[gearcard.Job, bytearray]


def native(name: str, *holds: tuple[int, int, int]) -> Card:
    """An example with these holds, first and last second and gear, and its card by the native library."""
    job = gearcard.read((TOP / "examples" / name).read_bytes())
    for first, last, gear in holds:
        for second in range(first, last + 1):
            job.holds[second] = gear
    return job, gearcard.work(*job[:3])


def spans(xs: Scale, rects: list[dict[str, Any]]) -> set[int]:
    """The seconds that rectangles lie over; each begins and ends with a second, but where the sheet begins."""
    found: set[int] = set()
    for each in rects:
        first, stop = xs.value(each["x"]), whole(xs.value(each["x"] + each["width"]))
        found.update(range(math.floor(first) if abs(each["x"] - LEFT) < 0.01 else whole(first), stop))
    return found


class Chart(NamedTuple):
    """What the engineer's picture shows, by second."""

    xs: Scale
    ys: Scale
    gears: dict[int, int]
    labels: dict[int, set[int]]
    speeds: dict[int, float]
    clutch: set[int]
    held: set[int]
    held_gears: dict[int, int]
    trips: set[int]


def axes(drawn: Sheet) -> tuple[Scale, Scale, Scale]:
    """Seconds, gears and speeds, by the labels below and at the left; letters stand 4 below the middle of their line."""
    below = [(each["x"], float(each["words"])) for each in drawn.of("text", align="center", y=drawn.height - 8)]
    gear, bottom = drawn.text("gear")["y"], drawn.text("N")["y"]
    left = [each for each in drawn.of("text", align="right") if each["words"].isdigit()]
    gears = [(bottom - 4, 0.0), *((each["y"] - 4, float(each["words"])) for each in left if gear < each["y"] < bottom)]
    speeds = [(each["y"] - 4, float(each["words"])) for each in left if each["y"] < gear]
    # The last label below may stand beside its place, so that it is not cut.
    return scale(below[:-1]), scale(gears), scale(speeds)


def chart(drawn: Sheet) -> Chart:
    xs, ys, speeds = axes(drawn)
    gears: dict[int, int] = {}
    (steps,) = drawn.of("line", "ink", width=2)
    for (a, y), (b, other) in zip(steps["points"][::2], steps["points"][1::2]):
        assert y == other
        for second in range(whole(xs.value(a)), whole(xs.value(b))):
            assert second not in gears
            gears[second] = whole(ys.value(y))
    labels: dict[int, set[int]] = {}
    for each in drawn.of("text", "ink", align="center"):
        labels.setdefault(int(each["words"]), set()).add(math.floor(xs.value(each["x"])))
        # It stands on its step.
        assert whole(ys.value(each["y"] + 6)) == int(each["words"]), each
    (line,) = drawn.of("line", "accent", width=1.75)
    strip = {name: drawn.text(name)["y"] for name in ("clutch", "held")}
    return Chart(
        xs,
        ys,
        gears,
        labels,
        {whole(xs.value(x)): speeds.value(y) for x, y in line["points"]},
        spans(xs, [each for each in drawn.of("rect", "ink") if each["y"] + each["height"] == strip["clutch"]]),
        spans(xs, [each for each in drawn.of("rect", "held") if each["y"] + each["height"] == strip["held"]]),
        {second: whole(ys.value(each["y"] + each["height"] / 2)) for each in drawn.of("rect", "heldfill") for second in spans(xs, [each])},
        spans(xs, list(drawn.of("rect", "band"))),
    )


class Engineer(PageTest):
    def setUp(self) -> None:
        super().setUp()
        recorded(self, PICTURE)
        self.choose(0)

    def drawn(self) -> Sheet:
        return sheet(self, PICTURE)

    def closer(self, second: int, times: int) -> None:
        self.choose(second)
        self.js("for (let k = 0; k < arguments[0]; k++) document.getElementById('closer').click()", times)

    def open_job(self, name: str, data: bytes) -> None:
        path = OUT / name
        path.write_bytes(data)
        self.take(path)
        until(f"{name} is open", lambda: self.present()["name"] == name)

    def check(self, card: Card) -> None:
        """What is drawn is the card's, at every second that is drawn."""
        (job, worked), shown = card, chart(self.drawn())
        seconds = set(shown.gears)
        self.assertEqual(shown.gears, {second: worked[second] % 16 for second in seconds})
        self.assertEqual(shown.clutch, {second for second in seconds if worked[second] >= 16})
        self.assertEqual(shown.held, {second for second in seconds if job.holds[second]})
        self.assertEqual(shown.held_gears, {second: job.holds[second] for second in seconds if job.holds[second]})
        self.assertEqual({each for each in shown.trips if each in seconds}, {second for second in seconds if job.speeds[second] >= 10})
        self.assertLessEqual(seconds, set(shown.speeds))
        for second, speed in shown.speeds.items():
            self.assertAlmostEqual(speed, job.speeds[second] / 10, delta=0.02)
        self.assertGreater(len(shown.labels), 1)
        for gear, places in shown.labels.items():
            self.assertEqual({worked[second] % 16 for second in places}, {gear})

    def test_the_whole_cycle(self) -> None:
        """On a sheet of more pixels than seconds: what is narrower than a pixel is drawn as one."""
        self.resize(2800, 900)
        self.check(native("class-3.job"))
        self.assertEqual(set(chart(self.drawn()).gears), set(range(1801)))

    def test_a_part_of_it_with_holds(self) -> None:
        self.choose(760, 768)
        self.keys("4")
        self.choose(775)
        self.keys("6")
        for times in (6, 2, 2):
            self.closer(765, times)
            self.check(native("class-3.job", (760, 768, 4), (775, 775, 6)))

    def test_a_van_and_the_clutch(self) -> None:
        """Its lowest gear is a crawler. The clutch is down in some seconds of a drive and up in others."""
        self.open_job("van.job", (TOP / "examples/van.job").read_bytes())
        card = native("van.job")
        self.check(card)
        down = {byte >= 16 for byte in card[1]}
        self.assertEqual(down, {True, False})

    def test_a_second_of_one_kilometre_an_hour_moves(self) -> None:
        """It belongs to its trip, and one slower stands."""
        job = native("car-z.job")[0]
        speeds = [0, 9, 10, 50, 100, 50, 10, 9, 0, 0, 9, 0]
        data = gearcard.write(job.vehicle, speeds)
        self.open_job("slow.job", data)
        self.assertEqual(chart(self.drawn()).trips, {2, 3, 4, 5, 6})
        self.check((gearcard.read(data), gearcard.work(job.vehicle, speeds)))

    def test_closer_and_the_chosen_second_stays(self) -> None:
        for second in (300, 1500):
            self.js("document.getElementById('whole').click()")
            self.choose(second)
            before = axes(self.drawn())[0].place(second)
            for name in ("closer", "closer", "closer", "farther"):
                self.click(name)
                self.assertAlmostEqual(axes(self.drawn())[0].place(second), before, delta=0.5)

    def test_by_pixels(self) -> None:
        """The strips and the chosen second, by the colours on the canvas: what is drawn is not drawn over."""
        self.choose(760, 768)
        self.keys("4")
        self.closer(765, 6)
        job, card = native("class-3.job", (760, 768, 4))
        self.choose(772)
        until("nothing is marked as changed", lambda: not list(self.drawn().of("rect", "changed")), 20)
        drawn = self.drawn()
        shown = chart(drawn)
        middle = {name: drawn.text(name)["y"] - 4.5 for name in ("clutch", "held")}
        seconds = sorted(shown.gears)[2:-2]
        xs = [shown.xs.place(second + 0.5) for second in seconds]
        ink, held = drawn.colours["ink"], drawn.colours["held"]
        self.assertEqual([each == ink for each in pixels(self, PICTURE, [(x, middle["clutch"]) for x in xs])], [card[second] >= 16 for second in seconds])
        self.assertEqual([each == held for each in pixels(self, PICTURE, [(x, middle["held"]) for x in xs])], [job.holds[second] != 0 for second in seconds])
        steps = pixels(self, PICTURE, [(x, shown.ys.place(card[second] % 16)) for x, second in zip(xs, seconds)])
        self.assertEqual(set(steps), {ink})
        above = pixels(self, PICTURE, [(x, shown.ys.place(card[second] % 16 + 1)) for x, second in zip(xs, seconds)])
        self.assertNotIn(ink, above)

    def test_bars_where_seconds_are_closer_than_pixels(self) -> None:
        """On a narrow sheet a bar a pixel, from the lowest to the highest of its seconds, joined to the bar before."""
        self.resize(360, 740)
        drawn = self.drawn()
        job, card = native("class-3.job")
        xs, ys, speeds = axes(drawn)
        gears: list[float] = [byte % 16 for byte in card]
        for colour, axis, values, thick in (("ink", ys, gears, 1.25), ("accent", speeds, [speed / 10 for speed in job.speeds], 1.75)):
            bars = [each for each in drawn.of("rect", colour) if each["width"] == min(thick, 1.5)]
            self.assertGreater(len(bars), 250)
            for each in bars:
                low, high = (axis.value(each["y"] + each["height"] - thick / 2), axis.value(each["y"] + thick / 2))
                first, last = xs.value(each["x"]), xs.value(each["x"] + 1)
                within = [values[second] for second in range(math.ceil(first), min(math.floor(last), 1800) + 1)]
                around = values[max(0, math.floor(xs.value(each["x"] - 1))) : math.ceil(last) + 1]
                self.assertLessEqual(low, min(within) + 0.02, each)
                self.assertGreaterEqual(high, max(within) - 0.02, each)
                self.assertGreaterEqual(low, min(around) - 0.02, each)
                self.assertLessEqual(high, max(around) + 0.02, each)

    def test_the_chosen_seconds_the_place_of_the_run_and_of_a_refusal(self) -> None:
        self.closer(60, 6)
        self.choose(60, 62)
        # Farther from the chosen seconds than the lead time: an edit within it asks first.
        self.js(PLACE, 56, 250)
        self.choose(60, 62)
        drawn = self.drawn()
        xs = axes(drawn)[0]
        self.assertEqual(spans(xs, list(drawn.of("rect", "chosen"))), {60, 61, 62})
        (line,) = drawn.of("line", "accent", width=1.5)
        self.assertEqual({whole(xs.value(x)) for x, _ in line["points"]}, {62})
        (now,) = drawn.of("line", "now")
        self.assertAlmostEqual(xs.value(now["points"][0][0]), 56.25, delta=0.01)
        self.assertEqual(list(drawn.of("line", "danger")), [])
        self.choose(60)
        self.keys("7")
        drawn = self.drawn()
        xs = axes(drawn)[0]
        (mark,) = drawn.of("line", "danger")
        self.assertEqual({xs.value(x) // 1 for x, _ in mark["points"]}, {60})
        self.assertEqual([each["words"] for each in drawn.of("text", "danger")], ["refused 7 at 60"])

    def test_what_an_edit_changed_is_marked(self) -> None:
        self.closer(60, 6)
        before = native("class-3.job")[1]
        # The mark goes with time, which stands still here.
        self.js("matchMedia = () => ({matches: true}); const now = performance.now(); performance.now = () => now")
        self.choose(60)
        self.keys("4")
        after = native("class-3.job", (60, 60, 4))[1]
        drawn = self.drawn()
        xs = axes(drawn)[0]
        self.assertEqual(spans(xs, list(drawn.of("rect", "changed"))), {second for second in range(1801) if before[second] != after[second]})

    def test_the_tolerances(self) -> None:
        """2.0 km/h above the highest and below the lowest point within one second either way, where they are asked for."""
        self.closer(60, 6)
        self.assertEqual(list(self.drawn().of("shape")), [])
        self.click("tolerances")
        drawn = self.drawn()
        xs, _, speeds = axes(drawn)
        (band,) = drawn.of("shape", "tolerance")
        trace = native("class-3.job")[0].speeds
        half = len(band["points"]) // 2
        for (x, y), (back, lower) in zip(band["points"][:half], reversed(band["points"][half:])):
            second = whole(xs.value(x))
            self.assertEqual(x, back)
            near = trace[max(0, second - 1) : second + 2]
            self.assertAlmostEqual(speeds.value(y), max(near) / 10 + 2, delta=0.02)
            self.assertAlmostEqual(speeds.value(lower), max(0, min(near) / 10 - 2), delta=0.02)

    def test_the_strip_beneath(self) -> None:
        """The part that is shown, on the whole trace, and the place of the run."""
        recorded(self, "document.getElementById('overview')")
        self.closer(900, 4)
        self.js(PLACE, 950, 500)
        drawn = sheet(self, "document.getElementById('overview')")
        shown = chart(self.drawn())
        (frame,) = drawn.of("line", "accent")
        (now,) = drawn.of("line", "now")
        left, right = LEFT, drawn.width - 10
        at = [1801 * (x - left) / (right - left) for x in (frame["points"][0][0], frame["points"][1][0], now["points"][0][0])]
        self.assertAlmostEqual(at[0], shown.xs.value(LEFT), delta=0.1)
        self.assertAlmostEqual(at[1], shown.xs.value(self.drawn().width - 10), delta=0.1)
        self.assertAlmostEqual(at[2], 950.5, delta=0.01)


class Driver(PageTest):
    """The road ahead, in the driver's window: the line of now, and a second of the trace from point to point of the line of speeds."""

    def setUp(self) -> None:
        super().setUp()
        self.click("driver-open")
        until("there is a second window", lambda: len(self.browser.window_handles) == 2)
        until("it is drawn", lambda: self.js(f"return {OTHER}.document.getElementById('gear')?.textContent"))
        recorded(self, ROAD)
        #: Whether a run is on, and the seconds of the lead time; nothing is set.
        self.on, self.lead = False, 3.0

    def shown(self, name: str) -> str:
        text: str = self.js(f"return {OTHER}.document.getElementById(arguments[0]).textContent", name)
        return text

    def drive_at(self, second: int, more: int) -> Sheet:
        self.js(PLACE, second, more)
        # From its first start on, paused or not.
        self.on = self.on or more > 0
        return sheet(self, ROAD, OTHER)

    def axes(self, drawn: Sheet, at: float) -> tuple[Scale, Scale]:
        """Seconds and speeds."""
        (line,) = drawn.of("line", "accent")
        (now,) = drawn.of("line", "now")
        a_second = line["points"][1][0] - line["points"][0][0]
        labels = [(each["y"] - drawn.size(each) / 0.8 * 0.3, float(each["words"])) for each in drawn.of("text", "muted", align="right")]
        return Scale(at - now["points"][0][0] / a_second, 1 / a_second), scale(labels)

    def check(self, card: Card, second: int, more: int) -> None:
        (job, worked), at = card, second + more / 1000
        drawn = self.drive_at(second, more)
        xs, ys = self.axes(drawn, at)
        (line,) = drawn.of("line", "accent")
        seen = [whole(xs.value(x)) for x, _ in line["points"]]
        self.assertTrue(seen[0] <= max(0, at - 5) and seen[-1] >= min(len(worked) - 1, at + 20), (seen[0], seen[-1]))
        for k, (_, y) in zip(seen, line["points"]):
            self.assertAlmostEqual(ys.value(y), job.speeds[k] / 10, delta=0.02)
        # Between two seconds the speed is on the line between them.
        speed = job.speeds[second] + (job.speeds[min(second + 1, len(worked) - 1)] - job.speeds[second]) * more / 1000
        (dot,) = drawn.of("shape", "now")
        ((x, y, _),) = dot["points"]
        self.assertAlmostEqual(xs.value(x), at, delta=0.01)
        self.assertAlmostEqual(ys.value(y), speed / 10, delta=0.02)
        self.assertEqual(self.shown("speed"), f"{speed / 10:.1f}")
        self.assertEqual((self.shown("gear"), self.shown("clutch")), (str(worked[second] % 16 or "N"), f"Clutch {'down' if worked[second] >= 16 else 'up'}"))
        self.assertEqual(self.shown("hold"), "HELD" if job.holds[second] else "")
        change = next((k for k in range(second, len(worked)) if worked[k] % 16 != worked[second] % 16), None)
        self.assertEqual(self.shown("next"), "no change" if change is None else f"{worked[change] % 16 or 'N'} in {math.ceil(change - at)} s")
        self.gears(drawn, xs, card, seen)
        self.strips(drawn, xs, card, seen)
        self.near(drawn, xs, ys, at)
        self.nothing_else(drawn, xs, ys)

    def gears(self, drawn: Sheet, xs: Scale, card: Card, seen: list[int]) -> None:
        """Every number stands over seconds of its gear, and every long stretch has one."""
        (job, worked), told = card, {}
        for each in drawn.of("text", align="center"):
            second = math.floor(xs.value(each["x"]))
            self.assertEqual(each["words"], str(worked[second] % 16 or "N"))
            told[second] = each
        first = seen[0]
        for k in [k for k in seen[1:] if worked[k] % 16 != worked[k - 1] % 16] + [seen[-1] + 1]:
            stretch = [second for second in range(first, k) if xs.place(second) > 60 and xs.place(second + 1) < drawn.width]
            texts = [text for second, text in told.items() if first <= second < k]
            if len(stretch) > 2:
                self.assertEqual(len(texts), 1, (first, k))
            for text in texts:
                self.assertEqual(text["colour"] == drawn.colours["held"], any(job.holds[first:k]), text)
            first = k

    def strips(self, drawn: Sheet, xs: Scale, card: Card, seen: list[int]) -> None:
        job, worked = card
        self.assertEqual(spans(xs, list(drawn.of("rect", "muted"))), {k for k in seen if worked[k] >= 16})
        self.assertEqual(spans(xs, list(drawn.of("rect", "held"))), {k for k in seen if job.holds[k]})

    def near(self, drawn: Sheet, xs: Scale, ys: Scale, at: float) -> None:
        """The lead time of a run that is on, from now and as high as the speeds' axis; behind all but the axis, so that it hides nothing."""
        (mark,) = drawn.of("rect", "chosen")
        self.assertAlmostEqual(xs.value(mark["x"]), at, delta=0.01)
        self.assertAlmostEqual(mark["width"] * xs.per, self.lead if self.on else 0, delta=0.01)
        labels = [float(each["words"]) for each in drawn.of("text", "muted", align="right")]
        self.assertAlmostEqual(ys.value(mark["y"]), max(labels), delta=0.02)
        self.assertAlmostEqual(ys.value(mark["y"] + mark["height"]), 0, delta=0.02)
        self.assertEqual(drawn.calls.index(mark), 2 * len(labels), "after a line and a label each")

    def nothing_else(self, drawn: Sheet, xs: Scale, ys: Scale) -> None:
        """Lines of the speeds' labels and of the changes of gear, the trace, now, the lead time and the strips: whatever else were drawn, as the tolerances,
        would be told by this."""
        labels = {each["words"] for each in drawn.of("text", "muted", align="right")}
        rest = [call for call in drawn.calls if call["kind"] not in ("text", "rect")]
        for each in list(drawn.of("line", "line")):
            (a, top), (b, bottom) = each["points"]
            if top == bottom:
                self.assertIn(f"{whole(ys.value(top))}", labels)
            else:
                self.assertEqual(a, b)
                whole(xs.value(a))
            rest.remove(each)
        wanted = [(kind, drawn.colours[name]) for kind, name in (("line", "accent"), ("line", "now"), ("shape", "now"))]
        self.assertEqual([(each["kind"], each["colour"]) for each in rest], wanted)
        self.assertLessEqual({each["colour"] for each in drawn.of("rect")}, {drawn.colours[name] for name in ("muted", "held", "chosen")})

    def test_the_road(self) -> None:
        card = native("class-3.job")
        for second, more in ((12, 0), (12, 900), (60, 0), (60, 400), (61, 900), (500, 300), (1470, 250), (1795, 600), (1800, 0)):
            with self.subTest(second=second, more=more):
                self.check(card, second, more)

    def test_the_road_with_holds(self) -> None:
        self.choose(760, 768)
        self.keys("4")
        for second, more in ((755, 100), (759, 700), (762, 400), (768, 900), (769, 0)):
            self.check(native("class-3.job", (760, 768, 4)), second, more)

    def test_the_lead_time(self) -> None:
        """As it is written, at most a minute; three seconds where that is no time; none before a run and after it."""
        card = native("class-3.job")
        self.check(card, 60, 0)
        self.assertFalse(self.on)
        for written, self.lead in (("0", 0.0), ("2.5", 2.5), ("10", 10.0), ("600", 60.0), ("-1", 3.0), ("soon", 3.0)):
            self.write("lead", written)
            self.check(card, 60, 400)
        self.click("stop")
        self.on = False
        self.check(card, 61, 0)

    def test_the_tolerances_change_nothing_for_the_driver(self) -> None:
        self.click("tolerances")
        self.check(native("class-3.job"), 60, 400)

    def test_by_pixels(self) -> None:
        """The strips, by the colours on the canvas; the line of now stands over them."""
        self.choose(760, 768)
        self.keys("4", Keys.ESCAPE)
        job, card = native("class-3.job", (760, 768, 4))
        for at in (757, 783):
            drawn = self.drive_at(at, 250)
            xs, _ = self.axes(drawn, at + 0.25)
            size = drawn.size(next(drawn.of("text", "muted", align="right"))) / 0.8
            seconds = [k for k in range(at - 3, at + 19) if k != at]
            places = [xs.place(k + 0.5) for k in seconds]
            colours = drawn.colours
            down = pixels(self, ROAD, [(x, drawn.height - size * 0.58) for x in places])
            self.assertEqual([each == colours["muted"] for each in down], [card[k] >= 16 for k in seconds])
            held = pixels(self, ROAD, [(x, drawn.height - size * 3.1 + size * 0.52) for x in places])
            self.assertEqual([each == colours["held"] for each in held], [job.holds[k] != 0 for k in seconds])

    def test_the_lead_time_by_pixels(self) -> None:
        """Between two lines of the axis that the trace is far below."""
        drawn = self.drive_at(60, 400)
        xs, ys = self.axes(drawn, 60.4)
        seconds = [k for k in range(57, 79) if k != 60]
        above = ys.place(max(native("class-3.job")[0].speeds[57:80]) / 10 + 5)
        found = pixels(self, ROAD, [(xs.place(k + 0.5), above) for k in seconds])
        self.assertEqual([k for k, each in zip(seconds, found) if each], [61, 62])
