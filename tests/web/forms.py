"""The forms: the vehicle in people's units, and the trace. What is refused is said at its field, and nothing has changed then."""

from __future__ import annotations

import gearcard

from .browser import TOP, PageTest, until

#: A value of each field with one number that is out of bounds, and the field's number in refusal 3.
OUT_OF_BOUNDS = {
    "idle": (3, "299"),
    "rated": (4, "750"),
    "nmax": (5, "15001"),
    "f0": (6, "1000.1"),
    "f1": (7, "5.001"),
    "f2": (8, "0.20001"),
    "tm": (9, "399"),
    "margin": (10, "51"),
}

#: What a form says is wrong, by the number of the field where it stands.
ERRORS = """
const lines = document.querySelectorAll('#vehicle .error:not([hidden])');
return Array.from(lines, (line) => [line.closest('[data-field]')?.dataset.field ?? '', line.textContent]);
"""


class Vehicle(PageTest):
    def setUp(self) -> None:
        super().setUp()
        self.before = self.present()
        self.click("vehicle-open")

    def fill(self, **values: str | bool) -> None:
        """Writes into the fields of the form, by their names."""
        for name, value in values.items():
            field = self.browser.find_element("css selector", f"#vehicle [name={name}]")
            if isinstance(value, bool):
                if field.is_selected() != value:
                    field.click()
            elif field.tag_name == "select":
                self.js("arguments[0].value = arguments[1]", field, value)
            else:
                self.js("arguments[0].value = arguments[1]; arguments[0].dispatchEvent(new Event('input'))", field, value)

    def apply(self) -> None:
        self.js("document.getElementById('vehicle-form').requestSubmit()")

    def errors(self) -> dict[str, str]:
        return dict(self.js(ERRORS))

    def assertRefusedAt(self, field: int, place: int) -> None:
        self.apply()
        self.assertEqual(list(self.errors()), [str(field)])
        self.assertRegex(self.errors()[str(field)], f"^refused 3 at {place}: .{{10,}}")
        self.assertTrue(self.js("return document.getElementById('vehicle').open"))
        self.assertEqual(self.present(), self.before)

    def test_it_opens_with_the_present_vehicle_and_applies_it_unchanged(self) -> None:
        self.apply()
        self.assertFalse(self.js("return document.getElementById('vehicle').open"))
        self.assertEqual(self.present(), self.before)

    def test_each_field_has_its_bounds_and_refusal_3_stands_there(self) -> None:
        for name, (place, value) in OUT_OF_BOUNDS.items():
            with self.subTest(name):
                self.js("document.getElementById('vehicle').close()")
                self.click("vehicle-open")
                self.fill(**{name: value})
                self.assertRefusedAt(place, place)
                self.assertEqual(self.js("return document.activeElement.name"), name)
                hint = self.js("return document.getElementById(`hint-${arguments[0]}`).textContent", name)
                self.assertRegex(hint, "to [0-9]")

    def test_gears_and_curve(self) -> None:
        self.fill(**{f"ratio{k}": "" for k in range(1, 6)})
        self.assertRefusedAt(2, 1)
        self.fill(ratio1="133.00")
        self.assertRefusedAt(2, 2)
        self.js("document.getElementById('vehicle').close()")
        self.click("vehicle-open")
        self.fill(curve="750\t8")
        self.assertRefusedAt(12, 11)
        self.fill(curve="750\t8\n2500\t48\n6200\t90")
        self.assertRefusedAt(12, 12)
        self.fill(curve="751\t8\n1500\t26\n2500\t48\n3500\t70\n4500\t88\n5500\t95\n6200\t90")
        self.assertRefusedAt(12, 13)

    def test_version_and_profile(self) -> None:
        self.fill(profile=True)
        self.assertRefusedAt(2, 1)
        self.fill(version="3")
        self.apply()
        state = self.present()
        self.assertEqual((state["version"], state["vehicle"]["profile"]), (3, 1))
        self.assertRight()
        self.assertEqual(self.js("return document.querySelector('#gears button').textContent"), "2", "a crawler has no button")
        self.click("vehicle-open")
        self.fill(profile=False, version="1", curve="750 8 5\n1500 26 0\n2500 48 0\n3500 70 0\n4500 88 0\n5500 95 0\n6200 90 0")
        self.before = state
        self.assertRefusedAt(12, 12)

    def test_a_word_that_is_no_number_is_said_at_its_field(self) -> None:
        self.fill(idle="8o0", f0="100,5", f2="0.0330001", curve="750 8\n1500 x")
        self.apply()
        said = self.errors()
        self.assertEqual(said["3"], "'8o0' is no number")
        self.assertEqual(said["6"], "'100,5' is no number: a decimal point is read, and no comma")
        self.assertRegex(said["8"], "is no whole number of hundred-thousandths")
        self.assertEqual(said["12"], "line 2: 'x' is no number")
        self.assertEqual(self.present(), self.before)

    def test_a_curve_pasted_from_a_spreadsheet(self) -> None:
        self.fill(curve="min-1;kW\n700;8,5\n1500;26\n2500;48,0\n3500;70\n4500;88\n5500;95\n6200;90")
        self.apply()
        self.assertEqual(self.present()["vehicle"]["curve"][0], {"n": 700, "p": 85, "m": 0})
        self.assertRight()
        self.click("undo")
        self.assertEqual(self.present(), self.before)

    def test_a_bench_export_goes_into_the_fields(self) -> None:
        self.fill(idle="760")
        self.take(TOP / "examples" / "loaded.export")
        found = gearcard.export((TOP / "examples" / "loaded.export").read_bytes())
        value = "return document.querySelector(`#vehicle [name=${arguments[0]}]`).value"
        until("it is there", lambda: self.js(value, "tm") == str(found.tm))
        self.assertEqual(self.present(), self.before)
        self.take(TOP / "examples" / "no-number.export")
        until("it is refused", lambda: self.errors())
        self.assertRegex(self.errors()[""], "^no-number.export: refused 20 at 5: ")
        self.apply()
        vehicle = self.present()["vehicle"]
        self.assertEqual([vehicle[name] for name in (*found._fields, "idle")], [*found, 760])
        self.assertRight()

    def test_another_refusal_is_said_in_the_form_and_marked(self) -> None:
        """With one gear fewer, the sixth that is held is no gear."""
        self.js("document.getElementById('vehicle').close()")
        self.choose(1700)
        self.keys("6")
        self.before = self.present()
        self.click("vehicle-open")
        self.fill(ratio5="")
        self.apply()
        self.assertRegex(self.errors()[""], "^refused 7 at 1700: ")
        self.assertEqual(self.present(), self.before)


class Trace(PageTest):
    def use(self, way: str, **values: str) -> None:
        self.click("trace-open")
        for name, value in {"way": way, **values}.items():
            self.js("document.getElementById('trace-form').elements[arguments[0]].value = arguments[1]", name, value)
        self.js("document.getElementById('trace-form').requestSubmit()")

    def said(self) -> list[str]:
        lines: list[str] = self.js("return Array.from(document.querySelectorAll('#trace .error:not([hidden])'), (line) => line.textContent)")
        return lines

    def test_the_cycle_its_parts_and_scaled_down(self) -> None:
        for part, factor in ((1, "0.000"), (4, "0.123"), (0, "0.500"), (0, "0")):
            self.use("cycle", part=str(part), factor=factor)
            thousandths = round(float(factor) * 1000)
            wanted = gearcard.downscale(thousandths, part) if thousandths else gearcard.cycle(part)
            self.assertEqual(self.present()["speeds"], list(wanted))
            self.assertRight()
        for _ in range(4):
            self.click("undo")
        self.assertEqual(self.present()["speeds"], list(gearcard.cycle()))

    def test_a_factor_over_a_half_is_refused_at_its_field(self) -> None:
        before = self.present()
        self.use("cycle", part="0", factor="0.501")
        self.assertRegex(self.said()[0], "^refused 23 at 0: ")
        self.assertEqual(self.present(), before)

    def test_pasted_speeds(self) -> None:
        for text, wanted in (
            ("0\n5.0\n15\n10\n0\n", [0, 50, 150, 100, 0]),
            ("second\tspeed\n0\t0,0\n1\t5,5\n2\t0,0", [0, 55, 0]),
            ("second,speed\n10,0\n11,5.5\n12,0", [0, 55, 0]),
            ("0; 0\r\n1; 1,2\r\n2; 0\r\n", [0, 12, 0]),
            ("time;speed\nhh:mm:ss;km/h\n09:59:59;0\n10:00:00;5,5\n10:00:01;0", [0, 55, 0]),
        ):
            self.use("pasted", speeds=text)
            self.assertEqual((self.said(), self.present()["speeds"]), ([], wanted))
            self.assertRight()

    def test_keys_settle_what_cannot_be_told(self) -> None:
        table = "Bench 4\nrow;mark;v\n0;0,0;0\n1;0,5;3\n2;1,0;5,5\n3;1,5;9\n4;2,0;0\n"
        self.use("pasted", speeds=table)
        self.assertEqual(self.said(), ["line 3: it has 2 cells, and line 1 has 1 (trace.skip = N passes over N lines above the header)"])
        self.js("document.getElementById('trace').close()")
        self.use("pasted", speeds=table, skip="1", column="v", time="mark")
        self.assertRegex(self.said()[0], "^line 4: the time 0,5 is 0.500 s after the line before, and must be 1.000 s after it .trace.hertz = N")
        self.js("document.getElementById('trace').close()")
        self.use("pasted", speeds=table, skip="1", column="3", time="2", hertz="2")
        self.assertEqual((self.said(), self.present()["speeds"]), ([], [0, 55, 0]))
        self.use("pasted", speeds=table, hertz="3")
        self.assertRegex(self.said()[0], "^trace.hertz = 3 is not ")

    def test_what_is_pasted_is_read_right_or_refused_with_its_line(self) -> None:
        before = self.present()
        long = "\n".join(["0"] * 16385)
        for text, wanted in (
            ("", "it has no row"),
            ("0\n5.05\n0", "line 2: the speed 5.05 is no whole number of tenths of km/h: the nearest that are, are 5.0 and 5.1"),
            ("0\n5,5\n0", "line 2: it has 2 cells, and line 1 has 1"),
            ("0,0\n5,5\n0,0", "line 1: a comma may stand between columns here or be a decimal comma"),
            ("0\t0\n2\t5\n3\t0\n4\t0", "line 2: the time 2 is 2.000 s after the line before"),
            ("1\t2\t3", "line 1: none is named, and there is no header: say by trace.column the number of the column, 1 to 3"),
            ("speed [mph]\n0\n5\n0", "line 1: the speed is in mph, and km/h is read"),
            ("0\n\n5\n0", "line 2: the row is blank, and more rows follow"),
            ("0\nfast\n0", "line 2: 'fast' is no number"),
            ("0\n-5\n0", "line 2: the speed -5 is not from 0.0 to 6553.5 km/h, which is what a job can carry"),
            ("0\n200.1\n0", "refused 4 at 1: "),
            ("0\n15.1\n0", "refused 5 at 1: "),
            ("5\n5\n0", "refused 6 at 0: "),
            (long, "refused 1 at 0: "),
        ):
            with self.subTest(text[:20]):
                self.use("pasted", speeds=text)
                self.assertTrue(self.said()[0].startswith(wanted), self.said())
                self.assertEqual(self.present(), before)
                self.js("document.getElementById('trace').close()")
