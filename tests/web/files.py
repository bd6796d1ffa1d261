"""Files in and out of the page."""

from __future__ import annotations

import random
from pathlib import Path

import gearcard

from .browser import DOWNLOADS, OUT, TOP, PageTest, until
from .browser import gearcard as tool

EXAMPLES = TOP / "examples"

#: Drops a file of these bytes on the page.
DROP = """
const data = new DataTransfer();
data.items.add(new File([Uint8Array.from(arguments[1])], arguments[0]));
for (const kind of ['dragover', 'drop']) window.dispatchEvent(new DragEvent(kind, {dataTransfer: data, bubbles: true, cancelable: true}));
"""


class Files(PageTest):
    def saved(self, button: str, name: str) -> bytes:
        """What the browser saves when a button is pressed."""
        path = DOWNLOADS / name
        path.unlink(missing_ok=True)
        if button != "save":
            self.browser.find_element("css selector", ".menu summary").click()
        self.click(button)
        until(f"{name} is saved", path.exists)
        return path.read_bytes()

    def opened(self, name: str) -> None:
        self.take(EXAMPLES / name)
        until(f"{name} is open", lambda: self.present()["name"] == name)

    def test_open_edit_save(self) -> None:
        self.opened("van.job")
        self.assertEqual(self.saved("save", "van.job"), (EXAMPLES / "van.job").read_bytes())
        self.choose(10)
        self.keys("4")
        job = gearcard.read((EXAMPLES / "van.job").read_bytes())
        job.holds[10] = 4
        self.assertEqual(self.saved("save", "van.job"), gearcard.write(*job))
        self.assertRight()

    def test_leaving_with_unsaved_edits_asks(self) -> None:
        asks = "const leaving = new Event('beforeunload', {cancelable: true}); window.dispatchEvent(leaving); return leaving.defaultPrevented"
        self.assertFalse(self.js(asks))
        self.choose(60)
        self.keys("4")
        self.assertTrue(self.js(asks))
        self.assertTrue(self.element("unsaved").is_displayed())
        self.saved("save", "class-3.job")
        self.assertFalse(self.js(asks))
        self.click("undo")
        self.assertTrue(self.js(asks))
        self.click("redo")
        self.assertFalse(self.js(asks))

    def test_opening_over_unsaved_edits_asks(self) -> None:
        self.choose(60)
        self.keys("4")
        before = self.present()
        self.js("window.confirm = (words) => { window.asked = words; return false }")
        self.take(EXAMPLES / "van.job")
        until("it asks", lambda: self.js("return window.asked"))
        self.assertEqual(self.present(), before)
        self.js("window.confirm = () => true")
        self.opened("van.job")

    def test_the_card_and_the_picture_are_those_of_the_tools(self) -> None:
        for name in ("class-3.job", "car-z-held.job", "van.job"):
            self.opened(name)
            csv = tool("card", "--csv", EXAMPLES / name).stdout
            svg = tool("picture", EXAMPLES / name, "-o", "-").stdout
            self.assertEqual(self.saved("csv", name.replace(".job", ".csv")).decode(), csv)
            self.assertEqual(self.saved("svg", name.replace(".job", ".svg")).decode(), svg)

    def test_a_job_that_is_dropped(self) -> None:
        self.js(DROP, "car-z.job", list((EXAMPLES / "car-z.job").read_bytes()))
        until("it is open", lambda: self.present()["name"] == "car-z.job")
        self.assertEqual(self.present()["card"], [17, 1, 2, 18, 0])

    def test_a_bench_export_that_is_dropped_is_one_step(self) -> None:
        before = self.present()
        self.js(DROP, "loaded.export", list((EXAMPLES / "loaded.export").read_bytes()))
        until("it is taken", lambda: self.present() != before)
        found = gearcard.export((EXAMPLES / "loaded.export").read_bytes())
        vehicle = self.present()["vehicle"]
        self.assertEqual([vehicle[name] for name in found._fields], list(found))
        self.assertRight()
        self.click("undo")
        self.assertEqual(self.present(), before)
        self.js(DROP, "no-number.export", list((EXAMPLES / "no-number.export").read_bytes()))
        until("it is refused", self.alert)
        self.assertRegex(self.alert(), "^no-number.export: refused 20 at 5: ")
        self.assertEqual(self.present(), before)

    def test_wrong_files(self) -> None:
        """One line on the page, and the state as it was."""
        before = self.present()
        r = random.Random(37)
        wrong: dict[str, tuple[bytes, str]] = {
            "empty.job": (b"", "refused 12 at 0: "),
            "random.job": (r.randbytes(5000), "refused "),
            "megabyte.job": (r.randbytes(1 << 20), "refused "),
            "longer.job": (bytes((1 << 20) + 1), "it is longer than any job"),
            "longest.csv": (bytes((16 << 20) + 1), "it is longer than any job or table"),
            "book.xlsx": (b"PK\x03\x04" + r.randbytes(3000), "it is a workbook: save the sheet as CSV"),
            "picture.png": (b"\x89PNG\r\n\x1a\n" + r.randbytes(3000), "refused 1"),
            "mine.toml": ((EXAMPLES / "class-3.toml").read_bytes(), "it is the text of a job"),
            "cut.job": ((EXAMPLES / "class-3.job").read_bytes()[:-1], "refused 12 at 3326: "),
            "more.job": ((EXAMPLES / "class-3.job").read_bytes() + b"\0", "refused 16 at 3327: "),
            "version.job": (b"\x04" + (EXAMPLES / "class-3.job").read_bytes()[1:], "refused 14 at 0: "),
            "refused.job": ((EXAMPLES / "refused.job").read_bytes(), "refused 9 at 4: "),
            "short.export": ((EXAMPLES / "car-z.export").read_bytes()[:-1], "refused 12 at 18: "),
        }
        for name, (data, words) in wrong.items():
            with self.subTest(name):
                path = OUT / name
                path.write_bytes(data)
                self.js("document.getElementById('alert').textContent = ''")
                self.take(path)
                until("it is said", self.alert)
                self.assertTrue(self.alert().startswith(f"{name}: {words}"), self.alert())
                self.assertNotIn("\n", self.alert())
                self.assertEqual(self.present(), before)


class FromTheTool(PageTest):
    """`./gearcard page FILE`."""

    def test_a_text_in_the_page(self) -> None:
        page = OUT / "van.html"
        self.assertEqual(tool("page", EXAMPLES / "van.toml", "-o", page).returncode, 0)
        self.open(page)
        job = gearcard.read((EXAMPLES / "van.job").read_bytes())
        self.assertEqual((self.present()["name"], self.present()["card"]), ("van.job", list(gearcard.work(*job[:3]))))

    def test_what_has_no_card_gives_no_page(self) -> None:
        page = OUT / "none.html"
        page.unlink(missing_ok=True)
        done = tool("page", EXAMPLES / "refused.job", "-o", page)
        self.assertEqual((done.returncode, page.exists()), (1, False))
        self.assertRegex(done.stderr, "^refused 9 at 4: .*\n$")
        done = tool("page", Path("no-such.job"), "-o", page)
        self.assertEqual((done.returncode, page.exists()), (2, False))
        self.assertRegex(done.stderr, "^gearcard: .*\n$")

    def test_a_name_cannot_break_out_of_the_page(self) -> None:
        job, page = OUT / '"><script>x.job', OUT / "odd.html"
        job.write_bytes((EXAMPLES / "car-z.job").read_bytes())
        self.assertEqual(tool("page", job, "-o", page).returncode, 0)
        self.open(page)
        self.assertEqual(self.present()["name"], '"><script>x.job')
