"""The record of a run: what the frames had, saved as files, and compared with the job by `./gearcard record`."""

from __future__ import annotations

import hashlib
import json
import subprocess
import sys
import unittest
from typing import Any

from selenium import webdriver
from selenium.webdriver.chrome.service import Service

from .browser import DOWNLOADS, PAGE, TOP, PageTest, gearcard, options, until, untyped
from .run_slips import ANSWER, ASKED
from .run_window import GOOD, START

#: Frames that are looked at, half of them at 1x and half at 8x.
FRAMES = 10000

#: Two hands set holds amid the tick, at the second that is driven and the next, while every frame of the driver's window is looked at: what it shows goes
#: into a list wherever it is another than the frame before showed. At the end the record is that list.
HANDS = """
const [wanted, done] = arguments, other = gearcardPage.driver(), by = (id) => document.getElementById(id);
let seed = 50, frames = 0, wrong = 0, edits = 0, first = '', stopped = false;
const seen = [], below = (most) => { seed = (Math.imul(seed, 1103515245) + 12345) & 0x7fffffff; return Math.floor(seed / 0x80000000 * most); };
const shown = (id) => other.document.getElementById(id).textContent;
const begin = gearcardPage.record().shown.length;
const line = (row) => [row.second, row.gear ? String(row.gear) : 'N', `Clutch ${row.clutch}`, row.hold ? 'HELD' : ''].join();
const look = () => {
  frames++;
  const second = Number(other.document.body.dataset.second);
  const now = [second, shown('gear'), shown('clutch'), shown('hold')].join();
  if (seen.at(-1) !== now) seen.push(now);
  const kept = line(gearcardPage.shown());
  if (kept !== now) { wrong++; first ||= `${now}; the record has ${kept}`; }
  if (frames < wanted) { other.requestAnimationFrame(look); return; }
  stopped = true;
  const rows = gearcardPage.record().shown.slice(begin).map(line);
  const list = rows.filter((row, k) => row !== rows[k - 1]);
  // The frame that was on the screen when the looking began was written down before it.
  const from = list[0] === seen[0] ? 0 : 1;
  const differing = seen.slice(from).filter((row, k) => row !== list[k]).length;
  done({ frames, wrong, first, edits, rows: list.length, seen: seen.length, differing });
};
const hand = (pause) => {
  if (stopped) return;
  const second = Math.min(1800, Math.floor(gearcardPage.at()) + below(2));
  by('from').value = second; by('to').value = second; by('range').requestSubmit();
  const key = below(10) < 7 ? String(1 + below(6)) : 'Delete';
  document.body.dispatchEvent(new KeyboardEvent('keydown', { key, bubbles: true, cancelable: true }));
  document.querySelector('#ask:not([hidden]) button')?.click();
  edits++;
  setTimeout(() => hand(pause), below(pause));
};
other.requestAnimationFrame(() => other.requestAnimationFrame(() => { look(); hand(40); hand(90); }));
"""

#: A process that does nothing but work.
BUSY = "import time\nend = time.monotonic() + 600\nwhile time.monotonic() < end: pass"


class Record(PageTest):
    def begin(self, rate: str = "10") -> None:
        self.click("driver-open")
        until("it is filled", lambda: self.js(GOOD))
        self.js(START, rate)

    def saved(self) -> dict[str, Any]:
        for name in ("class-3.run.json", "class-3.run.csv"):
            (DOWNLOADS / name).unlink(missing_ok=True)
        self.click("stop")
        until("it asks", lambda: self.js(ASKED))
        self.js(ANSWER, "Save record")
        for name in ("class-3.run.json", "class-3.run.csv"):
            until("it is saved", (DOWNLOADS / name).exists)
        record: dict[str, Any] = json.loads(until("it is whole", (DOWNLOADS / "class-3.run.json").read_text))
        return record

    def save_job(self) -> bytes:
        path = DOWNLOADS / "class-3.job"
        path.unlink(missing_ok=True)
        self.click("save")
        until("the job is saved", path.exists)
        return path.read_bytes()

    def test_a_run_with_edits_and_what_the_command_says_of_it(self) -> None:
        before = (TOP / "examples/class-3.job").read_bytes()
        shown = "return gearcardPage.record().shown.some((row) => row.second === arguments[0])"
        self.choose(18)
        self.click("run-from")
        self.begin("1")
        until("second 20 is shown", lambda: self.js(shown, 20))
        self.click("start")
        self.choose(52)
        self.click("run-from")
        # One behind the driver, one ahead of him.
        self.choose(20)
        self.keys("4")
        self.choose(60)
        self.keys("4")
        card = self.present()["card"]
        self.click("start")
        until("second 61 is shown", lambda: self.js(shown, 61), 60)
        record = self.saved()
        job = self.save_job()
        self.assertEqual((record["format"], record["version"]), ("gearcard run 1", (TOP / "VERSION").read_text().strip()))
        self.assertRegex(record["commit"], "^[0-9a-f]{7,}")
        hashes = {"before": hashlib.sha256(before).hexdigest(), "after": hashlib.sha256(job).hexdigest()}
        self.assertEqual(record["job"], {"name": "class-3.job", "seconds": 1801, **hashes})
        edits = [(each["what"], each["driven"]) for each in record["edits"]]
        self.assertEqual(edits, [("second 20 held in gear 4", False), ("second 60 held in gear 4", True)])
        events = [each["event"] for each in record["events"] if each["event"] not in ("lost", "found")]
        self.assertEqual(events, ["rate", "start", "pause", "seek", "start", "end"])
        self.assertEqual(sorted(row["time"] for row in record["shown"]), [row["time"] for row in record["shown"]])
        row = next(row for row in record["shown"] if row["second"] == 60)
        self.assertEqual((row["gear"], row["clutch"], row["hold"]), (card[60] % 16, "down" if card[60] >= 16 else "up", 4))
        lines = (DOWNLOADS / "class-3.run.csv").read_text().splitlines()
        self.assertEqual((lines[0], len(lines) - 1), ("time,second,gear,clutch,hold", len(record["shown"])))
        done = gearcard("record", DOWNLOADS / "class-3.run.json", DOWNLOADS / "class-3.job")
        self.assertEqual((done.returncode, done.stderr), (0, ""))
        why = r"the card has gear 4, clutch \w+: second 20 held in gear 4 at \S+, when the driver was past it"
        self.assertRegex(done.stdout, rf"second 20: shown gear \d, clutch \w+ at \S+; {why}")
        self.assertNotIn("second 60: shown", done.stdout)
        done = gearcard("record", DOWNLOADS / "class-3.run.json", TOP / "examples/class-3.job")
        self.assertRegex(done.stdout, "^class-3.job is the job as it was before the run\n")
        self.assertRegex(done.stdout, "second 60: shown gear 4")

    def test_seeks_and_rates_are_written_down(self) -> None:
        self.begin("2")
        self.choose(100)
        self.click("run-from")
        self.js("const rate = document.getElementById('rate'); rate.value = '8'; rate.dispatchEvent(new Event('change'))")
        self.click("ahead")
        record = self.saved()
        events = [(each["event"], each.get("value")) for each in record["events"] if each["event"] not in ("lost", "found")]
        self.assertEqual([events[0], *events[2:4]], [("rate", 2), ("seek", 100), ("rate", 8)])
        self.assertEqual([each[0] for each in events[4:]], ["seek", "end"])

    def test_there_is_none_without_a_run(self) -> None:
        self.js("document.getElementById('record-json').click()")
        self.assertEqual(self.alert(), "There is no record: no run was started.")


class Hands(unittest.TestCase):
    """As fast as frames can come, beside processes that take the processor away."""

    def test_the_record_is_what_the_frames_had(self) -> None:
        browser = webdriver.Chrome(options=options("--disable-frame-rate-limit", "--disable-gpu-vsync"), service=Service("/usr/bin/chromedriver"))
        self.addCleanup(browser.quit)
        browser.set_script_timeout(600)
        if not PAGE.exists():
            self.assertEqual(gearcard("page", "-o", PAGE).returncode, 0)
        busy = [subprocess.Popen([sys.executable, "-c", BUSY]) for _ in range(2)]
        for each in busy:
            self.addCleanup(each.wait)
            self.addCleanup(each.kill)
        for rate in ("1", "8"):
            browser.get(PAGE.as_uri())
            until("it is ready", lambda: untyped(browser).execute_script("return document.documentElement.dataset.ready !== undefined"))
            chosen = "for (const id of ['from', 'to']) document.getElementById(id).value = 20;"
            untyped(browser).execute_script(f"{chosen} document.getElementById('range').requestSubmit()")
            browser.find_element("id", "run-from").click()
            browser.find_element("id", "driver-open").click()
            until("it is filled", lambda: untyped(browser).execute_script(GOOD))
            untyped(browser).execute_script(START, rate)
            found = untyped(browser).execute_async_script(HANDS, FRAMES // 2)
            print(
                f"web: two hands at {rate}x under load: {found['frames']} frames, {found['edits']} edits, {found['rows']} lines of the record; "
                f"{found['wrong']} frames and {found['differing']} lines differ"
            )
            self.assertEqual((found["wrong"], found["first"], found["differing"]), (0, "", 0))
            self.assertEqual(found["frames"], FRAMES // 2)
            self.assertGreater(found["rows"], 10)
            self.assertGreater(found["edits"], 50)
            untyped(browser).execute_script("document.getElementById('stop').click(); localStorage.clear()")
