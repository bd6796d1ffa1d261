"""`record`: what a driver was shown against the card of a job, and records that are none."""

from __future__ import annotations

import hashlib
import json
import random
from typing import Any

from gearcard import hold, read, work, write

from .words import EXAMPLES, Words

JOB = (EXAMPLES / "class-3.job").read_bytes()
START = 20


def time_of(second: float) -> str:
    return f"2026-11-16T12:{int(second) // 60:02}:{second % 60:06.3f}Z"


class Record(Words):
    def setUp(self) -> None:
        super().setUp()
        job = read(JOB)
        self.card = work(*job[:3])
        shown = [
            {"time": time_of(k), "second": k, "gear": byte % 16, "clutch": "down" if byte >= 16 else "up", "hold": 0}
            for k, byte in enumerate(self.card[START:120], START)
        ]
        digest = hashlib.sha256(JOB).hexdigest()
        self.record: dict[str, Any] = {
            "format": "gearcard run 1", "version": "1.0.0", "commit": "0", "began": time_of(0), "ended": time_of(120), "lead": 3,
            "job": {"name": "class-3.job", "seconds": 1801, "before": digest, "after": digest}, "shown": shown, "edits": [], "events": [],
        }  # fmt: skip

    def compared(self, *words: str, job: str = "class-3.job") -> str:
        self.file("class-3.run.json", json.dumps(self.record))
        return self.answers("record", "class-3.run.json", job, *words)

    def hold(self, second: int, gear: int, at: float) -> None:
        """A hold amid the run, in the job and in the record."""
        job = read((self.folder / "class-3.job").read_bytes())
        before, card = work(*job[:3]), work(*job[:3])
        hold(job.vehicle, job.speeds, job.holds, card, second, gear)
        data = write(*job)
        self.file("class-3.job", data)
        changed = [[k, k] for k in range(len(card)) if card[k] != before[k]]
        what = f"second {second} held in gear {gear}"
        edit: dict[str, Any] = {"time": time_of(at), "at": at, "what": what, "first": second, "last": second, "changed": changed}
        self.record["edits"].append({**edit, "ahead": second - at, "driven": second >= int(at)})
        self.record["job"]["after"] = hashlib.sha256(data).hexdigest()

    def test_what_was_shown_is_what_the_card_says(self) -> None:
        self.assertEqual(
            self.compared(),
            "seconds 0 to 19: not shown: the run began after it\nseconds 120 to 1800: not shown: the run did not come there\n"
            "100 seconds shown, 0 of them otherwise than the card of class-3.job says\n",
        )
        self.assertEqual(self.compared("--json"), "[]\n")

    def test_a_hold_behind_the_driver(self) -> None:
        self.hold(60, 4, 80.5)
        said = self.compared()
        self.assertIn("second 60: shown gear 2, clutch up at 12:01:00.000; the card has gear 4, clutch up: second 60 held in gear 4 at 12:01:20.500, "
                      "when the driver was past it\n", said)
        self.assertIn("100 seconds shown, 1 of them otherwise", said)
        self.assertEqual(
            self.compared("--csv"),
            "time,second,gear,clutch,card gear,card clutch,why\n"
            f'{time_of(60)},60,2,up,4,up,"second 60 held in gear 4 at 12:01:20.500, when the driver was past it"\n',
        )

    def test_a_hold_at_the_second_that_is_driven_is_shown_both_ways(self) -> None:
        self.hold(60, 4, 60.5)
        self.record["shown"].insert(60 - START + 1, {"time": time_of(60.516), "second": 60, "gear": 4, "clutch": "up", "hold": 4})
        said = self.compared()
        self.assertIn("the card has gear 4, clutch up: second 60 held in gear 4 at 12:01:00.500, after it was shown\n", said)
        self.assertEqual(said.count("second 60:"), 1)

    def test_another_job(self) -> None:
        self.hold(60, 4, 80.5)
        self.file("before.job", JOB)
        said = self.compared(job="before.job")
        self.assertTrue(said.startswith("before.job is the job as it was before the run\n"))
        self.assertIn("100 seconds shown, 0 of them otherwise than the card of before.job says", said)
        said = self.compared(job="car-z.job")
        self.assertRegex(said, "^car-z.job is another job than the record's, class-3.job: its SHA-256 is [0-9a-f]{64}\n")
        self.assertIn("the card has none: the job has no such second", said)

    def test_seconds_that_were_not_shown(self) -> None:
        del self.record["shown"][10:15], self.record["shown"][50]
        self.record["events"] = [{"time": time_of(30), "at": 30.6, "event": "lost"}, {"time": time_of(35), "at": 34.8, "event": "found"}]
        said = self.compared()
        self.assertIn("seconds 30 to 34: not shown: the driver's window was lost\n", said)
        self.assertIn("second 75: not shown: no frame came\n", said)

    def test_what_is_no_record(self) -> None:
        for data, words in (
            (b"", "it is no record of a run: it is no JSON"),
            (b"\xff", "it is no record of a run: it is no JSON"),
            (b"[" * 100000, "it is no record of a run: it is no JSON"),
            (b"[]", "it is no record of a run: its format is not 'gearcard run 1'"),
            (json.dumps({**self.record, "shown": {}}).encode(), "it has no list 'shown'"),
            (json.dumps({**self.record, "job": None}).encode(), "job.name is missing"),
            (json.dumps({**self.record, "shown": [{**self.record["shown"][0], "second": True}]}).encode(), "shown[0].second is missing"),
            (json.dumps({**self.record, "edits": [{"time": "", "at": 1, "what": "", "changed": [1], "driven": False}]}).encode(), "an edit of it has no"),
        ):
            with self.subTest(data[:40]):
                self.file("odd.json", data)
                status, out, said = self.run_words("record", "odd.json", "class-3.job")
                self.assertEqual((status, out), (2, ""))
                self.assertTrue(said.startswith(f"gearcard: odd.json: {words}"), said)
        self.assertEqual(self.run_words("record", "none.json", "class-3.job")[0], 2)

    def test_any_cut_or_change_of_a_record_is_read_or_refused(self) -> None:
        r, data = random.Random(50), json.dumps(self.record).encode()
        for _ in range(150):
            odd = bytearray(data)
            for _ in range(r.randint(1, 3)):
                odd[r.randrange(len(odd))] = r.choice(b'0123456789"{}[]:,tfn-')
            self.file("odd.json", bytes(odd[: r.randint(1, len(odd))]) if r.random() < 0.3 else bytes(odd))
            status, out, said = self.run_words("record", "odd.json", "class-3.job")
            self.assertEqual((status in (0, 2), bool(out), said.count("\n")), (True, status == 0, 0 if status == 0 else 1), said)
            self.assertNotIn("should not have happened", said)
