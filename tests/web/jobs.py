"""Seeded jobs: the card in the page is the native library's, byte for byte, and so is everything else that the package answers there."""

from __future__ import annotations

import random
from typing import Any, Callable, TypeVar

import gearcard
from tests.tools import seeded

from .browser import PageTest

Answer = TypeVar("Answer")

#: Jobs that are compared.
JOBS = 100

#: A job's bytes read, worked, counted, held, released, mended and written by the package in the page.
ANSWERS = """
const [bytes, second, gear, speed] = arguments;
const told = (run) => { try { return run() } catch (why) { if (why.name !== 'Refused') throw why; return [why.number, why.place] } };
const { version, vehicle, speeds, holds } = gearcard.read(Uint8Array.from(bytes));
const card = told(() => gearcard.work(vehicle, speeds, holds));
if (!ArrayBuffer.isView(card)) return [card];
let counts = gearcard.summary(speeds, card);
const out = [Array.from(card), [counts.standing, counts.gears, counts.changes]];
for (const edit of [() => gearcard.hold(vehicle, speeds, holds, card, second, gear, counts),
                    () => gearcard.mend(vehicle, speeds, holds, card, second, speed, counts),
                    () => gearcard.release(vehicle, speeds, holds, card, second, counts)]) {
  const after = told(edit);
  if (!Array.isArray(after)) counts = after;
  out.push(Array.isArray(after) ? after : [after.standing, after.gears, after.changes], Array.from(card));
}
return [...out, Array.from(gearcard.write(vehicle, speeds, holds, version))];
"""


def told(run: Callable[[], Answer]) -> Answer | list[int]:
    try:
        return run()
    except gearcard.Refused as refused:
        return [refused.number, refused.place]


def flat(found: gearcard.Summary | list[int] | None) -> list[Any] | None:
    """A summary or a refusal, as the page gives it."""
    return [found.standing, list(found.gears), found.changes] if isinstance(found, gearcard.Summary) else found


def answers(job: gearcard.Job, second: int, gear: int, speed: int) -> list[Any]:
    """The same by the native library."""
    vehicle, speeds, holds, version = job
    worked = told(lambda: gearcard.work(vehicle, speeds, holds))
    if isinstance(worked, list):
        return [worked]
    card = worked
    counts = gearcard.summary(speeds, card)
    out: list[Any] = [list(card), flat(counts)]
    for edit in (
        lambda: gearcard.hold(vehicle, speeds, holds, card, second, gear, summary=counts),
        lambda: gearcard.mend(vehicle, speeds, holds, card, second, speed, summary=counts),
        lambda: gearcard.release(vehicle, speeds, holds, card, second, summary=counts),
    ):
        after = told(edit)
        counts = after if isinstance(after, gearcard.Summary) else counts
        out += [flat(after), list(card)]
    return [*out, list(gearcard.write(vehicle, speeds, holds, version))]


class Jobs(PageTest):
    def test_seeded_jobs_are_the_native_library_s(self) -> None:
        r, accepted, seconds = random.Random(37), 0, 0
        for seed in range(JOBS):
            job = seeded.job(seed)
            second = r.randrange(len(job.speeds))
            speed = max(0, job.speeds[second] + r.randint(-40, 40))
            asked = (second, r.randint(1, len(job.vehicle.ratios)), speed)
            found = self.js(ANSWERS, list(seeded.encoded(job)), *asked)
            self.assertEqual(found, answers(job, *asked), f"seed {seed}")
            accepted += len(found) > 1
            seconds += len(job.speeds)
        print(f"web: {JOBS} seeded jobs of {seconds} seconds, {accepted} with a card: no byte differs from the native library's")
        self.assertGreater(accepted, JOBS // 2)
