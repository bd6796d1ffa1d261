"""What is told of a second, word by word: the numbers of `why` as the library answers them, and what an edit changed."""

from __future__ import annotations

import re
from fractions import Fraction

from gearcard import Gear, Job, Why, clutch_down, gear_of, read, why, work
from gearcard.whys import CLUTCHES, KINDS, ROLES, RULES, SENTENCES

from .words import EXAMPLES, Words


def kilowatts(power: Fraction) -> str:
    """To a watt, of two that are as near the even one."""
    watts = round(power * 1000)
    return f"{'-' if watts < 0 else ''}{abs(watts) // 1000}.{abs(watts) % 1000:03}"


def row(number: int, each: Gear) -> list[str]:
    """The cells of a gear's line."""
    if not each.rule:
        return [str(number), "a crawler, which is not driven"]
    cells = [str(number), f"{each.engine // 1000}.{each.engine % 1000:03}", str(each.minimum)]
    cells += ["in" if each.under_nmax else "past", "yes" if each.fits else "no"]
    if each.w:
        cells += [kilowatts(Fraction(each.q, 1_000_000 * each.w)), "yes" if each.enough else "no"]
    return [*cells, RULES[each.rule]]


def lines(job: Job, found: Why) -> list[list[str]]:
    """What must be told, each line by its cells: two spaces and more stand between these."""
    at = [speed / 10 for speed in job.speeds]
    head = [f"second {found.second}: {at[found.second]} km/h, {KINDS[found.kind]}"]
    if found.kind == 0:
        return [head, [f"gear 0, clutch {CLUTCHES[0]}"]]
    role = f"{ROLES[found.role]}; the trip has seconds {found.first} to {found.last}"
    if found.kind == 1:
        role = f"second {found.about}, {at[found.about]} km/h, is {role}"
    step = f"{(job.speeds[found.about + 1] - job.speeds[found.about]) / 10:.1f}"
    power = f"D {step} km/h; power required {kilowatts(Fraction(found.required, 3_240_000_000_000))} kW"
    told: list[list[str]] = [head, [role], [power], [], ["gear", "min^-1", "minimum", "nmax", "fits", "kW avail.", "enough", "the minimum's rule"]]
    told += [row(k, each) for k, each in enumerate(found.gears, 1)] + [[], ["first choice", str(found.choice), SENTENCES[found.sentence]]]
    limits = f"ceiling {found.ceiling}, floor {found.floor}" if found.ceiling else ""
    steps = (("A, one-second peak", found.choice, found.after_a, f"floor {found.floor}"), ("B, rising speed", found.after_a, found.after_b, limits))
    for name, before, after, note in (*steps, ("C, closing run", found.after_b, found.after_c, "the lowest gear becomes the next")):
        told.append([name, str(after), "stays" if after == before else note])
    told += [["clutch", CLUTCHES[found.clutch_reason]], ["the card's byte", str(found.byte)]]
    if found.kind == 2 and found.held:
        without = why(job.vehicle, job.speeds, [0 if second == found.second else gear for second, gear in enumerate(job.holds)], found.second)
        told.append(["without the hold", str(without.after_c), f"clutch {CLUTCHES[without.clutch_reason]}"])
    return told


def cells(line: str) -> list[str]:
    """The numbers of a gear stand to the right of their columns, one space apart where they are wide; so does the gear after its correction."""
    found = [cell for cell in re.split(r"\s{2,}|^\s+", line) if cell]
    split = [part for cell in found for part in (cell.split(" ") if re.fullmatch(r"[\d. ]+", cell) else [cell])]
    named = re.fullmatch(r"(A, one-second peak|first choice|B, rising speed|C, closing run) (\d+)", split[0]) if split else None
    return [*named.groups(), *split[1:]] if named else split


class Told(Words):
    def test_every_line_of_why(self) -> None:
        """Every seventh second of the cycle, and all of the others."""
        for name, every in (("class-3", 7), ("van", 1), ("car-z-held", 1)):
            job = read((EXAMPLES / f"{name}.job").read_bytes())
            self.assertEqual({len(why(*job[:3], second).gears) for second in range(len(job.speeds))}, {len(job.vehicle.ratios)})
            for second in range(0, len(job.speeds), every):
                found = [cells(line) for line in self.answers("why", f"{name}.job", second).rstrip("\n").split("\n")]
                self.assertEqual(found, lines(job, why(*job[:3], second)), f"{name}, second {second}")

    def test_every_second_that_an_edit_changed(self) -> None:
        """Gear or clutch or both: second 1480 changes its clutch alone where the second after it is driven slower."""
        job = read((EXAMPLES / "class-3.job").read_bytes())
        before = work(*job[:3])
        for second, speed in ((1481, 43), (535, 12), (378, 109)):
            after = read((EXAMPLES / "class-3.job").read_bytes())
            after.speeds[second] = speed
            card = work(*after[:3])
            shown = [[f"gear {gear_of(byte)}, clutch {'down' if clutch_down(byte) else 'up'}" for byte in each] for each in (before, card)]
            wanted = [f"second {k}: {now}; was {was}" for k, (was, now) in enumerate(zip(*shown)) if was != now]
            self.assertTrue(wanted)
            self.assertEqual(self.answers("mend", "class-3.job", second, f"{speed / 10}", "--dry-run").splitlines(), wanted)
