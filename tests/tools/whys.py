"""`why`: from Python and as a word, on every second of the examples, against the card and against document 01's sums."""

from __future__ import annotations

import json
from fractions import Fraction

from gearcard import Refused, Vehicle, read, why, work
from gearcard.whys import CLUTCHES, RULES, SENTENCES

from .words import EXAMPLES, Words

#: A car with a gap between its gears: second 2 of these speeds has none.
GAP = Vehicle((50000, 2000), 800, 5600, 6000, 1000, 0, 4000, 1500, 10, tuple((800 + 900 * k, 100) for k in range(7)))
GAP_SPEEDS = (0, 100, 200, 200, 100, 0)


class Whys(Words):
    def test_every_second_has_the_byte_of_its_card(self) -> None:
        for name in ("car-z", "car-z-held", "van", "class-3"):
            job = read((EXAMPLES / f"{name}.job").read_bytes())
            card = work(*job[:3])
            for second, byte in enumerate(card):
                found = why(*job[:3], second)
                self.assertEqual((found.byte, found.refused), (byte, None))
                if found.kind:
                    self.assertEqual((found.after_c, found.held), (byte % 16, job.holds[found.about]))
                    chosen = found.gears[found.choice - 1]
                    self.assertTrue(found.held or chosen.fits)
                    self.assertEqual(chosen.engine, job.vehicle.ratios[found.choice - 1] * job.speeds[found.about])

    def test_the_paper_s_sums(self) -> None:
        """Car Z at 50.0 km/h: E, X and Q of document 01, Q derated by M; gear 5 has not enough with D 36."""
        car = read((EXAMPLES / "car-z.job").read_bytes()).vehicle
        speeds = (0, 100, 200, 300, 400, 464, 500, 536, 500, 464, 400, 300, 200, 100, 0)
        found = why(car, speeds, None, 6)
        self.assertEqual((found.required, found.choice, found.sentence), (78_525_000_000_000, 4, 2))
        self.assertEqual((found.gears[4].engine, found.gears[4].minimum, found.gears[4].rule), (1_400_000, 1400, 5))
        powers = [(Fraction(each.q, each.w), each.enough) for each in found.gears[3:]]
        self.assertEqual(powers, [(Fraction(290_000_000 * 90, 1000), True), (Fraction(220_000_000 * 90, 1000), False)])

    def test_minimum_speeds(self) -> None:
        """In the closing run gear 2's minimum is idle itself, at a trip's first second too; gear 1 also fits below its own."""
        car = read((EXAMPLES / "car-z.job").read_bytes()).vehicle
        second = why(car, (0, 110, 0), None, 1).gears[1]
        self.assertEqual((second.minimum, second.rule, second.engine, second.over_minimum, second.fits), (800, 3, 770_000, False, False))
        second = why(car, (0, 110, 110, 0), None, 1).gears[1]
        self.assertEqual((second.minimum, second.rule, second.over_minimum, second.fits), (720, 2, True, False))
        first = why(car, (0, 50, 150, 100, 0), None, 1).gears[0]
        self.assertEqual((first.minimum, first.engine, first.over_minimum, first.fits), (800, 600_000, False, True))

    def test_refusals(self) -> None:
        job = read((EXAMPLES / "refused.job").read_bytes())
        for second, number in ((4, 9), (len(job.speeds), 11)):
            with self.assertRaises(Refused) as raised:
                why(*job[:3], second)
            self.assertEqual((raised.exception.number, raised.exception.place), (number, second))
        found = why(GAP, GAP_SPEEDS, None, 2)
        self.assertEqual((found.refused and (found.refused.number, found.refused.place), found.choice, found.sentence, found.byte), ((10, 2), 0, 5, 0))
        self.assertFalse(any(each.fits for each in found.gears))
        self.ends(1, "refused 9 at 4: gear 1, held at second 4, would turn the engine past nmax", "why", "refused.job", 4)

    def test_lines(self) -> None:
        lines = [line for second in range(0, 1801, 7) for line in self.answers("why", "class-3.job", second).split("\n")]
        self.assertEqual([line for line in lines if len(line) > 100], [])
        self.assertEqual([rule for rule in RULES[1:] if not any(rule in line for line in lines)], [])
        text = self.answers("why", "van.job", 1)
        self.assertIn("a crawler, which is not driven", text)
        self.assertIn(SENTENCES[4], text)
        self.assertEqual(self.answers("why", "car-z.job", 4), f"second 4: 0.0 km/h, standing\ngear 0, clutch {CLUTCHES[0]}\n")

    def test_json(self) -> None:
        job = read((EXAMPLES / "class-3.job").read_bytes())
        said = json.loads(self.answers("why", "class-3.job", 60, "--json"))
        found = why(*job[:3], 60)
        self.assertEqual(said, json.loads(json.dumps(found._asdict() | {"gears": [each._asdict() for each in found.gears]})))
