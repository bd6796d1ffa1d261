#!/usr/bin/env python3
"""Puts one slip at a time into a copy of the reference and expects the comparison with the library to notice it.

    tests/independent/run --cases 500         first: it proves and builds the library
    mutants.py [--every N] [NUMBER..]         all slips, every Nth, or those of these numbers; seed 7, at most 5,000 cases of each kind

The copy is built over an incremental folder, so that a slip costs its own function and the link, and leaves out the paper's own sums, which would notice
many a slip before any case does. A line a slip; the last is 'mutants: N passed, M failed'. Exit status: 0 where all were noticed, 1 where one was not.
"""
import argparse
import shutil
import subprocess
import sys
from pathlib import Path

HERE = Path(__file__).resolve().parent
OUT = HERE.parents[1] / "target/independent"
DRIVER = OUT / "driver"
ROOM = OUT / "mutants"
SUMS = "    sums::check();\n    exports::check();\n"
RUSTC = ["rustc", "-C", "opt-level=0", "-C", "debug-assertions=off", "-C", f"incremental={ROOM}/inc", "-A", "warnings", "--edition", "2021"]
PAPER_SLIPS = [
    ("rounding minimum down", "(2 * top + bottom).div_euclid(2 * bottom)", "top / bottom"),
    ("halves down", "(2 * top + bottom).div_euclid", "(2 * top + bottom - 1).div_euclid"),
    ("fit: minimum excluded", "x >= least &&", "x > least &&"),
    ("nmax excluded", "<= 1000 * v.nmax as i128\n}", "< 1000 * v.nmax as i128\n}"),
    ("slow lowest gear does not fit", "gear == lowest(v) && x < least", "false"),
    ("any gear opens a trip", "(gear == lowest(v) || !opens_trip)", "true"),
    ("sign of D dropped", "2_575_000 * d * s", "2_575_000 * d.abs() * s"),
    ("power below idle", ".max(1000 * v.idle as i128);", ".max(1000 * v.n[0] as i128);"),
    ("enough: equality excluded", "    given >= e * power.w", "    given > e * power.w"),
    ("a point's margin does not count", "100 - v.margin as i128 - v.m[k] as i128", "100 - v.margin as i128"),
    (
        "derated after",
        "let w = n2 - n1;",
        "let w = n2 - n1;\n"
        "            let rest = 100 - v.margin as i128 - v.m[k] as i128;\n"
        "            let (p1, p2) = (rest * v.p[k] as i128, rest * v.p[k + 1] as i128);",
    ),
    ("margin of the next point", "v.m[k] as i128);", "v.m[(k + 1).min(v.points as usize - 1)] as i128);"),
    ("tie to the lower gear", "a.q * b.w >= b.q * a.w", "a.q * b.w > b.q * a.w"),
    ("A: no g-2", "(smaller == g - 1 || smaller == g - 2)", "smaller == g - 1"),
    ("A: any smaller", "(smaller == g - 1 || smaller == g - 2)", "true"),
    ("A: no floor", "if floor(v, speeds[s]) as i32 <= g - 1 {", "if true {"),
    ("A: holds change", "s == trip.last || holds[s] != 0", "s == trip.last"),
    ("B: holds change", "speeds[s - 1] >= speeds[s] || holds[s] != 0", "speeds[s - 1] >= speeds[s]"),
    ("B: equal speed too", "speeds[s - 1] >= speeds[s] ||", "speeds[s - 1] > speeds[s] ||"),
    ("B: no floor", "gears[s] = ceiling.max(least);", "gears[s] = ceiling;"),
    ("C: holds change", "holds[s] == 0 && gears[s] == lowest(v)", "gears[s] == lowest(v)"),
    ("C: first second too", "s != trip.first && holds[s] == 0", "holds[s] == 0"),
    ("C: level speed too", "speeds[start - 1] > speeds[start]", "speeds[start - 1] >= speeds[start]"),
    (
        "C before B",
        "    pass_b(v, speeds, holds, trip, &mut gears);\n"
        "    pass_c(v, speeds, holds, trip, &mut gears);",
        "    pass_c(v, speeds, holds, trip, &mut gears);\n"
        "    pass_b(v, speeds, holds, trip, &mut gears);",
    ),
    (
        "B before A",
        "    pass_a(v, speeds, holds, trip, &mut gears);\n"
        "    pass_b(v, speeds, holds, trip, &mut gears);",
        "    pass_b(v, speeds, holds, trip, &mut gears);\n"
        "    pass_a(v, speeds, holds, trip, &mut gears);",
    ),
    ("clutch: D below 0 only", "change(speeds, s) <= 0 && slow", "change(speeds, s) < 0 && slow"),
    ("clutch: at idle too", "speeds[s]) < 1000 * v.idle as i128", "speeds[s]) <= 1000 * v.idle as i128"),
    ("step 151 passes", ".abs() > 150)", ".abs() > 151)"),
    ("step 150 refused", ".abs() > 150)", ".abs() > 149)"),
    ("speed 2001 passes", "speeds[s] > 2000", "speeds[s] > 2001"),
    ("speed 2000 refused", "speeds[s] > 2000", "speeds[s] >= 2000"),
    ("moving from 11", "speed >= 10\n", "speed >= 11\n"),
    ("the longest refused", "speeds > LONGEST", "speeds >= LONGEST"),
    ("quick: step before the span", "refuse_first(5, from + 1, to", "refuse_first(5, from.max(1), to"),
    (
        "quick: hold at the standing second after is not seen",
        "let good = seconds_good(v, speeds, &holds, from, to);",
        "let mut seen = holds.clone();\n"
        "    seen[to] = 0;\n"
        "    let good = seconds_good(v, speeds, &seen, from, to);",
    ),
    ("quick: whole trace checked", "let good = seconds_good(v, speeds, &holds, from, to);", "let good = seconds_good(v, speeds, &holds, 0, speeds.len() - 1);"),
    ("quick: standing 8 before 7", "Some(gear) if !driven(v, gear) => {", "Some(gear) if false && !driven(v, gear) => {"),
    ("hold: gear 0 at rest is 8", "Some(0) => Err((7, second)),", "Some(0) => Err((8, second)),"),
    ("hold: gear 0 before 4 to 6", "if (number, place) < (7, second) =>", "if false =>"),
    ("hold: gear 0 after a later 7", "if (number, place) < (7, second) =>", "if number <= 7 =>"),
    ("hold: gear 0 releases", "    if asked == Some(0) {", "    if false {"),
    (
        "release: at rest refused",
        "        None => {\n"
        "            note(Event::StandingCleared);\n"
        "            Ok(())\n"
        "        }",
        "        None => Err((8, second)),",
    ),
    (
        "release: the card as it was",
        "    let mut card = card.to_vec();\n"
        "    holds[second] = asked.unwrap_or(0);",
        "    let mut card = card.to_vec();\n"
        "    if asked.is_none() && holds[second] == 0 {\n"
        "        return Ok((holds, card));\n"
        "    }\n"
        "    holds[second] = asked.unwrap_or(0);",
    ),
    (
        "mend: only the second's own trip",
        "let neighbours = second.saturating_sub(1)..=(second + 1).min(speeds.len() - 1);",
        "let neighbours = second..=second;",
    ),
    ("mend: the second before as it was", "for s in second.saturating_sub(1)..=second {", "for s in second..=second {"),
    ("mend: the second as it was", "for s in second.saturating_sub(1)..=second {", "for s in second.saturating_sub(1)..second {"),
    ("mend: the old trips", "let near = near_trips(&speeds, second);", "let near = near_trips(old, second);"),
    (
        "mend: the holds of the second let go",
        "seconds_good(v, &speeds, holds, first",
        "seconds_good(v, &speeds, &[&holds[..second], &[0], &holds[second + 1..]].concat(), first",
    ),
    (
        "mend: whole trace checked",
        "seconds_good(v, &speeds, holds, first.saturating_sub(1), (last + 1).min(speeds.len() - 1))",
        "seconds_good(v, &speeds, holds, 0, speeds.len() - 1)",
    ),
    ("mend: the standing second after unseen", "(last + 1).min(speeds.len() - 1))?;", "last)?;"),
    (
        "11 before 3",
        "    vehicle_good(v)?;\n"
        "    if second >= speeds.len() {\n"
        "        return Err((11, second));\n"
        "    }",
        "    if second >= speeds.len() {\n"
        "        return Err((11, second));\n"
        "    }\n"
        "    vehicle_good(v)?;",
    ),
    (
        "last before first in 6",
        "    if moving(speeds[from]) {\n"
        "        return Err((6, from));\n"
        "    }\n"
        "    if moving(speeds[to]) {\n"
        "        return Err((6, to));\n"
        "    }",
        "    if moving(speeds[to]) {\n"
        "        return Err((6, to));\n"
        "    }\n"
        "    if moving(speeds[from]) {\n"
        "        return Err((6, from));\n"
        "    }",
    ),
    (
        "8 before 7",
        "    refuse_first(7, from, to, |s| holds[s] != 0 && !driven(v, holds[s]))?;\n"
        "    refuse_first(8, from, to, |s| holds[s] != 0 && !moving(speeds[s]))?;",
        "    refuse_first(8, from, to, |s| holds[s] != 0 && !moving(speeds[s]))?;\n"
        "    refuse_first(7, from, to, |s| holds[s] != 0 && !driven(v, holds[s]))?;",
    ),
    ("gear 2: nine tenths everywhere", "lies(v, speeds, s, before);", "Lies::Elsewhere;"),
    ("gear 2: nine tenths after first gear", "} else if before == Some(lowest(v)) {", "} else if false {"),
    ("gear 2: nine tenths in the closing run", "(2, Lies::Closing) => idle,", "(2, Lies::Closing) => nearest(9 * idle, 10),"),
    (
        "gear 2: 1.15 in the closing run",
        "    if in_closing_run(speeds, s) {\n"
        "        Lies::Closing\n"
        "    } else if before == Some(lowest(v)) {\n"
        "        Lies::AfterFirst\n",
        "    if before == Some(lowest(v)) {\n"
        "        Lies::AfterFirst\n"
        "    } else if in_closing_run(speeds, s) {\n"
        "        Lies::Closing\n",
    ),
    ("gear 2: 1.15 rounded down", "nearest(115 * idle, 100)", "115 * idle / 100"),
    (
        "gear 2: a held 1 does not count",
        "let before = chosen.last().copied();",
        "let before = chosen.last().copied().map(|gear| if holds[s - 1] != 0 { 0 } else { gear });",
    ),
    ("gear 2: after any low gear", "before == Some(lowest(v))", "before < Some(lowest(v) + 2) && before.is_some()"),
    ("gear 2: level speed closes too", "if speeds[k] <= speeds[k + 1] {", "if speeds[k] < speeds[k + 1] {"),
    ("10 at the second of the edit", "    good?;\n", "    if let Err((10, _)) = good {\n        return Err((10, second));\n    }\n    good?;\n"),
    ("reader: not shortest taken", "k == 0 || byte != 0", "true"),
    (
        "reader: 2 before 1",
        "if count == 0 || count > LONGEST {\n"
        "        return Err((1, 0));\n"
        "    }\n"
        "    if speeds_room < count || holds_room < count {\n"
        "        return Err((2, 0));\n"
        "    }",
        "if speeds_room < count || holds_room < count {\n"
        "        return Err((2, 0));\n"
        "    }\n"
        "    if count == 0 || count > LONGEST {\n"
        "        return Err((1, 0));\n"
        "    }",
    ),
    ("reader: holds room unasked", "speeds_room < count || holds_room < count", "speeds_room < count"),
    ("reader: equal seconds taken", "second > earlier", "second >= earlier"),
    (
        "reader: second at the count taken",
        "        if !rising || second >= count {\n"
        "            return Err((15, place));\n"
        "        }\n"
        "        let gear = c.group()?;\n"
        "        if gear == 0 || gear > 255 {\n"
        "            return Err((15, place));\n"
        "        }\n"
        "        holds[second] = gear as u8;",
        "        if !rising || second > count {\n"
        "            return Err((15, place));\n"
        "        }\n"
        "        let gear = c.group()?;\n"
        "        if gear == 0 || gear > 255 {\n"
        "            return Err((15, place));\n"
        "        }\n"
        "        if second < count {\n"
        "            holds[second] = gear as u8;\n"
        "        }",
    ),
    ("reader: gear 255 refused", "gear > 255", "gear >= 255"),
    (
        "reader: second judged after the gear",
        "        if !rising || second >= count {\n"
        "            return Err((15, place));\n"
        "        }\n"
        "        let gear = c.group()?;",
        "        let gear = c.group()?;\n"
        "        if !rising || second >= count {\n"
        "            return Err((15, place));\n"
        "        }",
    ),
    ("reader: F1 as it stands", "as i32 - 5000", "as i32"),
    ("van: the crawler driven", "if v.profile == 1 { 2 } else { 1 }\n", "1\n"),
    ("van: minima by the gear's number", "match (gear + 1 - lowest(v), lies)", "match (gear, lies)"),
    ("van: only a slow gear 1 fits", "gear == lowest(v) && x < least", "gear == 1 && x < least"),
    ("van: trips open in gear 1", "(gear == lowest(v) || !opens_trip)", "(gear == 1 || !opens_trip)"),
    ("van: 1.15 after gear 1", "before == Some(lowest(v))", "before == Some(1)"),
    ("van: C raises gear 1", "gears[s] == lowest(v) {", "gears[s] == 1 {"),
    ("van: C raises to gear 2", "gears[s] = lowest(v) + 1;", "gears[s] = 2;"),
    ("van: the crawler held", "let is = gears(v).contains(&gear);", "let is = gear as u16 <= v.ng;"),
    ("van: the crawler held at rest is 8", "Some(gear) if !driven(v, gear) => {", "Some(gear) if gear as u16 > v.ng => {"),
    (
        "van: 7 after 8",
        "    refuse_first(7, from, to, |s| holds[s] != 0 && !driven(v, holds[s]))?;\n",
        "    refuse_first(7, from, to, |s| holds[s] as u16 > v.ng)?;\n"
        "    refuse_first(8, from, to, |s| holds[s] != 0 && !moving(speeds[s]))?;\n"
        "    refuse_first(7, from, to, |s| holds[s] != 0 && !driven(v, holds[s]))?;\n",
    ),
    ("van: of two gears", "let fewest = if profile == 1 { 3 } else { 2 };", "let fewest = 2;"),
    ("van: of three gears refused", "let fewest = if profile == 1 { 3 } else { 2 };", "let fewest = if profile == 1 { 4 } else { 2 };"),
    ("profile 2 taken", "v.profile <= 1 && gear_count_good", "v.profile <= 2 && gear_count_good"),
    ("reader: profile 2 taken", "if v.profile > 1 {", "if v.profile > 2 {"),
    (
        "reader: profile judged after ng",
        "        if v.profile > 1 {\n"
        "            note(Event::ProfileRead);\n"
        "            return Err((3, 1));\n"
        "        }\n"
        "    }\n"
        "    v.ng = c.group()?;",
        "    }\n"
        "    v.ng = c.group()?;\n"
        "    if v.profile > 1 {\n"
        "        return Err((3, 1));\n"
        "    }",
    ),
    ("reader: a profile in version 2", "if version >= 3 {\n        v.profile", "if version >= 2 {\n        v.profile"),
    ("reader: no profile", "if version >= 3 {\n        v.profile", "if false {\n        v.profile"),
    ("version 4", "1..=3;", "1..=4;"),
    ("no version 3", "1..=3;", "1..=2;"),
] + [(f"bound: {a}", a, b) for a, b in [
    ("{ 3 } else { 2 };", "{ 3 } else { 1 };"), ("(fewest..=10)", "(fewest..=9)"),
    ("(1..=50_000).contains(g)", "(0..=50_000).contains(g)"), ("(1..=50_000).contains(g)", "(1..=50_001).contains(g)"),
    ("(1..=50_000).contains(g)", "(1..=49_999).contains(g)"),
    ("two[0] > two[1]", "two[0] >= two[1]"), ("(300..=3000)", "(299..=3000)"), ("(300..=3000)", "(300..=3001)"), ("(300..=3000)", "(301..=2999)"),
    ("v.rated > v.idle", "v.rated >= v.idle"), ("v.rated > v.idle", "v.rated > v.idle + 1"), ("v.rated <= 12_000", "v.rated <= 12_001"),
    ("v.rated <= 12_000", "v.rated < 12_000"),
    ("v.nmax >= v.rated", "v.nmax + 1 >= v.rated"), ("v.nmax >= v.rated", "v.nmax > v.rated"), ("v.nmax <= 15_000", "v.nmax <= 15_001"),
    ("v.nmax <= 15_000", "v.nmax < 15_000"),
    ("v.f0 <= 10_000", "v.f0 <= 10_001"), ("v.f0 <= 10_000", "v.f0 < 10_000"), ("(-5000..=5000)", "(-5001..=5000)"), ("(-5000..=5000)", "(-5000..=5001)"),
    ("(-5000..=5000)", "(-4999..=4999)"),
    ("v.f2 <= 20_000", "v.f2 <= 20_001"), ("v.f2 <= 20_000", "v.f2 < 20_000"), ("(400..=4000)", "(399..=4000)"), ("(400..=4000)", "(400..=4001)"),
    ("(400..=4000)", "(401..=3999)"),
    ("v.margin <= 50", "v.margin <= 51"), ("v.margin <= 50", "v.margin < 50"), ("m <= 50 && margin", "m <= 51 && margin"),
    ("m <= 50 && margin", "m < 50 && margin"), ("+ m as u32 <= 90", "+ m as u32 <= 91"), ("+ m as u32 <= 90", "+ (m as u32) < 90"),
    ("(2..=64).contains(&v.points),", "(3..=64).contains(&v.points),"), ("(2..=64).contains(&v.points),", "(2..=63).contains(&v.points),"),
    ("(1..=1000).contains", "(0..=1000).contains"), ("(1..=1000).contains", "(1..=1001).contains"), ("(1..=1000).contains", "(2..=999).contains"),
    ("(1..=16_000)", "(0..=16_000)"), ("(1..=16_000)", "(1..=16_001)"), ("(1..=16_000)", "(2..=15_999)"), ("*x <= 5000", "*x <= 5001"),
    ("*x <= 5000", "*x < 5000"),
    ("v.n[0] <= v.idle &&", "v.n[0] <= v.idle + 1 &&"), ("v.n[0] <= v.idle &&", "v.n[0] < v.idle &&"), ("- 1] >= v.nmax", "- 1] + 1 >= v.nmax"),
    ("- 1] >= v.nmax", "- 1] > v.nmax"),
]]

# Slips in src/exports.rs.
EXPORT_SLIPS = [
    ("export: fraction cut off", "let rounded = size + half;", "let rounded = size;"),
    (
        "export: halves to even",
        "let rounded = size + half;",
        "let exact = f32::from_bits(bits).abs() as f64 * units as f64;\n"
        "    let rounded = if exact < 1e15 { exact.round_ties_even() as i128 } else { size + half };",
    ),
    (
        "export: negative halves up",
        "        -rounded\n",
        "        let exact = f32::from_bits(bits) as f64 * units as f64;\n"
        "        if exact > -1e15 { (exact + 0.5).floor() as i128 } else { -rounded }\n",
    ),
    (
        "export: product in single precision",
        "let value = in_units(bits, field.units);",
        "let value = (f32::from_bits(bits) * field.units as f32).round() as i128;",
    ),
    ("export: -0.0 refused", "if value < field.least ||", "if (bits >> 31 == 1 && field.least == 0) || value < field.least ||"),
    ("export: mass scaled", "TM: Field = Field { units: 1,", "TM: Field = Field { units: 10,"),
    (
        "export: 20 after the record's bytes",
        "        let mut bits = 0;\n",
        "        if field.units == 10 && self.at + 12 > self.bytes.len() {\n"
        "            return Err((12, self.bytes.len()));\n"
        "        }\n"
        "        let mut bits = 0;\n",
    ),
    (
        "export: 21 before 20",
        "if !f32::from_bits(bits).is_finite() {\n"
        "            return Err((20, record));",
        "if !f32::from_bits(bits).is_finite() {\n"
        "            return Err((21, record));",
    ),
    ("export: 20 at its float", "return Err((20, record));", "return Err((20, self.at - 4));"),
    ("export: 21 at its float", "return Err((21, record));", "return Err((21, self.at - 4));"),
    ("export: kind 1 twice", "1 if loads.is_none() =>", "1 =>"),
    ("export: kind 2 twice", "2 if mass.is_none() =>", "2 =>"),
    ("export: 19 after the kind", "_ => return Err((19, record)),", "_ => return Err((19, reading.at)),"),
    ("export: 22 after the end", "return Err((22, record))", "return Err((22, reading.at))"),
    ("export: bytes after are taken", "if reading.at < bytes.len() {", "if reading.at + 1 < bytes.len() {"),
] + [(f"export bound: {a}", a, b) for a, b in [
    ("least: 0, most: 10_000", "least: -1, most: 10_000"), ("least: 0, most: 10_000", "least: 0, most: 10_001"),
    ("least: 0, most: 10_000", "least: 0, most: 9_999"),
    ("least: -5_000", "least: -5_001"), ("least: -5_000", "least: -4_999"), ("most: 5_000", "most: 5_001"), ("most: 5_000", "most: 4_999"),
    ("least: 0, most: 20_000", "least: -1, most: 20_000"), ("least: 0, most: 20_000", "least: 0, most: 20_001"),
    ("least: 0, most: 20_000", "least: 0, most: 19_999"),
    ("least: 400", "least: 399"), ("least: 400", "least: 401"), ("most: 4_000", "most: 4_001"), ("most: 4_000", "most: 3_999"),
]]

# Slips of the writer.
WRITE_SLIPS = [
    ("write: room of just the length refused", "if room < bytes.len() {", "if room <= bytes.len() {", "paper.rs"),
    ("write: 17 at the room's length", "return Err((17, bytes.len()));", "return Err((17, room));", "paper.rs"),
    (
        "write: 17 before 4 to 9",
        "    seconds_sound(v, speeds, holds, 0, speeds.len() - 1)?;\n"
        "    let bytes = jobs::groups(version, v, speeds, holds).all.concat();\n"
        "    if room < bytes.len() {\n"
        "        return Err((17, bytes.len()));\n"
        "    }\n",
        "    let bytes = jobs::groups(version, v, speeds, holds).all.concat();\n"
        "    if room < bytes.len() {\n"
        "        return Err((17, bytes.len()));\n"
        "    }\n"
        "    seconds_sound(v, speeds, holds, 0, speeds.len() - 1)?;\n",
        "paper.rs",
    ),
    (
        "write: 10 too",
        "    seconds_sound(v, speeds, holds, 0, speeds.len() - 1)?;\n"
        "    let bytes",
        "    seconds_good(v, speeds, holds, 0, speeds.len() - 1)?;\n"
        "    let bytes",
        "paper.rs",
    ),
    (
        "write: 3 before 2",
        "    lengths_good(speeds.len(), holds.len(), speeds.len())?;\n"
        "    told_good(version, v)?;\n"
        "    seconds_sound",
        "    lengths_good(speeds.len(), speeds.len(), speeds.len())?;\n"
        "    told_good(version, v)?;\n"
        "    lengths_good(speeds.len(), holds.len(), speeds.len())?;\n"
        "    seconds_sound",
        "paper.rs",
    ),
    ("write: F1 as it stands", "(v.f1 + 5000) as u16", "v.f1 as u16", "jobs.rs"),
    ("write: a hold of second 1 dropped", "filter(|(_, gear)| *gear != 0)", "filter(|(second, gear)| *second != 1 && *gear != 0)", "jobs.rs"),
    ("write: version 1 with a margin", "12 => version < 2 &&", "12 => false &&", "paper.rs"),
    ("write: a margin after field 13", "!field_good(v, field) || untold(field))", "!field_good(v, field) || (field == 13 && untold(12)))", "paper.rs"),
    ("write: a margin past the points", "12 => version < 2 && v.m[..v.points as usize]", "12 => version < 2 && v.m", "paper.rs"),
    ("write: version 2 without m", "        if version >= 2 {\n            values.push", "        if version > 2 {\n            values.push", "jobs.rs"),
    (
        "write: version 4",
        "    if !VERSIONS.contains(&version) {\n"
        "        return Err((14, 0));\n"
        "    }\n"
        "    lengths_good",
        "    if !(1..=4).contains(&version) {\n"
        "        return Err((14, 0));\n"
        "    }\n"
        "    lengths_good",
        "paper.rs",
    ),
    ("write: a profile in version 2", "1 => version < 3 && v.profile != 0,", "1 => version < 2 && v.profile != 0,", "paper.rs"),
    ("write: a profile in version 1", "1 => version < 3 && v.profile != 0,", "1 => version == 2 && v.profile != 0,", "paper.rs"),
    ("write: a profile after field 2", "1 => version < 3 && v.profile != 0,", "2 => version < 3 && v.profile != 0,", "paper.rs"),
    (
        "write: the profile behind ng",
        "    let gears_at = values.len();\n"
        "    values.push(v.ng);\n",
        "    let gears_at = values.len();\n"
        "    values.insert(1, v.ng);\n",
        "jobs.rs",
    ),
    ("write: version 3 without m", "        if version >= 2 {\n            values.push", "        if version == 2 {\n            values.push", "jobs.rs"),
    ("read: version 3 without m", "        if version >= 2 {\n            v.m[k]", "        if version == 2 {\n            v.m[k]", "paper.rs"),
    ("read: version 2 without m", "        if version >= 2 {\n            v.m[k]", "        if version > 2 {\n            v.m[k]", "paper.rs"),
    ("write: p before n", "values.extend([v.n[k], v.p[k]]);", "values.extend([v.p[k], v.n[k]]);", "jobs.rs"),
]
# Slips in src/revs.rs: sentences that are too much to ask of a card.
REVS_SLIPS = [
    ("Twelve: nmax excluded", "* u64::from(self.speeds[s]) > u64::from", "* u64::from(self.speeds[s]) >= u64::from"),
    ("Twelve: no gear above the one before", "if gear <= before + 1 {", "if gear <= before {"),
    ("Twelve: no floor", "(self.lowest()..gear).all(|lower| self.over_nmax(lower, s))", "false"),
    ("Twelve: below the floor", "(self.lowest()..gear).all(|lower|", "(self.lowest()..=gear).all(|lower|"),
    ("Twelve: held seconds too", " && self.holds[s] == 0 {", " {"),
    ("Twelve: the lowest gear of a van none", "1 + self.vehicle.profile", "1 + 2 * self.vehicle.profile"),
    ("Twelve: level speed too", "self.speeds[s] > self.speeds[s - 1] &&", "self.speeds[s] >= self.speeds[s - 1] &&"),
]
# Slips in src/summary.rs.
SUMMARY_SLIPS = [
    (
        "Nine: changes across a standing second",
        "for pair in seconds.windows(2) {\n"
        "        let both_moving = pair[0].0 && pair[1].0;",
        "let driven: Vec<(bool, u8)> = seconds.iter().copied().filter(|second| second.0).collect();\n"
        "    for pair in driven.windows(2) {\n"
        "        let both_moving = true;",
    ),
    ("Nine: a change from rest", "pair[0].0 && pair[1].0;", "pair[1].0;"),
    ("Nine: a change to rest", "pair[0].0 && pair[1].0;", "pair[0].0;"),
    ("Nine: the clutch as another gear", "    byte % 16\n", "    byte\n"),
    ("Nine: the clutch as another gear, of 32 alone", "    byte % 16\n", "    byte % 32\n"),
    (
        "Nine: no change out of no gear",
        "if both_moving && pair[0].1 != pair[1].1 {",
        "if both_moving && (1..=10).contains(&pair[0].1) && pair[0].1 != pair[1].1 {",
    ),
    ("Nine: gear 0 stands", "(true, _) => note(Event::InNoGear),", "(true, _) => counts[0] += 1,"),
    ("Nine: gear 11 in gear 10", "(true, _) => note(Event::InNoGear),", "(true, 11) => counts[10] += 1,\n            (true, _) => note(Event::InNoGear),"),
    (
        "Nine: standing seconds in their gear too",
        "(false, _) => counts[0] += 1,",
        "(false, gear) => {\n"
        "                counts[0] += 1;\n"
        "                if (1..=10).contains(gear) {\n"
        "                    counts[*gear as usize] += 1\n"
        "                }\n"
        "            }",
    ),
    ("Nine: below 0 wraps", "        note(Event::StoppedAtNone);\n        return 0;", "        return count as u16;"),
    ("Nine: above 65,535 wraps", "        note(Event::StoppedAtMost);\n        return 65_535;", "        return count as u16;"),
    (
        "Nine: stops at 65,534",
        "if count > 65_535 {\n"
        "        note(Event::StoppedAtMost);\n"
        "        return 65_535;",
        "if count > 65_534 {\n"
        "        return 65_534;",
    ),
    ("Nine: stopped in between, old first", "stopped(was[k] as i64 - old[k] + new[k])", "stopped(stopped(was[k] as i64 - old[k]) as i64 + new[k])"),
    ("Nine: stopped in between, new first", "stopped(was[k] as i64 - old[k] + new[k])", "stopped(stopped(was[k] as i64 + new[k]) as i64 - old[k])"),
    (
        "Nine: standing forgotten",
        "    Summary::of_list(std::array::from_fn(|k| stopped",
        "    let (mut old, mut new) = (old, new);\n"
        "    (old[0], new[0]) = (0, 0);\n"
        "    Summary::of_list(std::array::from_fn(|k| stopped",
    ),
    (
        "Nine: changes forgotten",
        "    Summary::of_list(std::array::from_fn(|k| stopped",
        "    let (mut old, mut new) = (old, new);\n"
        "    (old[11], new[11]) = (0, 0);\n"
        "    Summary::of_list(std::array::from_fn(|k| stopped",
    ),
    (
        "Nine: gear 10 forgotten",
        "    Summary::of_list(std::array::from_fn(|k| stopped",
        "    let (mut old, mut new) = (old, new);\n"
        "    (old[10], new[10]) = (0, 0);\n"
        "    Summary::of_list(std::array::from_fn(|k| stopped",
    ),
    (
        "Nine: old bytes counted after they were overwritten",
        "(counts(before), counts(after));",
        "(counts(Shown { card: after.card, ..before }), counts(after));",
    ),
    ("Nine: old speeds counted after the mend", "(counts(before), counts(after));", "(counts(Shown { speeds: after.speeds, ..before }), counts(after));"),
    (
        "Nine: counted anew, a wrong summary mended",
        "    let was = was.list();\n"
        "    if old[0]",
        "    let was = [was.list(), old.map(|count| count as u16)][1];\n"
        "    if old[0]",
    ),
    ("Nine: the longest refused", "length > LONGEST", "length >= LONGEST"),
    ("Nine: one more than the longest", "length > LONGEST", "length > LONGEST + 1"),
    ("Nine: a longer card taken", "shown.card.len() != length", "shown.card.len() < length"),
    (
        "Nine: 2 before 1",
        "    if length == 0 || length > LONGEST {\n"
        "        return Err((1, 0));\n"
        "    }\n"
        "    if shown.card.len() != length {\n"
        "        return Err((2, 0));\n"
        "    }",
        "    if shown.card.len() != length {\n"
        "        return Err((2, 0));\n"
        "    }\n"
        "    if length == 0 || length > LONGEST {\n"
        "        return Err((1, 0));\n"
        "    }",
    ),
]
LIBRARY_SLIPS = [
    ("Nine: a refused edit counts none", "            return Ok(was);\n        };", "            return Ok(summary::NONE);\n        };", "library.rs"),
]
SLIPS = [(*slip, "paper.rs") for slip in PAPER_SLIPS] + [(*slip, "exports.rs") for slip in EXPORT_SLIPS] + WRITE_SLIPS
SLIPS += [(*slip, "revs.rs") for slip in REVS_SLIPS] + [(*slip, "summary.rs") for slip in SUMMARY_SLIPS] + LIBRARY_SLIPS


class Wrong(Exception):
    """A slip that cannot be tried, and why."""


def put(file: str, old: str, new: str) -> str:
    """Into the copy; what the file was before."""
    path = ROOM / "src" / file
    text = path.read_text()
    if text.count(old) == 0:
        raise Wrong(f"not applied: {file} has no {old!r}")
    path.write_text(text.replace(old, new, 1))
    return text


def build() -> None:
    made = subprocess.run([*RUSTC, "--crate-name", "independent", "src/main.rs", "-o", "out"], cwd=ROOM, capture_output=True, text=True)
    if made.returncode:
        raise Wrong(f"it does not compile: {made.stderr[:300]}")


def furnish() -> None:
    shutil.rmtree(ROOM, ignore_errors=True)
    shutil.copytree(HERE / "src", ROOM / "src")
    put("main.rs", SUMS, "")
    build()


def noticed(name: str, old: str, new: str, file: str) -> str | None:
    """How the slip was noticed; None where it was not."""
    was = put(file, old, new)
    try:
        build()
        ran = subprocess.run([ROOM / "out", "--seed", "7", "--cases", "5000", "--", DRIVER], capture_output=True, text=True)
    finally:
        (ROOM / "src" / file).write_text(was)
    # A case, or a call of src/rare.rs.
    first = next((line for line in ran.stdout.splitlines() if line.startswith(("FAILED: gearcard_", "FAILED: a long trip"))), None)
    return first or ("the reference, which stopped" if ran.returncode > 1 else None)


def tried(number: int, slip: tuple[str, str, str, str]) -> tuple[bool, str]:
    """Whether the slip was noticed, and a line that says so."""
    try:
        how = noticed(*slip)
    except Wrong as error:
        return False, f"mutants: FAILED: {number} {slip[0]}: {error}"
    if not how:
        return False, f"mutants: FAILED: {number} {slip[0]} -> {slip[2][:40]!r}: not noticed"
    return True, f"mutants: {number} {slip[0]}: noticed by {how.removeprefix('FAILED: ')}"


def main() -> int:
    parser = argparse.ArgumentParser(usage=__doc__.strip())
    parser.add_argument("--every", type=int, default=1)
    parser.add_argument("numbers", nargs="*", type=int)
    asked = parser.parse_args()
    furnish()
    passed = failed = 0
    for number in asked.numbers or range(1 % asked.every, len(SLIPS), asked.every):
        good, line = tried(number, SLIPS[number])
        passed, failed = passed + good, failed + (not good)
        print(line, flush=True)
    shutil.rmtree(ROOM)
    print(f"mutants: {passed} passed, {failed} failed")
    return 1 if failed or not passed else 0


sys.exit(main())
