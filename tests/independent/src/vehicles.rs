//! Vehicles: realistic, round (so that equalities are met), wild within the bounds, at the bounds, and one past them.

use crate::rng::Rng;
use crate::vehicle::{car_z, with_crawler, Vehicle, ZERO};

/// A vehicle within all bounds. Places past ng and past the point count hold anything: nothing may look at them.
pub fn good(r: &mut Rng) -> Vehicle {
    let mut v = match r.range(0, 99) {
        0..=4 => car_z(),
        5..=54 => realistic(r),
        55..=72 => round(r),
        73..=77 => with_gaps(r),
        78..=89 => wild(r),
        _ => at_bounds(r),
    };
    crawler(r, &mut v);
    fill_unused(r, &mut v);
    v
}

/// Request Thirteen: in four of ten vehicles that can have one, a crawler: below the first gear, or that gear itself.
fn crawler(r: &mut Rng, v: &mut Vehicle) {
    if !r.chance(40) {
        return;
    }
    let first = v.ratio[0] as i64;
    if v.ng < 10 && first < 50_000 && r.chance(60) {
        let ratio = r.edge(first + 1, (first * 2).min(50_000));
        *v = with_crawler(v, ratio as u16);
    } else if v.ng >= 3 {
        v.profile = 1;
    }
}

fn fill_unused(r: &mut Rng, v: &mut Vehicle) {
    for place in &mut v.ratio[v.ng as usize..] {
        *place = r.next() as u16;
    }
    for k in v.points as usize..64 {
        v.n[k] = r.next() as u16;
        v.p[k] = r.next() as u16;
        v.m[k] = r.next() as u16;
    }
}

/// A mid-size car of six gears, its power curve of so many points spread evenly from idle to nmax: 9 kW at idle to 94 kW.
pub fn mid_size(points: u16) -> Vehicle {
    // Five points reach no farther: a step is at most 1,000.
    let (rated, nmax) = if points == 5 { (4400, 4800) } else { (5600, 6000) };
    let mut v = Vehicle { ng: 6, idle: 800, rated, nmax, f0: 1200, f1: 300, f2: 3300, tm: 1500, margin: 10, points, ..ZERO };
    v.ratio[..6].copy_from_slice(&[11_800, 6900, 4700, 3600, 2900, 2400]);
    let span = (v.nmax - v.idle) as u32;
    for k in 0..points as u32 {
        let up = span * k / (points as u32 - 1);
        v.n[k as usize] = v.idle + up as u16;
        v.p[k as usize] = (90 + up * (1550 - 700 * up / span) / span) as u16;
    }
    v
}

pub fn realistic(r: &mut Rng) -> Vehicle {
    let mut v = ZERO;
    v.ng = r.range(4, 8) as u16;
    let mut ratio = r.range(8000, 16000);
    for k in 0..v.ng as usize {
        v.ratio[k] = ratio as u16;
        ratio = (ratio * r.range(60, 88) / 100).max(50 - k as i64);
    }
    v.idle = r.range(600, 1000) as u16;
    v.rated = r.range(3500, 7000) as u16;
    v.nmax = v.rated + r.range(0, 800) as u16;
    v.f0 = r.range(300, 2500) as u16;
    v.f1 = r.range(-800, 1500) as i32;
    v.f2 = r.range(2000, 6000) as u16;
    v.tm = r.range(800, 3000) as u16;
    v.margin = if r.chance(60) { 10 } else { r.range(0, 50) as u16 };
    curve(r, &mut v);
    v
}

/// Ratios and speeds in round numbers: X then meets minimum speeds, idle and nmax exactly, and power can equal what is required.
fn round(r: &mut Rng) -> Vehicle {
    let mut v = realistic(r);
    let pool = [20000, 16000, 12500, 10000, 8000, 6000, 5000, 4000, 3200, 2500, 2000, 1600, 1250, 1000];
    let from = r.below(5);
    v.ng = r.range(2, 9) as u16;
    v.ratio[..v.ng as usize].copy_from_slice(&pool[from..from + v.ng as usize]);
    v.idle = 50 * r.range(6, 24) as u16;
    v.rated = v.idle + 100 * r.range(1, 40) as u16;
    v.nmax = v.rated + 100 * r.range(0, 8) as u16;
    if r.chance(50) {
        // With only F0 and level power p, enough is (100 - M) 360 p >= F0 V, so F0 3600 and V a multiple of 10 give equalities.
        (v.f0, v.f1, v.f2) = (r.pick(&[0, 360, 3600, 7200]), 0, 0);
        v.margin = r.pick(&[0, 50]);
    }
    curve(r, &mut v);
    if r.chance(60) {
        let level = if r.chance(20) { 0 } else { r.range(1, 200) as u16 };
        // More power higher up makes it matter whether just enough is enough: were it not, a lower gear would be chosen.
        let more = r.pick(&[0, 0, 1, 300]);
        let middle = v.idle + (v.nmax - v.idle) / 2;
        (0..v.points as usize).for_each(|k| v.p[k] = if v.n[k] > middle { level + more } else { level });
        // Level margins keep power level.
        let m = r.pick(&[0, 0, 10, 40]);
        v.m[..v.points as usize].fill(m);
    }
    v
}

/// Gears so far apart that between them lie speeds which no gear fits.
fn with_gaps(r: &mut Rng) -> Vehicle {
    let mut v = realistic(r);
    v.ng = r.range(2, 4) as u16;
    let mut ratio = r.range(9000, 30_000);
    for k in 0..v.ng as usize {
        v.ratio[k] = ratio as u16;
        ratio = ratio * r.range(25, 50) / 100;
    }
    v.idle = r.range(600, 2000) as u16;
    v.rated = v.idle + r.range(300, 2000) as u16;
    v.nmax = v.rated + r.range(0, 200) as u16;
    curve(r, &mut v);
    v
}

fn wild(r: &mut Rng) -> Vehicle {
    let mut v = ZERO;
    v.ng = r.range(2, 10) as u16;
    let highest = r.pick(&[50_000, 20_000, 3_000, 200]);
    falling_ratios(r, &mut v, highest);
    fields_within(r, &mut v, Rng::range);
    v
}

fn at_bounds(r: &mut Rng) -> Vehicle {
    let mut v = ZERO;
    v.ng = r.pick(&[2, 10]);
    match r.range(0, 3) {
        0 => falling_ratios(r, &mut v, 50_000),
        1 => (0..v.ng).for_each(|k| v.ratio[k as usize] = 50_000 - k),
        2 => (0..v.ng).for_each(|k| v.ratio[k as usize] = v.ng - k),
        _ => (0..v.ng).for_each(|k| v.ratio[k as usize] = 9000 - k),
    }
    fields_within(r, &mut v, Rng::edge);
    v
}

/// Every field but the gears, each somewhere within its bounds as `pick` has it.
fn fields_within(r: &mut Rng, v: &mut Vehicle, pick: fn(&mut Rng, i64, i64) -> i64) {
    v.idle = pick(r, 300, 3000) as u16;
    v.rated = pick(r, v.idle as i64 + 1, 12_000) as u16;
    v.nmax = pick(r, v.rated as i64, 15_000) as u16;
    v.f0 = pick(r, 0, 10_000) as u16;
    v.f1 = pick(r, -5000, 5000) as i32;
    v.f2 = pick(r, 0, 20_000) as u16;
    v.tm = pick(r, 400, 4000) as u16;
    v.margin = pick(r, 0, 50) as u16;
    curve(r, v);
}

fn falling_ratios(r: &mut Rng, v: &mut Vehicle, highest: i64) {
    let mut top = highest;
    for k in 0..v.ng as usize {
        let left = v.ng as i64 - k as i64;
        let low = (top / 3).max(left);
        v.ratio[k] = if k == 0 && r.chance(30) { top as u16 } else { r.range(low, top) as u16 };
        top = v.ratio[k] as i64 - 1;
    }
}

/// A curve from at most idle to at least nmax, its steps 1 to 1,000, then powers.
fn curve(r: &mut Rng, v: &mut Vehicle) {
    let first = if r.chance(50) { v.idle as i64 } else { r.edge(1, v.idle as i64) };
    let last = if r.chance(50) { v.nmax as i64 } else { r.edge(v.nmax as i64, (v.nmax as i64 + 3000).min(16_000)) };
    let span = last - first;
    let fewest = (span + 999) / 1000 + 1;
    let count = r.edge(fewest.max(2), (span + 1).min(64));
    v.points = count as u16;
    let uneven = r.chance(40);
    v.n[0] = first as u16;
    let mut here = first;
    for k in 1..count {
        let steps_left = count - k;
        let left = last - here;
        let low = (left - 1000 * (steps_left - 1)).max(1);
        let high = (left - (steps_left - 1)).min(1000);
        let even = (left / steps_left).clamp(low, high);
        here += if uneven { r.edge(low, high) } else { even };
        v.n[k as usize] = here as u16;
    }
    powers(r, v);
    margins(r, v);
}

/// Request Six: half of the vehicles have no margin at their points; the others one here and there, or as much as there can be.
fn margins(r: &mut Rng, v: &mut Vehicle) {
    let most = (90 - v.margin as i64).min(50);
    let style = r.range(0, 5);
    for k in 0..v.points as usize {
        v.m[k] = match style {
            0 => r.edge(0, most) as u16,
            1 => if r.chance(30) { r.range(0, most) as u16 } else { 0 },
            2 => most as u16,
            _ => 0,
        };
    }
}

fn powers(r: &mut Rng, v: &mut Vehicle) {
    let style = r.range(0, 9);
    let peak = r.range(300, 3000);
    let level = r.pick(&[0, 1, 37, 500, 5000]);
    for k in 0..v.points as usize {
        let rise = (v.n[k] as i64 * peak / v.rated as i64).min(5000);
        v.p[k] = match style {
            0..=4 => (rise - if v.n[k] > v.rated { rise / 10 } else { 0 }) as u16,
            5 => (rise / 20) as u16,
            6 => level,
            7 => r.range(0, 5000) as u16,
            8 => r.pick(&[0, 5000]),
            _ => (rise + r.range(-50, 50)).clamp(0, 5000) as u16,
        };
    }
}

/// Puts one field out of bounds, mostly by one. Later fields may fall out of bounds with it: the first such is what is asked for.
pub fn break_field(r: &mut Rng, v: &mut Vehicle, field: usize) {
    let gear = r.below(v.ng as usize);
    let point = r.below(v.points as usize);
    let far = r.chance(15);
    match field {
        1 if r.chance(40) => v.profile = if far { r.pick(&[255, 256, 257, 65_535]) } else { r.pick(&[2, 2, 3]) },
        1 => v.ng = if far { r.pick(&[0, 12, 255, 256, 65_535]) } else { r.pick(&[1 + v.profile, 11]) },
        2 => break_ratio(r, v, gear),
        3 => v.idle = if far { r.pick(&[0, 65_535]) } else { r.pick(&[299, 3001]) },
        4 => v.rated = if far { r.pick(&[0, 65_535]) } else { r.pick(&[v.idle, 12_001]) },
        5 => v.nmax = if far { r.pick(&[0, 65_535]) } else { r.pick(&[v.rated - 1, 15_001]) },
        6 => v.f0 = if far { 65_535 } else { 10_001 },
        7 => v.f1 = if far { r.pick(&[i32::MIN, i32::MAX, 60_535, 65_536]) } else { r.pick(&[-5001, 5001]) },
        8 => v.f2 = if far { 65_535 } else { 20_001 },
        9 => v.tm = if far { r.pick(&[0, 65_535]) } else { r.pick(&[399, 4001]) },
        10 => v.margin = if far { r.pick(&[100, 101, 65_535]) } else { 51 },
        11 => v.points = if far { r.pick(&[0, 66, 65_535]) } else { r.pick(&[1, 65]) },
        12 => break_point(r, v, point),
        _ => break_ends(r, v),
    }
}

fn break_ratio(r: &mut Rng, v: &mut Vehicle, gear: usize) {
    match r.range(0, 2) {
        0 => v.ratio[0] = 50_001,
        1 => v.ratio[v.ng as usize - 1] = 0,
        _ => v.ratio[gear] = if gear == 0 { v.ratio[1] } else { v.ratio[gear - 1] },
    }
}

fn break_point(r: &mut Rng, v: &mut Vehicle, point: usize) {
    let last = v.points as usize - 1;
    match r.range(0, 7) {
        // One margin over what there may be.
        7 => v.m[point] = if r.chance(15) { r.pick(&[100, 65_535]) } else { (91 - v.margin).min(51) },
        6 => (0..=last).for_each(|k| v.m[k] = (91 - v.margin).min(51)),
        // The whole curve is moved up, so that its steps stay sound and only the last point is too high.
        5 => {
            let up = 16_001 - v.n[last].min(16_000);
            v.n[..=last].iter_mut().for_each(|n| *n += up);
        }
        0 => v.p[point] = r.pick(&[5001, 65_535]),
        1 => v.n[0] = 0,
        2 => v.n[last] = r.pick(&[16_001, v.n[last - 1]]),
        3 => put_rise(v, point.max(1), r.pick(&[0, 1001, 1001])),
        _ => v.n[point] = v.n[point].wrapping_sub(r.range(0, 1001) as u16),
    }
}

/// Later points move along, so that this rise alone is wrong, where the last of them has room for that.
fn put_rise(v: &mut Vehicle, point: usize, rise: u16) {
    let up = (v.n[point - 1] + rise).wrapping_sub(v.n[point]);
    let last = v.points as usize - 1;
    let to = if v.n[last].wrapping_add(up) <= 16_000 { last } else { point };
    v.n[point..=to].iter_mut().for_each(|n| *n = n.wrapping_add(up));
}

/// Only field 13: the whole curve is moved up past idle, or its last points are cut off below nmax.
fn break_ends(r: &mut Rng, v: &mut Vehicle) {
    let (count, last) = (v.points as usize, v.points as usize - 1);
    let up = v.idle + 1 - v.n[0];
    if r.chance(50) && v.n[last] as u32 + up as u32 <= 16_000 {
        v.n[..count].iter_mut().for_each(|n| *n += up);
    } else if v.n[last - 1] < v.nmax - 1 {
        v.n[last] = v.nmax - 1;
    } else {
        v.n[0] = v.idle + 1;
    }
}
