//! Traces, holds and the faults put into them.

use crate::paper::{self, Lies};
use crate::rng::Rng;
use crate::vehicle::Vehicle;

/// Mostly short, so that many cases are run; the ends of the range often enough.
pub fn length(r: &mut Rng) -> usize {
    match r.range(0, 99) {
        0..=5 => r.pick(&[1, 2, 3, 4]),
        6..=75 => r.range(3, 90) as usize,
        76..=93 => r.range(60, 400) as usize,
        94..=97 => r.range(400, 2048) as usize,
        _ if r.chance(93) => r.pick(&[2046, 2047, 2048, 2049]),
        _ => long(r),
    }
}

/// Seldom, since one takes as long as a hundred others: up to the longest, the ends of the range and the card program's room often.
fn long(r: &mut Rng) -> usize {
    let between = r.range(2_050, 16_384) as usize;
    r.pick(&[between, between, 4_096, 4_097, 16_383, 16_384])
}

#[derive(Clone, Copy, PartialEq)]
enum Style {
    Realistic,
    Extreme,
    Short,
    Round,
    Plateau,
    OneTrip,
    Standing,
}

struct Walk<'a> {
    v: &'a Vehicle,
    style: Style,
    /// The style of the steps: that of the trace, or for one long trip any other.
    steps: Style,
    top: i64,
    /// Looks for speeds that some gear fits.
    careful: bool,
    rest_left: i64,
    trip_left: i64,
    phase: i64,
    phase_left: i64,
}

/// A trace that passes 4, 5 and 6, and mostly 10, for this vehicle.
pub fn trace(r: &mut Rng, v: &Vehicle, length: usize) -> Vec<u16> {
    let style = match r.range(0, 99) {
        0..=29 => Style::Realistic,
        30..=44 => Style::Extreme,
        45..=59 => Style::Short,
        60..=74 => Style::Round,
        75..=84 => Style::Plateau,
        85..=96 => Style::OneTrip,
        _ => Style::Standing,
    };
    let steps = if style == Style::OneTrip { r.pick(&[Style::Realistic, Style::Extreme, Style::Round, Style::Plateau]) } else { style };
    let top_gear = 1000 * v.nmax as i64 / v.ratio[v.ng as usize - 1] as i64;
    let careful = r.chance(94);
    let top = if careful { top_gear.min(2000) } else { 2000 };
    let mut walk = Walk { v, style, steps, top, careful, rest_left: r.range(0, 3), trip_left: 0, phase: 0, phase_left: 0 };
    let mut speeds: Vec<u16> = Vec::with_capacity(length);
    for s in 0..length {
        let before = speeds.last().copied().unwrap_or(0) as i64;
        let left = (length - 1 - s) as i64;
        let next = if s == 0 || left == 0 { at_rest(r, before) } else { walk.next(r, before, left) };
        speeds.push(next as u16);
    }
    speeds
}

/// A standing speed that can be reached by a step of 150 at most.
fn at_rest(r: &mut Rng, before: i64) -> i64 {
    let least = (before - 150).max(0);
    if r.chance(70) { least } else { r.range(least, 9) }
}

impl Walk<'_> {
    fn next(&mut self, r: &mut Rng, before: i64, left: i64) -> i64 {
        // From here the trace must still come to rest at its last second.
        let cap = (9 + 150 * left).min(2000);
        if before < 10 { self.leave_rest(r, before, cap) } else { self.go_on(r, before, cap) }
    }

    fn leave_rest(&mut self, r: &mut Rng, before: i64, cap: i64) -> i64 {
        let first_gear = if self.careful { 1000 * self.v.nmax as i64 / self.v.ratio[paper::lowest(self.v) as usize - 1] as i64 } else { 2000 };
        let high = cap.min(before + 150).min(first_gear);
        if self.style == Style::Standing || high < 10 || self.rest_left > 0 {
            self.rest_left -= 1;
            return r.range(0, 9);
        }
        (self.rest_left, self.trip_left) = match self.style {
            Style::Short => (r.range(0, 2), r.range(1, 5)),
            Style::OneTrip => (0, 5000),
            _ => (r.range(0, 6), r.range(1, 80)),
        };
        self.phase_left = 0;
        match self.steps {
            Style::Extreme => r.edge(10, high),
            Style::Round => (10 * r.range(1, 8)).min(high),
            _ => r.range(10, high.min(60)),
        }
    }

    fn go_on(&mut self, r: &mut Rng, before: i64, cap: i64) -> i64 {
        self.trip_left -= 1;
        if self.trip_left <= 0 {
            return self.brake(r, before, cap);
        }
        let (low, high) = ((before - 150).max(10), cap.min(before + 150));
        for _ in 0..6 {
            let speed = (before + self.step(r, before)).min(self.top).clamp(low, high);
            if self.some_gear_fits(speed) {
                return speed;
            }
            self.phase_left = 0;
        }
        if before <= 159 { at_rest(r, before) } else { before.min(high) }
    }

    fn some_gear_fits(&self, speed: i64) -> bool {
        !self.careful || paper::gears(self.v).any(|gear| paper::fits(self.v, gear, speed as u16, false, Lies::Elsewhere))
    }

    fn step(&mut self, r: &mut Rng, before: i64) -> i64 {
        if self.phase_left <= 0 {
            self.phase_left = r.range(1, 15);
            self.phase = if before < self.top / 4 { r.range(-15, 45) } else { r.range(-45, 40) };
        }
        self.phase_left -= 1;
        match self.steps {
            Style::Extreme => [150, 150, 149, -150, -149, 0, r.range(-150, 150), r.range(0, 150)][r.below(8)],
            Style::Round => 10 * r.pick(&[0, 0, 0, 1, 2, 3, 5, -1, -2, -5]),
            Style::Plateau => r.pick(&[0, 0, 0, 1, -1, 12, 5, -7]),
            Style::Short => r.range(-40, 70),
            _ => self.phase + r.range(-2, 2),
        }
    }

    /// Down to rest at a rate of its own, sometimes easing off, so that closing runs are cut in places.
    fn brake(&mut self, r: &mut Rng, before: i64, cap: i64) -> i64 {
        let gentlest = if r.chance(10) { -3 } else { 1 };
        let rate = if self.steps == Style::Extreme { 150 } else { r.range(gentlest, 45) };
        let speed = (before - rate).min(cap).max(before - 150);
        if speed >= 10 { speed } else { at_rest(r, before) }
    }
}

/// Holds that the working accepts, and that help where no gear fits.
pub fn holds(r: &mut Rng, v: &Vehicle, speeds: &[u16]) -> Vec<u8> {
    let percent = r.pick(&[0, 0, 0, 2, 5, 10, 40, 90]);
    let low_only = r.chance(40);
    let mut holds = vec![0; speeds.len()];
    for s in 0..speeds.len() {
        if paper::moving(speeds[s]) && r.chance(percent) {
            holds[s] = good_gear(r, v, speeds[s], low_only).unwrap_or(0);
        }
    }
    holds
}

/// A gear within nmax: below its minimum speed is allowed for a hold.
fn good_gear(r: &mut Rng, v: &Vehicle, speed: u16, low_only: bool) -> Option<u8> {
    let lowest = paper::gears(v).find(|&gear| paper::engine(v, gear, speed) <= 1000 * v.nmax as i128)?;
    let highest = if low_only { (lowest + 2).min(v.ng as u8) } else { v.ng as u8 };
    Some(r.range(lowest as i64, highest as i64) as u8)
}

/// Puts fault 4 to 10 into the trace or its holds, where there is a place for it; answers that place.
pub fn put_fault(r: &mut Rng, v: &Vehicle, speeds: &mut [u16], holds: &mut [u8], number: u32) -> Option<usize> {
    let length = speeds.len();
    let place = match number {
        5 => length.checked_sub(2).map(|m| 1 + r.below(m + 1)),
        6 => length.checked_sub(1).map(|last| r.pick(&[0, last])),
        7 => any_place(r, length, |_| true),
        8 => any_place(r, length, |s| !paper::moving(speeds[s])),
        9 => any_place(r, length, |s| paper::moving(speeds[s]) && paper::engine(v, paper::lowest(v), speeds[s]) > 1000 * v.nmax as i128),
        10 => unfit_place(r, v, speeds),
        _ => any_place(r, length, |s| paper::moving(speeds[s])),
    }?;
    match number {
        4 => speeds[place] = r.pick(&[2001, 2001, 2048, 65_535]),
        5 => put_step(r, speeds, place),
        6 if r.chance(25) => all_moving(speeds),
        6 => speeds[place] = r.range(10, 120) as u16,
        7 if v.profile == 1 && r.chance(50) => holds[place] = 1,
        7 => holds[place] = if r.chance(70) { v.ng as u8 + 1 } else { r.pick(&[11, 16, 17, 128, 255]) },
        8 => holds[place] = r.range(paper::lowest(v) as i64, v.ng as i64) as u8,
        9 => holds[place] = paper::lowest(v),
        _ => put_unfit(r, v, speeds, holds, place),
    }
    Some(place)
}

/// A place that will do, looked for from a random one onwards.
pub fn any_place(r: &mut Rng, length: usize, wanted: impl Fn(usize) -> bool) -> Option<usize> {
    let from = if length == 0 { return None } else { r.below(length) };
    (0..length).map(|k| (from + k) % length).find(|&s| wanted(s))
}

/// A step of 151, or just 150, or anything.
fn put_step(r: &mut Rng, speeds: &mut [u16], place: usize) {
    let before = speeds[place - 1] as i64;
    let size = r.pick(&[150, 151, 151, 151, 152, 300, 2000]);
    let down = before >= size && r.chance(60);
    speeds[place] = if down { before - size } else { (before + size).min(2000) } as u16;
}

/// One trip that reaches both ends: every step stays as it was.
fn all_moving(speeds: &mut [u16]) {
    speeds.iter_mut().for_each(|speed| *speed = (*speed + 10).min(2000));
}

/// Speeds near that of a moving second which no gear fits there.
fn unfit_near(v: &Vehicle, speeds: &[u16], s: usize) -> Vec<u16> {
    let opens = s > 0 && !paper::moving(speeds[s - 1]);
    let here = speeds[s] as i64;
    let unfit = |speed: &i64| paper::gears(v).all(|gear| !paper::fits(v, gear, *speed as u16, opens, Lies::Elsewhere));
    ((here - 120).max(10)..=(here + 120).min(2000)).filter(unfit).map(|speed| speed as u16).collect()
}

/// Looked for a few times only: many vehicles leave no such speed.
fn unfit_place(r: &mut Rng, v: &Vehicle, speeds: &[u16]) -> Option<usize> {
    let moving: Vec<usize> = (0..speeds.len()).filter(|&s| paper::moving(speeds[s])).collect();
    (0..moving.len().min(12)).map(|_| r.pick(&moving)).find(|&s| !unfit_near(v, speeds, s).is_empty())
}

/// Takes the hold off and turns the speed until no gear fits; the neighbours' speeds follow, so that the steps stay small enough.
fn put_unfit(r: &mut Rng, v: &Vehicle, speeds: &mut [u16], holds: &mut [u8], place: usize) {
    let near = unfit_near(v, speeds, place);
    speeds[place] = r.pick(&near);
    holds[place] = 0;
    for s in place + 1..speeds.len() {
        if paper::moving(speeds[s]) {
            let before = speeds[s - 1] as i64;
            speeds[s] = (speeds[s] as i64).clamp((before - 150).max(10), before + 150) as u16;
        }
    }
}
