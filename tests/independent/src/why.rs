//! Why a second shows what it shows: the facts of each gear and the steps to the byte, worked out from the papers, one by one.

use crate::paper::{self, Lies, Refusal, Trip};
use crate::vehicle::Vehicle;
use std::sync::atomic::{AtomicU64, Ordering::Relaxed};

/// One gear at a second; all zeros where there is no such gear.
#[derive(Clone, Copy, PartialEq, Debug, Default)]
pub struct Gear {
    pub q: i64,
    pub w: i64,
    pub engine: u32,
    pub minimum: u32,
    pub rule: u8,
    pub allowed: u8,
    pub over_minimum: u8,
    pub under_nmax: u8,
    pub fits: u8,
    pub enough: u8,
}

#[derive(Clone, Copy, PartialEq, Debug, Default)]
pub struct Reasons {
    pub about: u64,
    pub first: u64,
    pub last: u64,
    pub required: i64,
    pub gears: [Gear; 10],
    pub kind: u8,
    pub role: u8,
    pub held: u8,
    pub choice: u8,
    pub sentence: u8,
    pub after_a: u8,
    pub after_b: u8,
    pub after_c: u8,
    pub floor: u8,
    pub ceiling: u8,
    pub clutch: u8,
    pub clutch_reason: u8,
    pub byte: u8,
}

/// The refusal, if there is one, and the reasons: all zeros by 1 to 9 and 11, without the steps after the first choice by 10.
pub type Why = (Option<Refusal>, Reasons);

pub fn of(v: &Vehicle, speeds: &[u16], holds: &[u8], second: usize) -> Why {
    match placed(v, speeds, holds, second) {
        Err(refusal) => (Some(refusal), Reasons::default()),
        Ok(None) => (None, Reasons::default()),
        Ok(Some((kind, about, trip))) => told(v, speeds, holds, second, kind, about, trip),
    }
}

/// What the second is, the moving second that is spoken of, and its trip; none where it stands with no trip after it.
fn placed(v: &Vehicle, speeds: &[u16], holds: &[u8], second: usize) -> Result<Option<(u8, usize, Trip)>, Refusal> {
    paper::lengths_good(speeds.len(), holds.len(), speeds.len())?;
    paper::vehicle_good(v)?;
    if second >= speeds.len() {
        return Err((11, second));
    }
    let moves = |s: usize| speeds.get(s).is_some_and(|&speed| paper::moving(speed));
    let (kind, about) = match (moves(second), moves(second + 1)) {
        (true, _) => (2, second),
        (false, true) => (1, second + 1),
        (false, false) => {
            paper::seconds_sound(v, speeds, holds, second, second)?;
            return Ok(None);
        }
    };
    let trip = paper::trip_of(speeds, about);
    paper::seconds_sound(v, speeds, holds, trip.first.saturating_sub(1), (trip.last + 1).min(speeds.len() - 1))?;
    Ok(Some((kind, about, trip)))
}

fn told(v: &Vehicle, speeds: &[u16], holds: &[u8], second: usize, kind: u8, about: usize, trip: Trip) -> Why {
    // First choices from left to right; a second without one counts as 0 for the next.
    let mut chosen: Vec<u8> = Vec::new();
    for s in trip.first..=trip.last {
        chosen.push(paper::first_choice(v, speeds, holds, s, chosen.last().copied()).unwrap_or(0));
    }
    let wanting = chosen.iter().position(|gear| *gear == 0).map(|k| (10, trip.first + k));
    let opens = about == trip.first;
    let before = if opens { None } else { Some(chosen[about - 1 - trip.first]) };
    let lies = paper::lies(v, speeds, about, before);
    let required = paper::required(v, speeds[about], paper::change(speeds, about));
    let gears: [Gear; 10] = std::array::from_fn(|k| gear_at(v, k as u8 + 1, speeds[about], required, opens, lies));
    let choice = chosen[about - trip.first];
    let sentence = match () {
        _ if holds[about] != 0 => 1,
        _ if choice == 0 => 5,
        _ if opens => 4,
        _ if gears.iter().all(|gear| gear.fits == 0 || gear.enough == 0) => 3,
        _ => 2,
    };
    let role = match lies {
        _ if opens => 1,
        Lies::Closing => 2,
        Lies::AfterFirst => 3,
        Lies::Elsewhere => 4,
    };
    let floor = paper::gears(v).find(|&gear| paper::within_nmax(v, gear, speeds[about])).unwrap_or(v.ng as u8 + 1);
    let mut reasons = Reasons {
        about: about as u64,
        first: trip.first as u64,
        last: trip.last as u64,
        required: required as i64,
        gears,
        kind,
        role,
        held: holds[about],
        choice,
        sentence,
        floor,
        ..Reasons::default()
    };
    if wanting.is_none() {
        corrected(v, speeds, holds, second, trip, &chosen, &mut reasons);
    }
    note(&reasons);
    (wanting, reasons)
}

fn gear_at(v: &Vehicle, gear: u8, speed: u16, required: i128, opens: bool, lies: Lies) -> Gear {
    if !paper::gears(v).contains(&gear) {
        return Gear::default();
    }
    let is_lowest = gear == paper::lowest(v);
    let (x, minimum) = (paper::engine(v, gear, speed), paper::minimum(v, gear, lies));
    let under = paper::within_nmax(v, gear, speed);
    let rule = match (gear - paper::lowest(v), lies) {
        (0, _) => 1,
        (1, Lies::Elsewhere) => 2,
        (1, Lies::Closing) => 3,
        (1, Lies::AfterFirst) => 4,
        _ => 5,
    };
    let (q, w) = if under { Some(paper::power(v, gear, speed)) } else { None }.map_or((0, 0), |power| (power.q, power.w));
    Gear {
        q: q as i64,
        w: w as i64,
        engine: x as u32,
        minimum: minimum as u32,
        rule,
        allowed: (is_lowest || !opens) as u8,
        over_minimum: (x >= 1000 * minimum) as u8,
        under_nmax: under as u8,
        fits: paper::fits(v, gear, speed, opens, lies) as u8,
        enough: (under && q * 3_240_000 >= required * w) as u8,
    }
}

/// The gear after each correction, and the byte.
fn corrected(v: &Vehicle, speeds: &[u16], holds: &[u8], second: usize, trip: Trip, chosen: &[u8], reasons: &mut Reasons) {
    let about = reasons.about as usize;
    let mut gears = vec![0u8; speeds.len()];
    gears[trip.first..=trip.last].copy_from_slice(chosen);
    paper::pass_a(v, speeds, holds, trip, &mut gears);
    reasons.after_a = gears[about];
    paper::pass_b(v, speeds, holds, trip, &mut gears);
    reasons.after_b = gears[about];
    if about > trip.first && holds[about] == 0 && speeds[about - 1] < speeds[about] {
        // "the gear before plus one if the two seconds before lie in the trip with equal gears, else the gear before"
        let equal = about >= trip.first + 2 && gears[about - 1] == gears[about - 2];
        reasons.ceiling = gears[about - 1] + equal as u8;
    }
    paper::pass_c(v, speeds, holds, trip, &mut gears);
    reasons.after_c = gears[about];
    let step = paper::change(speeds, about);
    let slow = paper::engine(v, reasons.after_c, speeds[about]) < 1000 * v.idle as i128;
    reasons.clutch_reason = match () {
        _ if second != about => 1,
        _ if step > 0 => 3,
        _ if slow => 2,
        _ => 4,
    };
    reasons.clutch = (reasons.clutch_reason <= 2) as u8;
    reasons.byte = reasons.after_c + 16 * reasons.clutch;
}

// ---------------------------------------------------------------- each reason met and counted

const NAMES: [&str; 24] = [
    "standing, before a trip",
    "moving",
    "role: the trip's first second",
    "role: in the closing run",
    "role: after the lowest gear",
    "role: any other",
    "sentence: held",
    "sentence: highest with enough power",
    "sentence: most power",
    "sentence: only the lowest may fit",
    "sentence: none fits",
    "minimum: idle",
    "minimum: nine tenths",
    "minimum: idle, in the closing run",
    "minimum: 1.15 times idle",
    "minimum: an eighth",
    "A changed the gear",
    "B changed the gear",
    "C changed the gear",
    "clutch: D above 0",
    "clutch: X at least idle",
    "clutch down while moving",
    "minimum: idle, at a first second in the closing run",
    "the lowest gear fits below its minimum",
];

static COUNTS: [AtomicU64; NAMES.len()] = [const { AtomicU64::new(0) }; NAMES.len()];

fn note(reasons: &Reasons) {
    let mut met = vec![reasons.kind as usize - 1, reasons.role as usize + 1, reasons.sentence as usize + 5];
    met.extend(reasons.gears.iter().filter(|gear| gear.rule != 0).map(|gear| gear.rule as usize + 10));
    met.dedup();
    met.extend((reasons.role == 1 && reasons.gears.iter().any(|gear| gear.rule == 3)).then_some(22));
    met.extend(reasons.gears.iter().any(|gear| gear.fits == 1 && gear.over_minimum == 0).then_some(23));
    if reasons.byte != 0 {
        let steps = [reasons.choice, reasons.after_a, reasons.after_b, reasons.after_c];
        met.extend((0..3).filter(|&k| steps[k] != steps[k + 1]).map(|k| 16 + k));
        met.extend(match reasons.clutch_reason {
            2 => Some(21),
            3 => Some(19),
            4 => Some(20),
            _ => None,
        });
    }
    met.into_iter().for_each(|k| _ = COUNTS[k].fetch_add(1, Relaxed));
}

/// Prints how often each reason was the library's to tell; one that was never met was not tested.
pub fn all_met() -> Result<(), String> {
    println!("reasons asked of the library:");
    for (name, count) in NAMES.iter().zip(&COUNTS) {
        println!("  {:>10}  {name}", count.load(Relaxed));
    }
    match NAMES.iter().zip(&COUNTS).find(|(_, count)| count.load(Relaxed) == 0) {
        None => Ok(()),
        Some((name, _)) => Err(format!("FAILED: never met: {name}")),
    }
}
