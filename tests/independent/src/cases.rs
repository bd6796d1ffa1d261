//! One case of each kind: generation, the reference's answer, the library's, and their comparison.

use crate::events::{asked, count, Event};
use crate::exports;
use crate::jobs;
use crate::library::{Library, Loan};
use crate::paper::{self, Edited, Mended, Refusal};
use crate::revs::Finished;
use crate::rng::Rng;
use crate::summary::{self, Shown, Summary};
use crate::traces;
use crate::vehicle::{without_crawler, Vehicle, ZERO};
use crate::vehicles;
use crate::why;

pub const KINDS: [&str; 9] = ["read", "work", "hold", "release", "export", "write", "mend", "summary", "why"];

/// The number of the answer (0: accepted), and the profile of the vehicle, of a refused job and of an export 0.
pub struct Met {
    pub number: u32,
    pub profile: u16,
}

/// Or a description of the mismatch.
pub type Outcome = Result<Met, String>;

pub fn run(library: &mut Library, seed: u64, kind: usize, index: u64) -> Outcome {
    let mut r = Rng::of_case(seed, kind as u64, index);
    let outcome = match kind {
        0 => read_case(library, &mut r),
        1 => work_case(library, &mut r),
        2 => hold_case(library, &mut r),
        3 => release_case(library, &mut r),
        4 => export_case(library, &mut r),
        5 => write_case(library, &mut r),
        6 => mend_case(library, &mut r),
        7 => summary_case(library, &mut r),
        _ => why_case(library, &mut r),
    };
    outcome.map_err(|why| format!("FAILED: gearcard_{}, seed {seed}, case {index}\n{why}", KINDS[kind]))
}

fn number<T>(answer: &Result<T, Refusal>) -> u32 {
    answer.as_ref().err().map_or(0, |(number, _)| *number)
}

fn met<T>(answer: &Result<T, Refusal>, profile: u16) -> Outcome {
    Ok(Met { number: number(answer), profile })
}

// ---------------------------------------------------------------- what a case is made of

struct Setting {
    vehicle: Vehicle,
    speeds: Vec<u16>,
    holds: Vec<u8>,
    card: Vec<u8>,
    /// Seconds where a fault was put, for the quick way to ask about.
    faults: Vec<usize>,
}

impl Setting {
    fn shown(&self) -> Shown<'_> {
        Shown { speeds: &self.speeds, card: &self.card }
    }
}

/// A sound vehicle, trace and holds; the card is noise, which the quick way may replace by the right one.
fn sound(r: &mut Rng) -> Setting {
    let vehicle = vehicles::good(r);
    let length = traces::length(r);
    let speeds = traces::trace(r, &vehicle, length);
    let holds = traces::holds(r, &vehicle, &speeds);
    let card = (0..length).map(|_| r.next() as u8).collect();
    Setting { vehicle, speeds, holds, card, faults: Vec::new() }
}

/// Faults 4 to 10 first, since they need a sound vehicle; then the vehicle; then the lengths.
fn spoil(r: &mut Rng, c: &mut Setting) {
    let how_many = r.pick(&[1, 1, 1, 2, 3]);
    let mut numbers: Vec<u32> = (0..how_many).map(|_| r.range(1, 10) as u32).collect();
    numbers.sort_by(|a, b| b.cmp(a));
    for number in numbers {
        match number {
            1 => spoil_length(r, c),
            2 => spoil_rooms(r, c),
            3 => spoil_vehicle(r, c),
            _ => c.faults.extend(traces::put_fault(r, &c.vehicle, &mut c.speeds, &mut c.holds, number)),
        }
    }
}

fn spoil_length(r: &mut Rng, c: &mut Setting) {
    let length = r.pick(&[0, 0, 0, 16_385, 16_385, 16_386]);
    c.speeds.resize(length, 0);
    if r.chance(70) {
        c.holds.resize(length, 0);
        c.card.resize(length, 7);
    }
}

/// One or both of the other slices a few longer or shorter.
fn spoil_rooms(r: &mut Rng, c: &mut Setting) {
    let which = r.range(1, 3);
    let near = |r: &mut Rng, length: usize| (length as i64 + r.pick(&[-3, -1, -1, 1, 1, 2])).max(0) as usize;
    if which != 2 {
        c.holds.resize(near(r, c.speeds.len()), 1);
    }
    if which != 1 {
        c.card.resize(near(r, c.speeds.len()), 3);
    }
}

/// One field, or two with the later one first, for a field's fault leans on the fields before it.
fn spoil_vehicle(r: &mut Rng, c: &mut Setting) {
    if vehicles_broken(c) {
        return;
    }
    let mut fields = vec![r.range(1, 13) as usize];
    if r.chance(25) {
        fields.push(r.range(1, 13) as usize);
    }
    fields.sort_by(|a, b| b.cmp(a));
    fields.dedup();
    for field in fields {
        vehicles::break_field(r, &mut c.vehicle, field);
    }
}

fn vehicles_broken(c: &Setting) -> bool {
    paper::first_bad_field(&c.vehicle).is_some()
}

fn describe(c: &Setting) -> String {
    format!("{:?}\nspeeds ({}) {:?}\nholds ({}) {:?}\ncard ({}) {:?}", c.vehicle, c.speeds.len(), c.speeds, c.holds.len(), c.holds, c.card.len(), c.card)
}

// ---------------------------------------------------------------- the whole working

fn work_case(library: &mut Library, r: &mut Rng) -> Outcome {
    let mut c = sound(r);
    if r.chance(35) {
        spoil(r, &mut c);
    }
    let expected = asked(|| paper::work(&c.vehicle, &c.speeds, &c.holds, c.card.len()));
    let loan = Loan::new(r, &c.speeds, &c.holds, &c.card);
    let told = |why: String| format!("{why}\n{}\nreference: {expected:?}", describe(&c));
    library.work(&c.vehicle, &loan, &expected).map_err(told)?;
    van_as_car(&c, &expected).map_err(told)?;
    met(&expected, c.vehicle.profile)
}

/// The paper against itself, request Thirteen: a van's card, or refusal 10, is that of the car without the crawler, each gear and each hold one higher.
fn van_as_car(c: &Setting, expected: &Result<Vec<u8>, Refusal>) -> Result<(), String> {
    if c.vehicle.profile != 1 || !matches!(expected, Ok(_) | Err((10, _))) {
        return Ok(());
    }
    let holds: Vec<u8> = c.holds.iter().map(|gear| gear.saturating_sub(1)).collect();
    let car = paper::work(&without_crawler(&c.vehicle), &c.speeds, &holds, c.card.len());
    let higher = car.map(|card| card.into_iter().map(|byte| if byte == 0 { 0 } else { byte + 1 }).collect());
    count(Event::VanAsCar);
    if higher == *expected {
        return Ok(());
    }
    Err(format!("the reference's van and its car disagree: {higher:?}"))
}

// ---------------------------------------------------------------- the quick way

fn hold_case(library: &mut Library, r: &mut Rng) -> Outcome {
    let (c, right) = on_screen(r);
    let second = ask_second(r, &c);
    let gear = ask_gear(r, &c, second);
    let expected = asked(|| paper::hold(&c.vehicle, &c.speeds, &c.holds, &c.card, second, gear));
    let loan = Loan::new(r, &c.speeds, &c.holds, &c.card);
    let summary = summary::lent(r, c.shown());
    let told = |why: String| format!("{why}\nsecond {second} gear {gear} {summary:?}\n{}\nreference (holds, card): {expected:?}", describe(&c));
    library.hold(&c.vehicle, &loan, second, gear, summary, &expected).map_err(told)?;
    // Gear 0 is no hold of the whole working.
    if right && gear != 0 {
        edited_as_whole(&c, second, gear, &expected).map_err(told)?;
    }
    met(&expected, c.vehicle.profile)
}

fn release_case(library: &mut Library, r: &mut Rng) -> Outcome {
    let (c, right) = on_screen(r);
    let held = traces::any_place(r, c.holds.len(), |s| c.holds[s] != 0);
    let second = held.filter(|_| r.chance(50)).unwrap_or_else(|| ask_second(r, &c));
    let expected = asked(|| paper::release(&c.vehicle, &c.speeds, &c.holds, &c.card, second));
    let loan = Loan::new(r, &c.speeds, &c.holds, &c.card);
    let summary = summary::lent(r, c.shown());
    let told = |why: String| format!("{why}\nsecond {second} released {summary:?}\n{}\nreference (holds, card): {expected:?}", describe(&c));
    library.release(&c.vehicle, &loan, second, summary, &expected).map_err(told)?;
    if right {
        edited_as_whole(&c, second, 0, &expected).map_err(told)?;
        free_changes_nothing(&c, second, &expected).map_err(told)?;
    }
    met(&expected, c.vehicle.profile)
}

/// The paper against itself: releasing a free second of a right card changes no byte.
fn free_changes_nothing(c: &Setting, second: usize, expected: &Edited) -> Result<(), String> {
    if c.holds.get(second) != Some(&0) {
        return Ok(());
    }
    count(Event::FreeReleased);
    if expected.as_ref() == Ok(&(c.holds.clone(), c.card.clone())) {
        return Ok(());
    }
    Err(String::from("the reference's release of a free second changes something"))
}

/// What a button is pressed on, and whether its card is the right one.
fn on_screen(r: &mut Rng) -> (Setting, bool) {
    let mut c = sound(r);
    let mut right = false;
    if r.chance(60) {
        if let Ok(card) = paper::work(&c.vehicle, &c.speeds, &c.holds, c.speeds.len()) {
            (c.card, right) = (card, true);
        }
    }
    if r.chance(45) {
        // The card is then still one that once was right, which is the more telling thing to lend.
        spoil(r, &mut c);
        right = false;
    }
    (c, right)
}

/// The paper against itself: from a right card the very card, or the very refusal, of the whole working on the new holds, and it spares the engine.
fn edited_as_whole(c: &Setting, second: usize, gear: u8, expected: &Edited) -> Result<(), String> {
    if second >= c.speeds.len() {
        return Ok(());
    }
    let mut holds = c.holds.clone();
    holds[second] = gear;
    same_as_whole(c, &c.speeds, &holds, &expected.as_ref().map(|(_, card)| card.clone()).map_err(|refusal| *refusal))
}

fn same_as_whole(c: &Setting, speeds: &[u16], holds: &[u8], expected: &Result<Vec<u8>, Refusal>) -> Result<(), String> {
    count(if expected.is_ok() { Event::EditAsWhole } else { Event::RefusalAsWhole });
    if let Ok(card) = expected {
        Finished { vehicle: &c.vehicle, speeds, holds, card }.check()?;
    }
    let whole = paper::work(&c.vehicle, speeds, holds, c.card.len());
    if whole == *expected {
        return Ok(());
    }
    Err(format!("the reference's quick way and its whole working disagree: {whole:?}"))
}

/// Mostly a moving second, or one near a fault; sometimes outside.
fn ask_second(r: &mut Rng, c: &Setting) -> usize {
    let length = c.speeds.len();
    if length == 0 || r.chance(4) {
        return r.pick(&[length, length, length + 1, length + 300, usize::MAX, 1 << 32, 1 << 63, 65_536]);
    }
    if !c.faults.is_empty() && r.chance(75) {
        let near = r.pick(&c.faults) as i64 + r.pick(&[-2, -1, 0, 0, 1, 2]);
        return near.clamp(0, length as i64 - 1) as usize;
    }
    let wants_moving = r.chance(88);
    traces::any_place(r, length, |s| paper::moving(c.speeds[s]) == wants_moving).unwrap_or(0)
}

fn ask_gear(r: &mut Rng, c: &Setting, second: usize) -> u8 {
    let ng = c.vehicle.ng.clamp(2, 10) as i64;
    let nmax = 1000 * c.vehicle.nmax as i128;
    let good: Vec<u8> = match c.speeds.get(second) {
        Some(&speed) => (paper::lowest(&c.vehicle)..=ng as u8).filter(|&gear| paper::engine(&c.vehicle, gear, speed) <= nmax).collect(),
        None => Vec::new(),
    };
    match r.range(0, 99) {
        0..=11 => 0,
        12..=79 if !good.is_empty() => r.pick(&good),
        80..=84 => ng as u8 + 1,
        85..=86 => r.pick(&[11, 16, 17, 255]),
        _ => r.range(1, ng) as u8,
    }
}

// ---------------------------------------------------------------- the reader

fn read_case(library: &mut Library, r: &mut Rng) -> Outcome {
    let (bytes, count) = job(r);
    let rooms = rooms(r, count);
    let expected = asked(|| paper::read(&bytes, rooms.0, rooms.1));
    let speeds: Vec<u16> = (0..rooms.0).map(|_| r.next() as u16).collect();
    let holds: Vec<u8> = (0..rooms.1).map(|_| r.next() as u8).collect();
    library.read(&Loan::new(r, &speeds, &holds, &bytes), &expected).map_err(|why| {
        let told = expected.as_ref().map(|job| (job.version, &job.vehicle, &job.speeds, &job.holds));
        format!("{why}\nrooms {rooms:?}\njob ({}) {bytes:?}\nreference: {told:?}", bytes.len())
    })?;
    met(&expected, expected.as_ref().map_or(0, |job| job.vehicle.profile))
}

/// A job that is whole, then damaged in no, one or two ways; now and then no job at all. With it the sample count it had when whole.
fn job(r: &mut Rng) -> (Vec<u8>, usize) {
    if r.chance(2) {
        let length = if r.chance(50) { r.range(0, 40) } else { r.range(0, 4) };
        return ((0..length).map(|k| if k == 0 { r.pick(&[1, 3]) } else { r.next() as u8 & 0x7F }).collect(), 5);
    }
    let mut c = sound(r);
    if r.chance(20) {
        spoil_values(r, &mut c);
    }
    if r.chance(40) {
        c.holds.iter_mut().filter(|gear| **gear != 0).for_each(|gear| *gear = r.range(1, 255) as u8);
    }
    let damages: Vec<i64> = (0..r.pick(&[0, 1, 1, 1, 2])).map(|_| r.range(0, jobs::DAMAGES)).collect();
    // Version 1 has no place for margins, nor 1 and 2 for a profile: they are simply not there.
    let mut groups = jobs::groups(r.pick(&[1, 2, 3, 3]), &c.vehicle, &c.speeds, &c.holds);
    damages.iter().filter(|kind| **kind <= jobs::GROUP_DAMAGES).for_each(|kind| jobs::damage_groups(r, &mut groups, *kind));
    let mut bytes = groups.all.concat();
    damages.iter().filter(|kind| **kind > jobs::GROUP_DAMAGES).for_each(|kind| jobs::damage_bytes(r, &mut bytes, *kind));
    (bytes, c.speeds.len())
}

/// Ranges other than the counts are none of the reader's business: it takes any values there.
fn spoil_values(r: &mut Rng, c: &mut Setting) {
    let v = &mut c.vehicle;
    v.idle = r.next() as u16;
    v.rated = r.next() as u16;
    v.nmax = r.next() as u16;
    v.f0 = r.next() as u16;
    v.f1 = r.edge(-5000, 60_535) as i32;
    v.f2 = r.next() as u16;
    v.tm = r.next() as u16;
    v.margin = r.next() as u16;
    v.ratio.iter_mut().chain(&mut v.n).chain(&mut v.p).chain(&mut v.m).for_each(|x| *x = r.next() as u16);
    c.speeds.iter_mut().for_each(|x| *x = r.next() as u16);
}

/// Mostly enough room, by nothing or by a few; sometimes too little in one or both.
fn rooms(r: &mut Rng, count: usize) -> (usize, usize) {
    let one = |r: &mut Rng| match r.range(0, 99) {
        0..=39 => count,
        40..=79 => count + r.range(1, 9) as usize,
        80..=93 => count.max(2_048),
        94 => paper::LONGEST.max(count),
        95..=97 => count.saturating_sub(1),
        _ => r.below(count + 1),
    };
    (one(r), one(r))
}

// ---------------------------------------------------------------- the bench's export

fn export_case(library: &mut Library, r: &mut Rng) -> Outcome {
    let bytes = exports::export(r);
    let expected = exports::read(&bytes);
    let loan = Loan::new(r, &[], &[], &bytes);
    library.export(&loan, &expected).map_err(|why| format!("{why}\nexport ({}) {bytes:?}\nreference: {expected:?}", bytes.len()))?;
    met(&expected, 0)
}

// ---------------------------------------------------------------- the writer

fn write_case(library: &mut Library, r: &mut Rng) -> Outcome {
    let (version, c, was) = to_write(r);
    let needed = paper::write(version, &c.vehicle, &c.speeds, &c.holds, usize::MAX).map_or(300, |bytes| bytes.len());
    let room: Vec<u8> = (0..write_room(r, needed)).map(|_| r.next() as u8).collect();
    let expected = asked(|| paper::write(version, &c.vehicle, &c.speeds, &c.holds, room.len()));
    let loan = Loan::new(r, &c.speeds, &c.holds, &room);
    let told = |why: String| format!("{why}\nversion {version}, room {}\n{}\nreference: {expected:?}", room.len(), describe(&c));
    library.write(version, &c.vehicle, &loan, &expected).map_err(told)?;
    if let Ok(bytes) = &expected {
        if room.len() == bytes.len() {
            count(Event::RoomExact);
        }
        reads_back(library, r, version, &c, bytes).map_err(told)?;
        written_as_read(bytes, was.as_deref()).map_err(told)?;
    }
    met(&expected, c.vehicle.profile)
}

/// A version, and what a screen has at hand, sound or spoiled; or what was read of a job, with that job's bytes.
fn to_write(r: &mut Rng) -> (u16, Setting, Option<Vec<u8>>) {
    if r.chance(35) {
        let (bytes, _) = job(r);
        if let Ok(job) = paper::read(&bytes, paper::LONGEST, paper::LONGEST) {
            return (job.version, Setting { vehicle: job.vehicle, speeds: job.speeds, holds: job.holds, card: Vec::new(), faults: Vec::new() }, Some(bytes));
        }
    }
    let mut c = sound(r);
    if r.chance(35) {
        spoil(r, &mut c);
    }
    let version = match r.range(0, 99) {
        0..=29 => 1,
        30..=54 => 2,
        55..=94 => 3,
        _ => r.pick(&[0, 4, 256, 257, 259, 65_535]),
    };
    // Mostly a version below 3 has no profile to tell.
    if version < 3 && r.chance(80) {
        c.vehicle.profile = 0;
    }
    // Mostly version 1 has no margin to tell.
    if version == 1 && r.chance(70) {
        c.vehicle.m[..(c.vehicle.points as usize).min(64)].fill(0);
    }
    (version, c, None)
}

/// Mostly room enough, by nothing or by some; often one byte too short, or far too short.
fn write_room(r: &mut Rng, needed: usize) -> usize {
    match r.range(0, 99) {
        0..=29 => needed,
        30..=59 => needed + r.range(1, 40) as usize,
        60..=69 => needed + 5000,
        70..=84 => needed - 1,
        85..=89 => 0,
        _ => r.below(needed),
    }
}

/// What is written reads back, by the reference and by the library, as the same job; places that are no part of it as 0.
fn reads_back(library: &mut Library, r: &mut Rng, version: u16, c: &Setting, bytes: &[u8]) -> Result<(), String> {
    let rooms = (c.speeds.len() + r.below(9), c.speeds.len() + r.below(9));
    let expected = asked(|| paper::read(bytes, rooms.0, rooms.1));
    if !expected.as_ref().is_ok_and(|job| job.version == version && job.vehicle == cleared(&c.vehicle) && job.speeds == c.speeds && job.holds == c.holds) {
        return Err(String::from("the reference does not read back what it wrote"));
    }
    let (speeds, holds) = (vec![7; rooms.0], vec![7; rooms.1]);
    library.read(&Loan::new(r, &speeds, &holds, bytes), &expected)
}

fn cleared(v: &Vehicle) -> Vehicle {
    let (gears, points) = (v.ng as usize, v.points as usize);
    let mut kept = Vehicle { ratio: ZERO.ratio, n: ZERO.n, p: ZERO.p, m: ZERO.m, ..*v };
    kept.ratio[..gears].copy_from_slice(&v.ratio[..gears]);
    kept.n[..points].copy_from_slice(&v.n[..points]);
    kept.p[..points].copy_from_slice(&v.p[..points]);
    kept.m[..points].copy_from_slice(&v.m[..points]);
    kept
}

/// A job that was read and passes the checks is written as the bytes that it had.
fn written_as_read(bytes: &[u8], was: Option<&[u8]>) -> Result<(), String> {
    let Some(was) = was else { return Ok(()) };
    count(Event::WrittenAsRead);
    if was == bytes {
        return Ok(());
    }
    Err(format!("the reference writes a job that it read as other bytes; it was {was:?}"))
}

// ---------------------------------------------------------------- mending a sample

/// A sample mended; now and then another, and mostly back again, which joins what was split.
fn mend_case(library: &mut Library, r: &mut Rng) -> Outcome {
    let (mut c, mut right) = on_screen(r);
    let second = ask_mended(r, &c);
    let speed = ask_speed(r, &c, second);
    let was = c.speeds.get(second).copied();
    let summary = summary::lent(r, c.shown());
    let (expected, summary) = mend_once(library, r, &c, right, second, speed, summary)?;
    let answer = met(&expected, c.vehicle.profile);
    if let (Ok((speeds, card)), Some(was), true) = (expected, was, r.chance(60)) {
        (c.speeds, c.card) = (speeds, card);
        right &= paper::work(&c.vehicle, &c.speeds, &c.holds, c.card.len()).as_ref() == Ok(&c.card);
        mend_once(library, r, &c, right, second, was, summary).map(drop)?;
    }
    answer
}

/// With the summary afterwards.
fn mend_once(library: &mut Library, r: &mut Rng, c: &Setting, right: bool, second: usize, speed: u16, summary: Summary) -> Result<(Mended, Summary), String> {
    let expected = asked(|| paper::mend(&c.vehicle, &c.speeds, &c.holds, &c.card, second, speed));
    let loan = Loan::new(r, &c.speeds, &c.holds, &c.card);
    let told = |why: String| format!("{why}\nsecond {second} mended to {speed} {summary:?}\n{}\nreference (speeds, card): {expected:?}", describe(c));
    let kept = library.mend(&c.vehicle, &loan, second, speed, summary, &expected).map_err(told)?;
    if right {
        mended_as_whole(c, second, speed, &expected).map_err(told)?;
    }
    if expected == Err((8, second)) && paper::gears(&c.vehicle).contains(&c.holds[second]) && !paper::moving(speed) {
        count(Event::HoldWon);
    }
    Ok((expected, kept))
}

/// The paper against itself: from a right card the very card, or the very refusal, of the whole working on the new trace, and it spares the engine.
fn mended_as_whole(c: &Setting, second: usize, speed: u16, expected: &Mended) -> Result<(), String> {
    if second >= c.speeds.len() {
        return Ok(());
    }
    let mut speeds = c.speeds.clone();
    speeds[second] = speed;
    same_as_whole(c, &speeds, &c.holds, &expected.as_ref().map(|(_, card)| card.clone()).map_err(|refusal| *refusal))
}

/// Any second: near a fault, held, between two trips, or moving or standing; sometimes outside.
fn ask_mended(r: &mut Rng, c: &Setting) -> usize {
    let length = c.speeds.len();
    if length == 0 || r.chance(3) || (!c.faults.is_empty() && r.chance(50)) {
        return ask_second(r, c);
    }
    let moves = |s: usize| paper::moving(c.speeds[s]);
    let found = match r.range(0, 9) {
        0 => traces::any_place(r, c.holds.len().min(length), |s| c.holds[s] != 0),
        1..=2 => traces::any_place(r, length, |s| s > 0 && s + 1 < length && !moves(s) && moves(s - 1) && moves(s + 1)),
        3..=4 => traces::any_place(r, length, |s| !moves(s)),
        _ => traces::any_place(r, length, moves),
    };
    found.unwrap_or_else(|| r.below(length))
}

/// Mostly within a step of both neighbours: a little more or less, at rest, just moving, as the neighbours; sometimes too far, or anything.
fn ask_speed(r: &mut Rng, c: &Setting, second: usize) -> u16 {
    let near = |s: usize| c.speeds.get(s).map_or(0, |&speed| speed as i64);
    let (before, now, after) = (near(second.wrapping_sub(1)), near(second), near(second.wrapping_add(1)));
    let (low, high) = (before.max(after) - 150, before.min(after) + 150);
    let speed = match r.range(0, 99) {
        0..=34 => now + r.range(-12, 12),
        35..=49 => r.range(0, 9),
        50..=57 => r.range(10, 30),
        58..=69 if low <= high => r.edge(low.max(0), high),
        70..=79 => (before + after) / 2,
        80..=84 => low - 1,
        85..=89 => high + 1,
        90..=91 => r.pick(&[2000, 2001, 2100, 65_535]),
        92 => r.next() as u16 as i64,
        _ => now,
    };
    speed.clamp(0, 65_535) as u16
}

// ---------------------------------------------------------------- the summary of a card

/// Of a card that is right, once was right, or is noise; lengths spoiled more often than other things, for nothing else is refused.
fn summary_case(library: &mut Library, r: &mut Rng) -> Outcome {
    let (mut c, right) = on_screen(r);
    match r.range(0, 99) {
        0..=4 => spoil_length(r, &mut c),
        5..=11 => spoil_rooms(r, &mut c),
        // The clutch alone differs here and there.
        12..=30 => c.card.iter_mut().for_each(|byte| *byte = *byte % 16 + r.pick(&[0, 0, 16, 240])),
        _ => {}
    }
    let expected = asked(|| summary::of(c.shown()));
    let loan = Loan::new(r, &c.speeds, &c.holds, &c.card);
    let told = |why: String| format!("{why}\n{}\nreference: {expected:?}", describe(&c));
    library.summary(&loan, &expected).map_err(told)?;
    if let Ok(summary) = expected {
        clutch_alone(&c);
        if right && summary.seconds() != c.speeds.len() {
            return Err(told(String::from("the reference's seconds of a right card do not add up to the trace")));
        }
    }
    met(&expected, 0)
}

fn clutch_alone(c: &Setting) {
    let both_moving = |s: usize| paper::moving(c.speeds[s]) && paper::moving(c.speeds[s + 1]);
    if (0..c.speeds.len() - 1).any(|s| both_moving(s) && c.card[s] != c.card[s + 1] && c.card[s] % 16 == c.card[s + 1] % 16) {
        count(Event::ClutchAlone);
    }
}

// ---------------------------------------------------------------- why

fn why_case(library: &mut Library, r: &mut Rng) -> Outcome {
    let mut c = sound(r);
    if r.chance(25) {
        spoil(r, &mut c);
    }
    let second = why_second(r, &c);
    let expected = why::of(&c.vehicle, &c.speeds, &c.holds, second);
    let loan = Loan::new(r, &c.speeds, &c.holds, &c.card);
    let told = |why: String| format!("{why}\n{}\nsecond {second}\nreference: {expected:?}", describe(&c));
    library.why(&c.vehicle, &loan, second, &expected).map_err(told)?;
    // The paper against itself: the last step is the card's byte.
    if r.chance(10) {
        if let (Ok(card), (refusal, reasons)) = (paper::work(&c.vehicle, &c.speeds, &c.holds, c.speeds.len()), &expected) {
            if second < card.len() && (refusal.is_some() || reasons.byte != card[second]) {
                return Err(told(String::from("the reference's steps do not come to the byte of its card")));
            }
        }
    }
    Ok(Met { number: expected.0.map_or(0, |(number, _)| number), profile: c.vehicle.profile })
}

/// A moving second most of the time, one at a fault if there is one, or any, past the end too.
fn why_second(r: &mut Rng, c: &Setting) -> usize {
    if !c.faults.is_empty() && r.chance(50) {
        return r.pick(&c.faults);
    }
    let moving = if r.chance(80) { traces::any_place(r, c.speeds.len(), |s| paper::moving(c.speeds[s])) } else { None };
    moving.unwrap_or_else(|| r.below(c.speeds.len() + 2))
}
