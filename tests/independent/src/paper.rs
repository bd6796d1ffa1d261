//! The paper's rules, written out one by one from docs/01-scope.md and the requests of docs/02-change-requests.md that have landed, powers and speeds of
//! the engine in i128.
//! Nothing here is meant to be quick: a rule reads as the paper words it.

use crate::events::{note, Event};
use crate::jobs;
use crate::vehicle::{Vehicle, ZERO};
use std::ops::RangeInclusive;

pub const LONGEST: usize = 16_384;
/// Of a job.
pub const VERSIONS: RangeInclusive<u16> = 1..=3;
/// The card program's, in seconds.
pub const PROGRAM_ROOM: usize = 4_096;

/// Number and place.
pub type Refusal = (u32, usize);

// ---------------------------------------------------------------- the vehicle record

/// The number of the first field out of bounds.
pub fn first_bad_field(v: &Vehicle) -> Option<usize> {
    (1..=13).find(|&field| !field_good(v, field))
}

/// Fields are asked for in order, so a field may rely on those before it (field 2 on the gear count, 12 and 13 on the point count).
fn field_good(v: &Vehicle, field: usize) -> bool {
    match field {
        1 => v.profile <= 1 && gear_count_good(v.profile, v.ng),
        2 => ratios_good(&v.ratio[..v.ng as usize]),
        3 => (300..=3000).contains(&v.idle),
        4 => v.rated > v.idle && v.rated <= 12_000,
        5 => v.nmax >= v.rated && v.nmax <= 15_000,
        6 => v.f0 <= 10_000,
        7 => (-5000..=5000).contains(&v.f1),
        8 => v.f2 <= 20_000,
        9 => (400..=4000).contains(&v.tm),
        10 => v.margin <= 50,
        11 => (2..=64).contains(&v.points),
        12 => points_good(&v.n[..v.points as usize], &v.p[..v.points as usize]) && v.m[..v.points as usize].iter().all(|m| margin_good(v.margin, *m)),
        _ => v.n[0] <= v.idle && v.n[v.points as usize - 1] >= v.nmax,
    }
}

/// Request Thirteen: ng is 2 to 10, and 3 to 10 with a crawler.
fn gear_count_good(profile: u16, ng: u16) -> bool {
    let fewest = if profile == 1 { 3 } else { 2 };
    (fewest..=10).contains(&ng)
}

fn ratios_good(ratio: &[u16]) -> bool {
    ratio.iter().all(|g| (1..=50_000).contains(g)) && ratio.windows(2).all(|two| two[0] > two[1])
}

fn points_good(n: &[u16], p: &[u16]) -> bool {
    let rise = |two: &[u16]| (1..=1000).contains(&(two[1] as i32 - two[0] as i32));
    n.iter().all(|x| (1..=16_000).contains(x)) && p.iter().all(|x| *x <= 5000) && n.windows(2).all(rise)
}

/// Request Six: a point's margin.
fn margin_good(margin: u16, m: u16) -> bool {
    m <= 50 && margin as u32 + m as u32 <= 90
}

// ---------------------------------------------------------------- one second, one gear

pub fn moving(speed: u16) -> bool {
    speed >= 10
}

/// Request Thirteen: the gear that takes first gear's part; the next two take second and third gear's. A crawler is not driven.
pub fn lowest(v: &Vehicle) -> u8 {
    if v.profile == 1 { 2 } else { 1 }
}

/// From the lowest on.
pub fn gears(v: &Vehicle) -> RangeInclusive<u8> {
    lowest(v)..=v.ng as u8
}

/// X, thousandths of min^-1. Gears count from 1.
pub fn engine(v: &Vehicle, gear: u8, speed: u16) -> i128 {
    v.ratio[gear as usize - 1] as i128 * speed as i128
}

/// The nearest whole of a fraction that is not negative, halves up.
fn nearest(top: i64, bottom: i64) -> i64 {
    (2 * top + bottom).div_euclid(2 * bottom)
}

/// Where a second lies, as far as the minimum speed of second gear's part asks (request Two).
#[derive(Clone, Copy, PartialEq, Debug)]
pub enum Lies {
    /// In the closing run of its trip.
    Closing,
    /// Not there, and the second before lies in the trip with the lowest gear as first choice.
    AfterFirst,
    Elsewhere,
}

pub const LIES: [Lies; 3] = [Lies::Closing, Lies::AfterFirst, Lies::Elsewhere];

pub fn minimum(v: &Vehicle, gear: u8, lies: Lies) -> i128 {
    let (idle, rated) = (v.idle as i64, v.rated as i64);
    // The gear of document 01 whose part it takes.
    let whole = match (gear + 1 - lowest(v), lies) {
        (1, _) => idle,
        (2, Lies::Closing) => idle,
        (2, Lies::AfterFirst) => nearest(115 * idle, 100),
        (2, Lies::Elsewhere) => nearest(9 * idle, 10),
        _ => nearest(8 * idle + (rated - idle), 8),
    };
    whole as i128
}

pub fn within_nmax(v: &Vehicle, gear: u8, speed: u16) -> bool {
    engine(v, gear, speed) <= 1000 * v.nmax as i128
}

/// Of a gear that is driven.
pub fn fits(v: &Vehicle, gear: u8, speed: u16, opens_trip: bool, lies: Lies) -> bool {
    let x = engine(v, gear, speed);
    let least = 1000 * minimum(v, gear, lies);
    let between = x >= least && within_nmax(v, gear, speed);
    let slow_first = gear == lowest(v) && x < least;
    (between || slow_first) && (gear == lowest(v) || !opens_trip)
}

/// E, in 1/(3.24 x 10^12) kW; D keeps its sign.
pub fn required(v: &Vehicle, speed: u16, d: i128) -> i128 {
    let s = speed as i128;
    9_000_000 * v.f0 as i128 * s + 9_000 * v.f1 as i128 * s * s + 9 * v.f2 as i128 * s * s * s + 2_575_000 * d * s * v.tm as i128
}

/// Available power as the pair Q and w: Q/(100,000 w) tenths of kW.
#[derive(Clone, Copy)]
pub struct Power {
    pub q: i128,
    pub w: i128,
}

pub fn power(v: &Vehicle, gear: u8, speed: u16) -> Power {
    let x = engine(v, gear, speed).max(1000 * v.idle as i128);
    // Request Six: derated at the points first, interpolated after that.
    let derated = |k: usize| v.p[k] as i128 * (100 - v.margin as i128 - v.m[k] as i128);
    for k in 0..v.points as usize - 1 {
        let (n1, n2) = (v.n[k] as i128, v.n[k + 1] as i128);
        if 1000 * n1 <= x && x <= 1000 * n2 {
            let (p1, p2) = (derated(k), derated(k + 1));
            let w = n2 - n1;
            return Power { q: 1000 * p1 * w + (p2 - p1) * (x - 1000 * n1), w };
        }
    }
    panic!("the reference was asked for power off the curve: {x} in {v:?}");
}

fn enough(power: Power, e: i128) -> bool {
    let given = power.q * 3_240_000;
    if given == e * power.w {
        note(Event::PowerEqual);
    }
    given >= e * power.w
}

/// Neither w is ever 0 or negative, so two fractions compare by their cross products.
fn at_least(a: Power, b: Power) -> bool {
    a.q * b.w >= b.q * a.w
}

/// D: the next speed less this one, 0 where there is no next second.
pub fn change(speeds: &[u16], s: usize) -> i128 {
    match speeds.get(s + 1) {
        Some(next) => *next as i128 - speeds[s] as i128,
        None => 0,
    }
}

fn opens_trip(speeds: &[u16], s: usize) -> bool {
    moving(speeds[s]) && (s == 0 || !moving(speeds[s - 1]))
}

/// From this second to the end of its trip every V is above the V that follows.
fn in_closing_run(speeds: &[u16], s: usize) -> bool {
    for k in s..speeds.len() - 1 {
        if speeds[k] <= speeds[k + 1] {
            return false;
        }
        if !moving(speeds[k + 1]) {
            return true;
        }
    }
    // The trip ends with the trace, whose last V has none that follows.
    false
}

pub fn lies(v: &Vehicle, speeds: &[u16], s: usize, before: Option<u8>) -> Lies {
    if in_closing_run(speeds, s) {
        Lies::Closing
    } else if before == Some(lowest(v)) {
        Lies::AfterFirst
    } else {
        Lies::Elsewhere
    }
}

/// The choice at a moving second without a hold; none where no gear fits.
fn choice(v: &Vehicle, speeds: &[u16], s: usize, lies: Lies) -> Option<u8> {
    let e = required(v, speeds[s], change(speeds, s));
    let opens = opens_trip(speeds, s);
    let fit = |gear: &u8| fits(v, *gear, speeds[s], opens, lies);
    let strong = gears(v).rev().filter(fit).find(|&gear| enough(power(v, gear, speeds[s]), e));
    strong.or_else(|| strongest(v, gears(v).filter(fit), speeds[s]))
}

/// The first choice at a moving second, given that of the second before where that lies in the trip; none where no gear fits.
pub fn first_choice(v: &Vehicle, speeds: &[u16], holds: &[u8], s: usize, before: Option<u8>) -> Option<u8> {
    if holds[s] != 0 {
        return Some(holds[s]);
    }
    let lies = lies(v, speeds, s, before);
    let chosen = choice(v, speeds, s, lies);
    if before.is_some() {
        note_minimum(v, speeds, s, lies, chosen);
    }
    chosen
}

/// Counts a second at which the minimum of second gear's part decides: with another of the three the choice would be another.
fn note_minimum(v: &Vehicle, speeds: &[u16], s: usize, lies: Lies, chosen: Option<u8>) {
    let fits_2 = |lies: Lies| fits(v, lowest(v) + 1, speeds[s], false, lies);
    let other = |another: Lies| fits_2(another) != fits_2(lies) && choice(v, speeds, s, another) != chosen;
    if LIES.into_iter().any(other) {
        note(match lies {
            Lies::Closing => Event::ClosingDecides,
            Lies::AfterFirst => Event::AfterFirstDecides,
            Lies::Elsewhere => Event::ElsewhereDecides,
        });
    }
}

/// The first choices of a trip from left to right; or its first second without one.
fn first_choices(v: &Vehicle, speeds: &[u16], holds: &[u8], trip: Trip) -> Result<Vec<u8>, usize> {
    let mut chosen: Vec<u8> = Vec::new();
    for s in trip.first..=trip.last {
        let before = chosen.last().copied();
        chosen.push(first_choice(v, speeds, holds, s, before).ok_or(s)?);
    }
    Ok(chosen)
}

/// Going up the gears, "at least as strong" leaves the higher gear on a tie.
fn strongest(v: &Vehicle, mut fitting: impl Iterator<Item = u8>, speed: u16) -> Option<u8> {
    let mut best = fitting.next()?;
    note(Event::NoneEnough);
    for gear in fitting {
        let (new, old) = (power(v, gear, speed), power(v, best, speed));
        if at_least(new, old) {
            if at_least(old, new) {
                note(Event::PowerTie);
            }
            best = gear;
        }
    }
    Some(best)
}

// ---------------------------------------------------------------- corrections

/// First and last second, both in the trip.
#[derive(Clone, Copy, Debug)]
pub struct Trip {
    pub first: usize,
    pub last: usize,
}

pub fn trips(speeds: &[u16]) -> Vec<Trip> {
    let mut found = Vec::new();
    for first in 0..speeds.len() {
        if opens_trip(speeds, first) {
            found.push(Trip { first, last: trip_of(speeds, first).last });
        }
    }
    found
}

/// The trip of a moving second: widened at both ends until it cannot be lengthened.
pub fn trip_of(speeds: &[u16], second: usize) -> Trip {
    let mut trip = Trip { first: second, last: second };
    while trip.first > 0 && moving(speeds[trip.first - 1]) {
        trip.first -= 1;
    }
    while trip.last + 1 < speeds.len() && moving(speeds[trip.last + 1]) {
        trip.last += 1;
    }
    trip
}

/// The lowest driven gear that does not turn the engine past nmax. Every moving second of an accepted trace has one.
fn floor(v: &Vehicle, speed: u16) -> u8 {
    gears(v).find(|&gear| within_nmax(v, gear, speed)).expect("a second without a floor")
}

/// Gears lie in the trace's places, so that the passes speak of the paper's seconds.
pub fn pass_a(v: &Vehicle, speeds: &[u16], holds: &[u8], trip: Trip, gears: &mut [u8]) {
    for s in trip.first..=trip.last {
        if s == trip.first || s == trip.last || holds[s] != 0 {
            continue;
        }
        let (p, g, q) = (gears[s - 1] as i32, gears[s] as i32, gears[s + 1] as i32);
        let (larger, smaller) = (p.max(q), p.min(q));
        if larger == g - 1 && (smaller == g - 1 || smaller == g - 2) {
            if floor(v, speeds[s]) as i32 <= g - 1 {
                note(Event::PassA);
                gears[s] = (g - 1) as u8;
            } else {
                note(Event::PassAFloor);
            }
        }
    }
}

pub fn pass_b(v: &Vehicle, speeds: &[u16], holds: &[u8], trip: Trip, gears: &mut [u8]) {
    for s in trip.first..=trip.last {
        if s == trip.first || speeds[s - 1] >= speeds[s] || holds[s] != 0 {
            continue;
        }
        let two_before_in_trip = s >= trip.first + 2;
        let equal = two_before_in_trip && gears[s - 1] == gears[s - 2];
        let ceiling = if equal { gears[s - 1] + 1 } else { gears[s - 1] };
        if gears[s] > ceiling {
            let least = floor(v, speeds[s]);
            note(if least > ceiling { Event::PassBFloor } else { Event::PassB });
            gears[s] = ceiling.max(least);
        }
    }
}

pub fn pass_c(v: &Vehicle, speeds: &[u16], holds: &[u8], trip: Trip, gears: &mut [u8]) {
    let in_tail = |s: usize| (s..=trip.last).all(|k| speeds[k] > speeds[k + 1]);
    // The tail is short beside the trip: it is looked for from the end, then walked from the left.
    let mut start = trip.last + 1;
    while start > trip.first && speeds[start - 1] > speeds[start] {
        start -= 1;
    }
    debug_assert!(start > trip.last || in_tail(start));
    for s in start..=trip.last {
        if s != trip.first && holds[s] == 0 && gears[s] == lowest(v) {
            note(Event::PassC);
            gears[s] = lowest(v) + 1;
        }
    }
}

/// The card bytes of one trip and of the standing second before it, written into `card`.
fn work_trip(v: &Vehicle, speeds: &[u16], holds: &[u8], trip: Trip, card: &mut [u8]) {
    let mut gears = vec![0u8; speeds.len()];
    let chosen = first_choices(v, speeds, holds, trip).expect("a second without a gear");
    gears[trip.first..=trip.last].copy_from_slice(&chosen);
    pass_a(v, speeds, holds, trip, &mut gears);
    pass_b(v, speeds, holds, trip, &mut gears);
    pass_c(v, speeds, holds, trip, &mut gears);
    for s in trip.first..=trip.last {
        let slow = engine(v, gears[s], speeds[s]) < 1000 * v.idle as i128;
        let down = change(speeds, s) <= 0 && slow;
        if down {
            note(Event::ClutchMoving);
        }
        card[s] = gears[s] + if down { 16 } else { 0 };
    }
    card[trip.first - 1] = 16 + gears[trip.first];
}

// ---------------------------------------------------------------- checks

pub fn lengths_good(speeds: usize, holds: usize, card: usize) -> Result<(), Refusal> {
    if speeds == 0 || speeds > LONGEST {
        return Err((1, 0));
    }
    if holds != speeds || card != speeds {
        return Err((2, 0));
    }
    Ok(())
}

pub fn vehicle_good(v: &Vehicle) -> Result<(), Refusal> {
    first_bad_field(v).map_or(Ok(()), |field| Err((3, field)))
}

/// Refusals 4 to 10 on the seconds from `from` to `to`, both included. For the whole working these are all seconds.
fn seconds_good(v: &Vehicle, speeds: &[u16], holds: &[u8], from: usize, to: usize) -> Result<(), Refusal> {
    seconds_sound(v, speeds, holds, from, to)?;
    // These seconds begin and end at rest, so each trip that they meet lies among them.
    for first in (from..=to).filter(|&s| opens_trip(speeds, s)) {
        first_choices(v, speeds, holds, trip_of(speeds, first)).map_err(|s| (10, s))?;
    }
    Ok(())
}

/// Refusals 4 to 9.
pub fn seconds_sound(v: &Vehicle, speeds: &[u16], holds: &[u8], from: usize, to: usize) -> Result<(), Refusal> {
    refuse_first(4, from, to, |s| speeds[s] > 2000)?;
    refuse_first(5, from + 1, to, |s| (speeds[s] as i32 - speeds[s - 1] as i32).abs() > 150)?;
    // A trip that reaches past these seconds can only be one that reaches an end of the trace.
    if moving(speeds[from]) {
        return Err((6, from));
    }
    if moving(speeds[to]) {
        return Err((6, to));
    }
    refuse_first(7, from, to, |s| holds[s] != 0 && !driven(v, holds[s]))?;
    refuse_first(8, from, to, |s| holds[s] != 0 && !moving(speeds[s]))?;
    refuse_first(9, from, to, |s| holds[s] != 0 && !within_nmax(v, holds[s], speeds[s]))
}

/// A gear that may be held: not above ng, and no crawler.
fn driven(v: &Vehicle, gear: u8) -> bool {
    let is = gears(v).contains(&gear);
    if !is && gear == 1 {
        note(Event::CrawlerHeld);
    }
    is
}

/// The lowest second wins.
fn refuse_first(number: u32, from: usize, to: usize, bad: impl Fn(usize) -> bool) -> Result<(), Refusal> {
    (from..=to).find(|&s| bad(s)).map_or(Ok(()), |s| Err((number, s)))
}

// ---------------------------------------------------------------- the whole working

/// The card, or the refusal.
pub fn work(v: &Vehicle, speeds: &[u16], holds: &[u8], card_length: usize) -> Result<Vec<u8>, Refusal> {
    lengths_good(speeds.len(), holds.len(), card_length)?;
    vehicle_good(v)?;
    seconds_good(v, speeds, holds, 0, speeds.len() - 1)?;
    let mut card = vec![0; speeds.len()];
    for trip in trips(speeds) {
        work_trip(v, speeds, holds, trip, &mut card);
    }
    Ok(card)
}

// ---------------------------------------------------------------- the quick way

/// Holds and card afterwards, or the refusal, which leaves both as they were.
pub type Edited = Result<(Vec<u8>, Vec<u8>), Refusal>;

pub fn hold(v: &Vehicle, speeds: &[u16], holds: &[u8], card: &[u8], second: usize, gear: u8) -> Edited {
    edit(v, speeds, holds, card, second, Some(gear))
}

pub fn release(v: &Vehicle, speeds: &[u16], holds: &[u8], card: &[u8], second: usize) -> Edited {
    edit(v, speeds, holds, card, second, None)
}

/// Some gear to hold, or none to release.
fn edit(v: &Vehicle, speeds: &[u16], holds: &[u8], card: &[u8], second: usize, asked: Option<u8>) -> Edited {
    lengths_good(speeds.len(), holds.len(), card.len())?;
    vehicle_good(v)?;
    if second >= speeds.len() {
        return Err((11, second));
    }
    let mut holds = holds.to_vec();
    let mut card = card.to_vec();
    holds[second] = asked.unwrap_or(0);
    if !moving(speeds[second]) {
        edit_standing(v, second, asked)?;
        return Ok((holds, card));
    }
    let trip = trip_of(speeds, second);
    let from = trip.first.saturating_sub(1);
    let to = (trip.last + 1).min(speeds.len() - 1);
    if asked == Some(0) {
        return Err(no_gear_held(second, seconds_good(v, speeds, &holds, from, to)));
    }
    let good = seconds_good(v, speeds, &holds, from, to);
    if matches!(good, Err((10, place)) if place > second) {
        note(Event::LaterWithout);
    }
    good?;
    work_trip(v, speeds, &holds, trip, &mut card);
    Ok((holds, card))
}

/// Only the second itself is looked at.
fn edit_standing(v: &Vehicle, second: usize, asked: Option<u8>) -> Result<(), Refusal> {
    match asked {
        None => {
            note(Event::StandingCleared);
            Ok(())
        }
        Some(0) => Err((7, second)),
        Some(gear) if !driven(v, gear) => {
            if gear == 1 {
                note(Event::CrawlerAtRest);
            }
            Err((7, second))
        }
        Some(_) => Err((8, second)),
    }
}

/// Gear 0 is 7 at its second: after what the span has of 4 to 6, and of 7 at an earlier second.
fn no_gear_held(second: usize, others: Result<(), Refusal>) -> Refusal {
    match others {
        Err((number, place)) if (number, place) < (7, second) => {
            note(Event::NoGearLater);
            (number, place)
        }
        _ => (7, second),
    }
}

// ---------------------------------------------------------------- mending a sample

/// Speeds and card afterwards, or the refusal, which leaves both as they were.
pub type Mended = Result<(Vec<u16>, Vec<u8>), Refusal>;

/// Request Eight: the speed at one second changed.
pub fn mend(v: &Vehicle, speeds: &[u16], holds: &[u8], card: &[u8], second: usize, speed: u16) -> Mended {
    lengths_good(speeds.len(), holds.len(), card.len())?;
    vehicle_good(v)?;
    if second >= speeds.len() {
        return Err((11, second));
    }
    let old = speeds;
    let mut speeds = speeds.to_vec();
    speeds[second] = speed;
    let near = near_trips(&speeds, second);
    // Those trips with a standing second on either side, the second itself and its neighbours.
    let first = near.iter().map(|trip| trip.first).fold(second, usize::min);
    let last = near.iter().map(|trip| trip.last).fold(second, usize::max);
    seconds_good(v, &speeds, holds, first.saturating_sub(1), (last + 1).min(speeds.len() - 1))?;
    note_mended(old, &speeds, second);
    let mut card = card.to_vec();
    for s in second.saturating_sub(1)..=second {
        if !moving(speeds[s]) {
            card[s] = 0;
        }
    }
    for trip in near {
        work_trip(v, &speeds, holds, trip, &mut card);
    }
    Ok((speeds, card))
}

/// The trips that hold the second or a neighbour.
fn near_trips(speeds: &[u16], second: usize) -> Vec<Trip> {
    let neighbours = second.saturating_sub(1)..=(second + 1).min(speeds.len() - 1);
    let mut near: Vec<Trip> = Vec::new();
    for s in neighbours.filter(|&s| moving(speeds[s])) {
        let trip = trip_of(speeds, s);
        if near.iter().all(|other| other.first != trip.first) {
            near.push(trip);
        }
    }
    near
}

/// Trips may split or join, begin or end.
fn note_mended(old: &[u16], new: &[u16], second: usize) {
    let neighbours = [second.wrapping_sub(1), second + 1].map(|s| new.get(s).is_some_and(|&speed| moving(speed)));
    match (moving(old[second]), moving(new[second]), neighbours) {
        (true, false, [true, true]) => note(Event::TripSplit),
        (false, true, [true, true]) => note(Event::TripsJoined),
        (false, true, [false, false]) => note(Event::TripBegun),
        (true, false, [false, false]) => note(Event::TripEnded),
        _ => {}
    }
}

// ---------------------------------------------------------------- the reader

pub struct Job {
    pub version: u16,
    pub vehicle: Vehicle,
    pub speeds: Vec<u16>,
    pub holds: Vec<u8>,
}

struct Cursor<'a> {
    bytes: &'a [u8],
    at: usize,
}

impl Cursor<'_> {
    /// One group: one to three bytes, least significant first.
    fn group(&mut self) -> Result<u16, Refusal> {
        let start = self.at;
        let mut value: u32 = 0;
        for k in 0..3 {
            let Some(&byte) = self.bytes.get(start + k) else { return Err((12, self.bytes.len())) };
            value += (byte as u32 % 128) * 128u32.pow(k as u32);
            if byte < 128 {
                let shortest = k == 0 || byte != 0;
                self.at = start + k + 1;
                return if shortest && value <= 65_535 { Ok(value as u16) } else { Err((13, start)) };
            }
        }
        Err((13, start))
    }
}

/// The first fault from left to right, or the job. The rooms are how many places are lent for speeds and for holds.
pub fn read(bytes: &[u8], speeds_room: usize, holds_room: usize) -> Result<Job, Refusal> {
    let mut c = Cursor { bytes, at: 0 };
    let version = c.group()?;
    if !VERSIONS.contains(&version) {
        return Err((14, 0));
    }
    let vehicle = read_vehicle(&mut c, version)?;
    let count = c.group()? as usize;
    if count == 0 || count > LONGEST {
        return Err((1, 0));
    }
    if speeds_room < count || holds_room < count {
        return Err((2, 0));
    }
    let speeds = (0..count).map(|_| c.group()).collect::<Result<Vec<u16>, Refusal>>()?;
    let holds = read_holds(&mut c, count)?;
    if c.at < bytes.len() {
        return Err((16, c.at));
    }
    Ok(Job { version, vehicle, speeds, holds })
}

fn read_vehicle(c: &mut Cursor, version: u16) -> Result<Vehicle, Refusal> {
    let mut v = ZERO;
    // Request Thirteen: each of the two as it is read.
    if version >= 3 {
        v.profile = c.group()?;
        if v.profile > 1 {
            note(Event::ProfileRead);
            return Err((3, 1));
        }
    }
    v.ng = c.group()?;
    if !gear_count_good(v.profile, v.ng) {
        if v.ng == 2 {
            note(Event::TwoGearsRead);
        }
        return Err((3, 1));
    }
    for k in 0..v.ng as usize {
        v.ratio[k] = c.group()?;
    }
    v.idle = c.group()?;
    v.rated = c.group()?;
    v.nmax = c.group()?;
    v.f0 = c.group()?;
    v.f1 = c.group()? as i32 - 5000;
    v.f2 = c.group()?;
    v.tm = c.group()?;
    v.margin = c.group()?;
    v.points = c.group()?;
    if !(2..=64).contains(&v.points) {
        return Err((3, 11));
    }
    for k in 0..v.points as usize {
        v.n[k] = c.group()?;
        v.p[k] = c.group()?;
        if version >= 2 {
            v.m[k] = c.group()?;
        }
    }
    Ok(v)
}

fn read_holds(c: &mut Cursor, count: usize) -> Result<Vec<u8>, Refusal> {
    let mut holds = vec![0; count];
    let mut before: Option<usize> = None;
    for _ in 0..c.group()? {
        let place = c.at;
        let second = c.group()? as usize;
        let rising = before.map_or(true, |earlier| second > earlier);
        if !rising || second >= count {
            return Err((15, place));
        }
        let gear = c.group()?;
        if gear == 0 || gear > 255 {
            return Err((15, place));
        }
        holds[second] = gear as u8;
        before = Some(second);
    }
    Ok(holds)
}

// ---------------------------------------------------------------- the writer

/// The bytes of the job, or the refusal: 14 first, 1 to 9 as in the working, then 17 by the length needed.
pub fn write(version: u16, v: &Vehicle, speeds: &[u16], holds: &[u8], room: usize) -> Result<Vec<u8>, Refusal> {
    if !VERSIONS.contains(&version) {
        return Err((14, 0));
    }
    lengths_good(speeds.len(), holds.len(), speeds.len())?;
    told_good(version, v)?;
    seconds_sound(v, speeds, holds, 0, speeds.len() - 1)?;
    let bytes = jobs::groups(version, v, speeds, holds).all.concat();
    if room < bytes.len() {
        return Err((17, bytes.len()));
    }
    Ok(bytes)
}

/// The first field that is out of bounds, or that its version cannot tell: before version 3 a profile, which is part of field 1; in version 1 a margin at a
/// point that counts, which is part of field 12.
fn told_good(version: u16, v: &Vehicle) -> Result<(), Refusal> {
    let untold = |field: usize| match field {
        1 => version < 3 && v.profile != 0,
        12 => version < 2 && v.m[..v.points as usize].iter().any(|m| *m > 0),
        _ => false,
    };
    match (1..=13).find(|&field| !field_good(v, field) || untold(field)) {
        Some(field) => Err((3, field)),
        None => Ok(()),
    }
}

// ---------------------------------------------------------------- the card program

/// All that the card program prints for a job.
pub fn printed(bytes: &[u8]) -> String {
    // 1 where the reader answers 2, which has place 0 too.
    let job = match read(bytes, PROGRAM_ROOM, PROGRAM_ROOM) {
        Ok(job) => job,
        Err((2, place)) => return refusal_text((1, place)),
        Err(refusal) => return refusal_text(refusal),
    };
    match work(&job.vehicle, &job.speeds, &job.holds, job.speeds.len()) {
        Ok(card) => card_text(&job.speeds, &card),
        Err(refusal) => refusal_text(refusal),
    }
}

fn refusal_text((number, place): Refusal) -> String {
    format!("refused {number} at {place}\n")
}

fn card_text(speeds: &[u16], card: &[u8]) -> String {
    let mut text = String::from("second speed gear clutch\n");
    for (s, (speed, byte)) in speeds.iter().zip(card).enumerate() {
        let clutch = if *byte >= 16 { "down" } else { "up" };
        text += &format!("{s} {}.{} {} {clutch}\n", speed / 10, speed % 10, byte % 16);
    }
    text
}
