//! Request Nine: how long in each gear. Cards are counted whole, second by second, before an edit and after it.

use crate::events::{note, Event};
use crate::paper::{moving, Refusal, LONGEST};
use crate::rng::Rng;

/// The fields of the C header in their order.
#[derive(Clone, Copy, PartialEq, Eq, Debug)]
pub struct Summary {
    pub standing: u16,
    pub gears: [u16; 10],
    pub changes: u16,
}

pub const NONE: Summary = Summary { standing: 0, gears: [0; 10], changes: 0 };

/// A trace and its card.
#[derive(Clone, Copy)]
pub struct Shown<'a> {
    pub speeds: &'a [u16],
    pub card: &'a [u8],
}

impl Summary {
    /// Standing, gears 1 to 10, changes.
    pub fn list(&self) -> [u16; 12] {
        std::array::from_fn(|k| match k {
            0 => self.standing,
            11 => self.changes,
            gear => self.gears[gear - 1],
        })
    }

    pub fn of_list(list: [u16; 12]) -> Summary {
        Summary { standing: list[0], gears: std::array::from_fn(|k| list[k + 1]), changes: list[11] }
    }

    /// All of them but the changes.
    pub fn seconds(&self) -> usize {
        self.list()[..11].iter().map(|&count| count as usize).sum()
    }
}

/// The gear of a second; the clutch is ignored.
fn gear(byte: u8) -> u8 {
    byte % 16
}

/// The counts of a whole card.
fn counts(shown: Shown) -> [i64; 12] {
    let mut counts = [0; 12];
    let seconds: Vec<(bool, u8)> = shown.speeds.iter().zip(shown.card).map(|(&speed, &byte)| (moving(speed), gear(byte))).collect();
    for second in &seconds {
        match second {
            (false, _) => counts[0] += 1,
            (true, gear @ 1..=10) => counts[*gear as usize] += 1,
            (true, _) => note(Event::InNoGear),
        }
    }
    for pair in seconds.windows(2) {
        let both_moving = pair[0].0 && pair[1].0;
        if both_moving && pair[0].1 != pair[1].1 {
            counts[11] += 1;
        }
    }
    counts
}

/// The summary of a card, or the refusal.
pub fn of(shown: Shown) -> Result<Summary, Refusal> {
    let length = shown.speeds.len();
    if length == 0 || length > LONGEST {
        return Err((1, 0));
    }
    if shown.card.len() != length {
        return Err((2, 0));
    }
    Ok(Summary::of_list(counts(shown).map(|count| count as u16)))
}

/// A count that would leave 0 to 65,535 stops at that end.
fn stopped(count: i64) -> u16 {
    if count < 0 {
        note(Event::StoppedAtNone);
        return 0;
    }
    if count > 65_535 {
        note(Event::StoppedAtMost);
        return 65_535;
    }
    count as u16
}

/// What an edit that is taken leaves of a summary, right or wrong: each count, less what the card counted before, plus what it counts after.
pub fn after(was: Summary, before: Shown, after: Shown) -> Summary {
    let (old, new) = (counts(before), counts(after));
    let was = was.list();
    if old[0] != new[0] {
        note(Event::StandingMoved);
    }
    if old[11] != new[11] {
        note(Event::ChangesMoved);
    }
    Summary::of_list(std::array::from_fn(|k| stopped(was[k] as i64 - old[k] + new[k])))
}

/// A summary to lend beside a card: the right one, or any, its counts often at an end or near it.
pub fn lent(r: &mut Rng, shown: Shown) -> Summary {
    let right = of(shown);
    let any: [u16; 12] = std::array::from_fn(|_| match r.range(0, 7) {
        0..=1 => r.range(0, 6) as u16,
        2..=3 => 65_535 - r.range(0, 6) as u16,
        4 => r.next() as u16,
        _ => r.range(0, 400) as u16,
    });
    match right {
        Ok(right) if r.chance(40) => right,
        // Right but for one count.
        Ok(right) if r.chance(30) => {
            let (mut list, k) = (right.list(), r.below(12));
            list[k] = any[k];
            Summary::of_list(list)
        }
        _ => Summary::of_list(any),
    }
}
