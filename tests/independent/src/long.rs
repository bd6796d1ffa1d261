//! Request Ten: traces as durability benches have them, cycles joined, of lengths at which something changes: the old limit, the card program's room and
//! the new limit, with their neighbours. Each is worked, held and released in, put into a job, and read back.

use crate::cycles;
use crate::events::asked;
use crate::jobs;
use crate::library::{Library, Loan};
use crate::paper::{self, Refusal};
use crate::rng::Rng;
use crate::summary::{self, Shown, Summary};
use crate::traces;
use crate::vehicle::{car_z, with_crawler, Vehicle};
use crate::vehicles;
use std::path::Path;

/// Apart from the kinds of a case, and from the cycles'.
const KIND: u64 = 200;
const LENGTHS: [usize; 8] = [2_048, 2_049, 4_096, 4_097, 8_192, 16_383, 16_384, 16_385];
/// Holds set in one trace, each released again or not.
const HOLDS: usize = 30;

pub fn run(library: &mut Library, seed: u64, dir: &Path) -> Result<(), String> {
    let cycle = cycles::class_3(dir);
    for (index, length) in LENGTHS.into_iter().enumerate() {
        let mut r = Rng::of_case(seed, KIND, index as u64);
        let speeds = joined(&cycle, length);
        let mut holds = 0;
        for vehicle in [car_z(), vehicles::mid_size(7), vehicles::mid_size(64), with_crawler(&vehicles::mid_size(7), 20_000)] {
            let mut long = Long { library, r: &mut r, vehicle: &vehicle, speeds: &speeds, summary: summary::NONE };
            holds += long.drive().map_err(|why| format!("FAILED: {length} seconds, seed {seed}\n{why}"))?;
        }
        if (holds == 0) != (length > paper::LONGEST) {
            return Err(format!("FAILED: {length} seconds: {holds} holds accepted"));
        }
        println!("long traces: {length} seconds, {holds} holds: agreed");
    }
    Ok(())
}

/// Cycles one after the other; the last that does not end in time is broken off where it last stood.
fn joined(cycle: &[u16], length: usize) -> Vec<u16> {
    let mut speeds: Vec<u16> = cycle.iter().copied().cycle().take(length).collect();
    let rests = (0..length).rev().take_while(|&s| paper::moving(speeds[s])).count();
    speeds[length - rests..].fill(0);
    speeds
}

struct Long<'a> {
    library: &'a mut Library,
    r: &'a mut Rng,
    vehicle: &'a Vehicle,
    speeds: &'a [u16],
    /// Of the card as it is.
    summary: Summary,
}

impl Long<'_> {
    /// How many holds were accepted.
    fn drive(&mut self) -> Result<usize, String> {
        let mut holds = vec![0; self.speeds.len()];
        let Some(mut card) = self.work(&holds)? else {
            self.hold(&mut holds.clone(), &mut holds.clone(), 1, 1)?;
            self.count(&holds)?;
            self.read(&holds)?;
            return Ok(0);
        };
        self.count(&card)?;
        let mut accepted = 0;
        for _ in 0..HOLDS {
            let second = traces::any_place(self.r, self.speeds.len(), |s| paper::moving(self.speeds[s])).unwrap_or(0);
            let gear = self.r.range(0, self.vehicle.ng as i64) as u8;
            accepted += self.hold(&mut holds, &mut card, second, gear)?;
        }
        // The last trip, and past the end.
        let last = (0..self.speeds.len()).rev().find(|&s| paper::moving(self.speeds[s])).unwrap_or(0);
        accepted += self.hold(&mut holds, &mut card, last, 2)?;
        self.hold(&mut holds, &mut card, self.speeds.len(), 2)?;
        if self.work(&holds)? != Some(card) {
            return Err(String::from("the reference's holds and its whole working disagree"));
        }
        self.read(&holds)?;
        // A hold at every moving second, in the highest gear, which no speed of the cycle turns past nmax.
        let every: Vec<u8> = self.speeds.iter().map(|&v| if paper::moving(v) { self.vehicle.ng as u8 } else { 0 }).collect();
        self.work(&every)?;
        self.read(&every)?;
        Ok(accepted)
    }

    /// The summary counted whole; all 0 where that is refused.
    fn count(&mut self, card: &[u8]) -> Result<(), String> {
        let expected = asked(|| summary::of(Shown { speeds: self.speeds, card }));
        let loan = Loan::new(self.r, self.speeds, &[], card);
        self.library.summary(&loan, &expected).map_err(|why| format!("summary: {why}"))?;
        self.summary = expected.unwrap_or(summary::NONE);
        Ok(())
    }

    fn work(&mut self, holds: &[u8]) -> Result<Option<Vec<u8>>, String> {
        let expected = asked(|| paper::work(self.vehicle, self.speeds, holds, self.speeds.len()));
        let noise: Vec<u8> = self.speeds.iter().map(|_| self.r.next() as u8).collect();
        let loan = Loan::new(self.r, self.speeds, holds, &noise);
        self.library.work(self.vehicle, &loan, &expected).map_err(|why| format!("work: {why}"))?;
        Ok(expected.ok())
    }

    /// Gear 0 releases.
    fn hold(&mut self, holds: &mut Vec<u8>, card: &mut Vec<u8>, second: usize, gear: u8) -> Result<usize, String> {
        let loan = Loan::new(self.r, self.speeds, holds, card);
        let expected = if gear == 0 {
            let expected = asked(|| paper::release(self.vehicle, self.speeds, holds, card, second));
            self.library.release(self.vehicle, &loan, second, self.summary, &expected).map(|kept| (expected, kept))
        } else {
            let expected = asked(|| paper::hold(self.vehicle, self.speeds, holds, card, second, gear));
            self.library.hold(self.vehicle, &loan, second, gear, self.summary, &expected).map(|kept| (expected, kept))
        };
        let (expected, kept) = expected.map_err(|why| format!("second {second} gear {gear}: {why}"))?;
        self.summary = kept;
        match expected {
            Ok(after) => {
                (*holds, *card) = after;
                Ok(1)
            }
            Err(_) => Ok(0),
        }
    }

    /// The job, into rooms that are just enough, one too small, and the card program's.
    fn read(&mut self, holds: &[u8]) -> Result<(), String> {
        let count = self.speeds.len();
        let bytes = jobs::groups(jobs::version_of(self.vehicle), self.vehicle, self.speeds, holds).all.concat();
        let mut answers: Vec<Option<Refusal>> = Vec::new();
        for (speeds_room, holds_room) in [(count, count), (count - 1, count), (count, count - 1), (paper::PROGRAM_ROOM, paper::PROGRAM_ROOM)] {
            let expected = asked(|| paper::read(&bytes, speeds_room, holds_room));
            let loan = Loan::new(self.r, &vec![7; speeds_room], &vec![7; holds_room], &bytes);
            self.library.read(&loan, &expected).map_err(|why| format!("read into {speeds_room} and {holds_room}: {why}"))?;
            answers.push(expected.err());
        }
        let too_long = count > paper::LONGEST;
        let short = Some(if too_long { (1, 0) } else { (2, 0) });
        let program = if count > paper::PROGRAM_ROOM { short } else { None };
        if answers != [if too_long { short } else { None }, short, short, program] {
            return Err(format!("the reference reads {answers:?}"));
        }
        let printed = paper::printed(&bytes);
        if (count > paper::PROGRAM_ROOM) != (printed == "refused 1 at 0\n") {
            return Err(format!("the reference prints {}", printed.lines().next().unwrap_or("")));
        }
        Ok(())
    }
}
