//! The regulation's cycles, each driven whole by several cars: the working, the job read back and written, holds set and released the quick way, and
//! samples mended and mended back, with a summary that is counted once and kept by each edit.

use crate::cycles;
use crate::events::asked;
use crate::jobs;
use crate::library::{Library, Loan};
use crate::paper;
use crate::revs::Finished;
use crate::rng::Rng;
use crate::summary::{self, Shown, Summary};
use crate::traces;
use crate::vehicle::{car_z, with_crawler, Vehicle};
use crate::vehicles;
use std::path::Path;

/// Apart from the kinds of a case, whose numbers count from 0.
const KIND: u64 = 100;
const REALISTIC: usize = 6;
/// Holds set by one car on one cycle, and as many released.
const HOLDS: usize = 100;
/// Samples mended by one car on one cycle, and mended back.
const MENDS: usize = 60;

pub fn run(library: &mut Library, seed: u64, dir: &Path) -> Result<(), String> {
    let all = cycles::traces(dir);
    if all.is_empty() {
        return Err(format!("FAILED: no cycles in {}", dir.display()));
    }
    for (index, (name, speeds)) in all.iter().enumerate() {
        let mut r = Rng::of_case(seed, KIND, index as u64);
        let (mut driven, mut refused, mut holds, mut mends) = (0, 0, 0, 0);
        for vehicle in &cars(&mut r) {
            let mut drive = Drive { library, r: &mut r, vehicle, speeds, summary: summary::NONE };
            match drive.whole().map_err(|why| format!("FAILED: cycle {name}, seed {seed}\n{vehicle:?}\n{why}"))? {
                Some((held, mended)) => (driven, holds, mends) = (driven + 1, holds + held, mends + mended),
                None => refused += 1,
            }
        }
        if holds == 0 || mends == 0 {
            return Err(format!("FAILED: cycle {name}: no car had a hold, or a mended sample, accepted, so little was tried"));
        }
        println!("cycles: {name}, {} seconds, {driven} cars ({refused} more refused), {holds} holds, {mends} mended samples: agreed", speeds.len());
    }
    Ok(())
}

fn cars(r: &mut Rng) -> Vec<Vehicle> {
    let mut cars = vec![car_z()];
    cars.extend([5, 7, 64].map(vehicles::mid_size));
    cars.extend((0..REALISTIC).map(|_| vehicles::realistic(r)));
    // Vans: two of these cars with a crawler, and one whose first gear is said to be one.
    cars.extend([with_crawler(&car_z(), 20_000), with_crawler(&vehicles::mid_size(7), 20_000)]);
    cars.push(Vehicle { profile: 1, ..vehicles::realistic(r) });
    cars
}

struct Drive<'a> {
    library: &'a mut Library,
    r: &'a mut Rng,
    vehicle: &'a Vehicle,
    speeds: &'a [u16],
    /// Of the card as it is.
    summary: Summary,
}

impl Drive<'_> {
    /// How many holds were accepted, set or released, and how many mended samples; none where the cycle itself is refused with this car.
    fn whole(&mut self) -> Result<Option<(usize, usize)>, String> {
        let none = vec![0; self.speeds.len()];
        let Some(first) = self.work(&none)? else { return Ok(None) };
        self.count(&first)?;
        let at_first = self.summary;
        let (mut holds, mut card) = (none, first.clone());
        let mut accepted = 0;
        for _ in 0..HOLDS {
            let second = traces::any_place(self.r, self.speeds.len(), |s| paper::moving(self.speeds[s])).unwrap_or(0);
            let gear = self.r.range(1, self.vehicle.ng as i64) as u8;
            accepted += self.hold(&mut holds, &mut card, second, gear)?;
            if self.r.chance(40) {
                accepted += self.release_one(&mut holds, &mut card)?;
            }
        }
        self.job(&holds)?;
        if self.work(&holds)? != Some(card.clone()) {
            return Err(String::from("the reference's holds and its whole working disagree"));
        }
        while holds.iter().any(|gear| *gear != 0) {
            accepted += self.release_one(&mut holds, &mut card)?;
        }
        if card != first || self.summary != at_first {
            return Err(String::from("the reference's card, or its summary, is another after all holds are released"));
        }
        let mut mended = 0;
        for _ in 0..MENDS {
            mended += self.mend_and_back(&first)?;
        }
        Ok(Some((accepted, mended)))
    }

    /// The summary counted whole.
    fn count(&mut self, card: &[u8]) -> Result<(), String> {
        let expected = asked(|| summary::of(Shown { speeds: self.speeds, card }));
        let loan = Loan::new(self.r, self.speeds, &[], card);
        self.library.summary(&loan, &expected).map_err(|why| format!("{why}\ncard {card:?}"))?;
        self.summary = expected.map_err(|refusal| format!("the reference refuses its own card: {refusal:?}"))?;
        if self.summary.seconds() != self.speeds.len() {
            return Err(format!("the reference's seconds do not add up: {:?}", self.summary));
        }
        Ok(())
    }

    /// 1 where the sample is taken, a little more or less, or at rest; mended back, the card is the first again.
    fn mend_and_back(&mut self, first: &[u8]) -> Result<usize, String> {
        let second = self.r.below(self.speeds.len());
        let was = self.speeds[second];
        let speed = if self.r.chance(30) { self.r.range(0, 9) } else { (was as i64 + self.r.range(-15, 15)).max(0) } as u16;
        let free = vec![0; self.speeds.len()];
        let speeds = self.speeds.to_vec();
        let Ok((speeds, card)) = self.mend(&speeds, &free, first, second, speed)? else { return Ok(0) };
        match self.mend(&speeds, &free, &card, second, was)? {
            Ok((speeds, card)) if speeds == self.speeds && card == first => Ok(1),
            other => Err(format!("the reference's sample mended back at {second} from {speed} does not give the first card: {other:?}")),
        }
    }

    fn mend(&mut self, speeds: &[u16], holds: &[u8], card: &[u8], second: usize, speed: u16) -> Result<paper::Mended, String> {
        let expected = asked(|| paper::mend(self.vehicle, speeds, holds, card, second, speed));
        let loan = Loan::new(self.r, speeds, holds, card);
        let told = |why| format!("{why}\nsecond {second} mended to {speed}\nspeeds {speeds:?}\ncard {card:?}\nreference (speeds, card): {expected:?}");
        self.summary = self.library.mend(self.vehicle, &loan, second, speed, self.summary, &expected).map_err(told)?;
        if let Ok((speeds, card)) = &expected {
            Finished { vehicle: self.vehicle, speeds, holds, card }.check()?;
        }
        Ok(expected)
    }

    /// The reference's card, where it is no refusal.
    fn work(&mut self, holds: &[u8]) -> Result<Option<Vec<u8>>, String> {
        let expected = asked(|| paper::work(self.vehicle, self.speeds, holds, self.speeds.len()));
        let noise: Vec<u8> = self.speeds.iter().map(|_| self.r.next() as u8).collect();
        let loan = Loan::new(self.r, self.speeds, holds, &noise);
        self.library.work(self.vehicle, &loan, &expected).map_err(|why| format!("{why}\nholds {holds:?}\nreference: {expected:?}"))?;
        Ok(expected.ok())
    }

    /// 1 where the hold is accepted, which moves holds and card on.
    fn hold(&mut self, holds: &mut Vec<u8>, card: &mut Vec<u8>, second: usize, gear: u8) -> Result<usize, String> {
        let expected = asked(|| paper::hold(self.vehicle, self.speeds, holds, card, second, gear));
        let loan = Loan::new(self.r, self.speeds, holds, card);
        let asked = || format!("second {second} gear {gear}\nholds {holds:?}\ncard {card:?}\nreference (holds, card): {expected:?}");
        self.summary = self.library.hold(self.vehicle, &loan, second, gear, self.summary, &expected).map_err(|why| format!("{why}\n{}", asked()))?;
        let Ok(after) = expected else { return Ok(0) };
        (*holds, *card) = after;
        Finished { vehicle: self.vehicle, speeds: self.speeds, holds, card }.check()?;
        Ok(1)
    }

    fn release(&mut self, holds: &mut Vec<u8>, card: &mut Vec<u8>, second: usize) -> Result<usize, String> {
        let expected = asked(|| paper::release(self.vehicle, self.speeds, holds, card, second));
        let loan = Loan::new(self.r, self.speeds, holds, card);
        let asked = || format!("second {second} released\nholds {holds:?}\ncard {card:?}\nreference (holds, card): {expected:?}");
        self.summary = self.library.release(self.vehicle, &loan, second, self.summary, &expected).map_err(|why| format!("{why}\n{}", asked()))?;
        let Ok(after) = expected else { return Ok(0) };
        (*holds, *card) = after;
        Finished { vehicle: self.vehicle, speeds: self.speeds, holds, card }.check()?;
        Ok(1)
    }

    fn release_one(&mut self, holds: &mut Vec<u8>, card: &mut Vec<u8>) -> Result<usize, String> {
        match traces::any_place(self.r, holds.len(), |s| holds[s] != 0) {
            Some(second) => self.release(holds, card, second),
            None => Ok(0),
        }
    }

    /// The job of this drive, read back and written: what was put into it comes out.
    fn job(&mut self, holds: &[u8]) -> Result<(), String> {
        let version = jobs::version_of(self.vehicle);
        let bytes = jobs::groups(version, self.vehicle, self.speeds, holds).all.concat();
        let expected = asked(|| paper::read(&bytes, self.speeds.len(), paper::LONGEST));
        let same = expected.as_ref().is_ok_and(|job| job.vehicle == *self.vehicle && job.speeds == self.speeds && job.holds == holds);
        if !same {
            return Err(String::from("the reference does not read its own job back"));
        }
        let loan = Loan::new(self.r, &vec![7; self.speeds.len()], &[7; paper::LONGEST], &bytes);
        self.library.read(&loan, &expected).map_err(|why| format!("{why}\njob {bytes:?}"))?;
        let room: Vec<u8> = (0..bytes.len() + 5).map(|_| self.r.next() as u8).collect();
        let loan = Loan::new(self.r, self.speeds, holds, &room);
        let expected = asked(|| paper::write(version, self.vehicle, self.speeds, holds, room.len()));
        self.library.write(version, self.vehicle, &loan, &expected).map_err(|why| format!("{why}\njob {bytes:?}"))
    }
}
