//! Request Twelve: both sentences, asked of a finished card through arithmetic of this file's own. A card's gear at a second is its byte modulo 16.

use crate::events::{note, Event};
use crate::paper::Trip;
use crate::vehicle::Vehicle;

/// A card with what it belongs to.
pub struct Finished<'a> {
    pub vehicle: &'a Vehicle,
    pub speeds: &'a [u16],
    pub holds: &'a [u8],
    pub card: &'a [u8],
}

impl Finished<'_> {
    /// Every second of the card.
    pub fn check(&self) -> Result<(), String> {
        self.check_seconds(0, self.speeds.len())
    }

    /// The seconds of one trip.
    pub fn check_trip(&self, trip: Trip) -> Result<(), String> {
        self.check_seconds(trip.first, trip.last + 1)
    }

    fn check_seconds(&self, from: usize, to: usize) -> Result<(), String> {
        for s in from..to {
            if self.speeds[s] < 10 {
                continue;
            }
            if !(self.lowest()..=self.vehicle.ng).contains(&self.gear(s)) || self.over_nmax(self.gear(s), s) {
                return Err(format!("request Twelve: gear {} at second {s} is none, or turns the engine past nmax", self.gear(s)));
            }
            // A trip begins after a standing second, so a second after a moving one is not the first of its trip.
            if s > 0 && self.speeds[s - 1] >= 10 && self.speeds[s] > self.speeds[s - 1] && self.holds[s] == 0 {
                self.check_rise(s)?;
            }
        }
        Ok(())
    }

    fn check_rise(&self, s: usize) -> Result<(), String> {
        let (before, gear) = (self.gear(s - 1), self.gear(s));
        if gear <= before + 1 {
            if gear == before + 1 {
                note(Event::RisesByOne);
            }
            return Ok(());
        }
        // No higher than the floor: each driven gear below it turns the engine past nmax.
        if (self.lowest()..gear).all(|lower| self.over_nmax(lower, s)) {
            note(Event::RisesToFloor);
            return Ok(());
        }
        Err(format!("request Twelve: gear {gear} at second {s} comes after {before}, the speed rises, and the floor is lower"))
    }

    /// The second gear, where the first is a crawler.
    fn lowest(&self) -> u16 {
        1 + self.vehicle.profile
    }

    fn gear(&self, s: usize) -> u16 {
        self.card[s] as u16 % 16
    }

    /// G is in hundredths of min^-1 per km/h and V in tenths of km/h, nmax in min^-1.
    fn over_nmax(&self, gear: u16, s: usize) -> bool {
        u64::from(self.vehicle.ratio[gear as usize - 1]) * u64::from(self.speeds[s]) > u64::from(self.vehicle.nmax) * 1000
    }
}
