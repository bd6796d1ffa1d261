//! Calls that the cases meet too seldom, or never, each written down. What the library must say of them the reference works out.

use crate::events::asked;
use crate::library::{Library, Loan};
use crate::paper;
use crate::rng::Rng;
use crate::summary;
use crate::vehicle::{Vehicle, ZERO};

/// Apart from the kinds of a case, the drives, and what is filled.
const KIND: u64 = 7;

pub fn run(library: &mut Library, seed: u64) -> Result<(), String> {
    let mut r = Rng::of_case(seed, KIND, 0);
    no_gear_after_a_long_hold(library, &mut r).map_err(|why| format!("FAILED: a long trip mended, seed {seed}\n{why}"))
}

/// Of two gears the first turns at 11,000 over 100, the second at 9,100: a car that keeps its speed after a second that is held in the second gear.
fn two_gears() -> Vehicle {
    let mut v = Vehicle { ng: 2, idle: 1000, rated: 1001, nmax: 1100, tm: 4000, points: 2, ..ZERO };
    v.ratio[..2].copy_from_slice(&[11_000, 9_100]);
    v.n[..2].copy_from_slice(&[1000, 1100]);
    v.p[..2].copy_from_slice(&[10, 100]);
    v
}

/// 70 seconds at 10.0 km/h, the third held in gear 2, and their card. Mended to 12.0, the sample at 65 is refused by 10 at 65: no gear fits there.
fn long_trip() -> Option<(Vehicle, Vec<u16>, Vec<u8>, Vec<u8>)> {
    let vehicle = two_gears();
    let speeds: Vec<u16> = [vec![0], vec![100; 70], vec![0]].concat();
    let mut holds = vec![0; speeds.len()];
    holds[3] = 2;
    let card = paper::work(&vehicle, &speeds, &holds, speeds.len()).ok()?;
    Some((vehicle, speeds, holds, card))
}

fn no_gear_after_a_long_hold(library: &mut Library, r: &mut Rng) -> Result<(), String> {
    let Some((vehicle, speeds, holds, card)) = long_trip() else { return Ok(()) };
    let expected = asked(|| paper::mend(&vehicle, &speeds, &holds, &card, 65, 120));
    let loan = Loan::new(r, &speeds, &holds, &card);
    library.mend(&vehicle, &loan, 65, 120, summary::NONE, &expected).map(drop)
}

/// That the reference says of it what it is written down for.
pub fn check() {
    let (vehicle, speeds, holds, card) = long_trip().expect("the long trip is accepted");
    assert_eq!(paper::mend(&vehicle, &speeds, &holds, &card, 65, 120), Err((10, 65)));
}
