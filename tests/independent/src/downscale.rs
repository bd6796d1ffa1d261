//! `gearcard_downscale` for every factor, against Annex 1 of document 000 ("Downscaling procedure for Class 3 vehicles") step by step in fractions in lowest
//! terms, and the refusals of document 02, request Eleven.

use crate::cycles;
use crate::library::{Library, Loan};
use crate::paper::Refusal;
use crate::rng::Rng;
use std::path::Path;

/// Apart from the kinds of a case, the drives and the built-in cycle.
const KIND: u64 = 6;
const SAMPLES: usize = 1801;
/// Where the scaled stretch begins, its highest speed, and the first second after it.
const FIRST: usize = 1533;
const PEAK: usize = 1724;
const AFTER: usize = 1763;
const ROOMS: [usize; 7] = [0, 1, 1533, 1800, 1802, 2048, 4000];

/// A fraction in lowest terms, the denominator above 0.
#[derive(Clone, Copy)]
struct Fraction(i128, i128);

impl Fraction {
    fn of(top: i128, bottom: i128) -> Fraction {
        let common = gcd(top.abs(), bottom.abs()) * bottom.signum();
        Fraction(top / common, bottom / common)
    }

    fn plus(self, other: Fraction) -> Fraction {
        Fraction::of(self.0 * other.1 + other.0 * self.1, self.1 * other.1)
    }

    fn times(self, other: Fraction) -> Fraction {
        Fraction::of(self.0 * other.0, self.1 * other.1)
    }

    fn over(self, other: Fraction) -> Fraction {
        Fraction::of(self.0 * other.1, self.1 * other.0)
    }

    /// To the nearest whole number, halves up.
    fn nearest(self) -> i128 {
        (2 * self.0 + self.1).div_euclid(2 * self.1)
    }
}

fn gcd(a: i128, b: i128) -> i128 {
    if b == 0 { a } else { gcd(b, a % b) }
}

fn whole(x: i128) -> Fraction {
    Fraction(x, 1)
}

/// The cycle scaled by a factor in thousandths: Annex 1's two sums, and one rounding at the end.
fn scaled(cycle: &[u16], factor: u32) -> Vec<u16> {
    let own = |i: usize| whole(cycle[i] as i128);
    let step = |i: usize| own(i + 1).plus(whole(-(cycle[i] as i128)));
    let mut v: Vec<Fraction> = (0..SAMPLES).map(own).collect();
    let rest = Fraction::of(1000 - factor as i128, 1000);
    for i in FIRST..PEAK {
        v[i + 1] = v[i].plus(step(i).times(rest));
    }
    let back = whole(-(cycle[AFTER] as i128));
    let correction = v[PEAK].plus(back).over(own(PEAK).plus(back));
    for i in PEAK..AFTER - 1 {
        v[i + 1] = v[i].plus(step(i).times(correction));
    }
    v.iter().map(|x| x.nearest() as u16).collect()
}

fn judged(factor: u32, room: usize) -> Option<Refusal> {
    if factor > 500 {
        return Some((23, 0));
    }
    (room != SAMPLES).then_some((2, 0))
}

pub fn run(library: &mut Library, seed: u64, dir: &Path) -> Result<(), String> {
    let cycle = cycles::class_3(dir);
    if scaled(&cycle, 0) != cycle {
        return Err(String::from("FAILED: the reference does not give the cycle back for factor 0"));
    }
    let mut refused = 0;
    for factor in (0..=501).chain([502, 1000, 65_536, u32::MAX]) {
        let mut r = Rng::of_case(seed, KIND, factor as u64);
        let few: &[usize] = if factor % 100 == 0 || factor > 500 { &ROOMS } else { &[] };
        for &room in [SAMPLES].iter().chain(few) {
            let noise: Vec<u16> = (0..room).map(|_| r.next() as u16).collect();
            let loan = Loan::room(&mut r, &noise);
            let refusal = judged(factor, room);
            let expected = refusal.map_or_else(|| Ok(scaled(&cycle, factor)), Err);
            library.downscale(factor, &loan, &expected).map_err(|why| format!("FAILED: factor {factor} in a room of {room}, seed {seed}\n{why}"))?;
            refused += refusal.is_some() as usize;
        }
    }
    println!("scaled cycle: factors 0 to 500, {refused} calls refused: agreed");
    Ok(())
}
