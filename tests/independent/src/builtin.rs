//! The built-in Class 3 cycle: `gearcard_cycle` and `gearcard_cycle_part`, against the cycle joined of the phases in cycles/, and the example's job.
//! Document 02, request Three: the part number is judged before the room, and a refusal writes nothing.

use crate::cycles;
use crate::library::{Library, Loan};
use crate::paper::{self, Refusal};
use crate::rng::Rng;
use std::path::Path;

/// Apart from the kinds of a case and the drives.
const KIND: u64 = 5;
const SAMPLES: usize = 1801;
const PARTS: [u32; 9] = [0, 1, 2, 3, 4, 5, 6, 256, u32::MAX];
const ROOMS: [usize; 8] = [0, 1, 590, 1800, 1801, 1802, 2048, 4000];

/// First and last second of a part, ends included.
fn ends(part: u32) -> (usize, usize) {
    match part {
        0 => (0, 1800),
        1 => (0, 589),
        2 => (589, 1022),
        3 => (1022, 1477),
        _ => (1477, 1800),
    }
}

fn judged(part: u32, room: usize) -> Option<Refusal> {
    if part > 4 {
        return Some((18, 0));
    }
    (room < SAMPLES).then_some((2, 0))
}

pub fn run(library: &mut Library, seed: u64, dir: &Path, job: Option<&Path>) -> Result<(), String> {
    let cycle = cycles::class_3(dir);
    let (mut filled, mut refused) = (0, 0);
    for (index, part) in PARTS.into_iter().enumerate() {
        let mut r = Rng::of_case(seed, KIND, index as u64);
        for room in ROOMS {
            let noise: Vec<u16> = (0..room).map(|_| r.next() as u16).collect();
            let loan = Loan::room(&mut r, &noise);
            let refusal = judged(part, room);
            let expected = refusal.map_or_else(|| Ok(cycle.clone()), Err);
            let place = if refusal.is_some() { (0, 0) } else { (ends(part).0, ends(part).1 + 1 - ends(part).0) };
            library
                .cycle(part, &loan, &expected)
                .and_then(|()| library.cycle_part(part, &loan, place))
                .map_err(|why| format!("FAILED: part {part} in a room of {room}, seed {seed}\n{why}"))?;
            if refusal.is_some() { refused += 1 } else { filled += 1 }
        }
    }
    println!("built-in cycle: {filled} rooms filled, {refused} refused: agreed");
    match job {
        Some(file) => example(file, &cycle),
        None => Ok(()),
    }
}

/// The example of the Class 3 cycle drives this very cycle.
fn example(file: &Path, cycle: &[u16]) -> Result<(), String> {
    let bytes = std::fs::read(file).map_err(|why| format!("FAILED: {}: {why}", file.display()))?;
    match paper::read(&bytes, paper::LONGEST, paper::LONGEST) {
        Ok(job) if job.speeds == cycle => {
            println!("built-in cycle: {} has its speeds", file.display());
            Ok(())
        }
        Ok(_) => Err(format!("FAILED: {}: other speeds than the Class 3 cycle", file.display())),
        Err((number, place)) => Err(format!("FAILED: {}: refused {number} at {place}", file.display())),
    }
}
