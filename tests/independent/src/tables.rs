//! The engine under a card, a line a second, as `./gearcard table --csv` prints it: from the reference alone, each power rounded to a watt in whole numbers.

use crate::paper;
use crate::why::{self, Gear, Reasons};

const COLUMNS: &str =
    "second,speed,gear,clutch,hold,engine,minimum,nmax,required,available,reserve,choice,after A,after B,after C,sentence\n";
/// Document 01's sentences, by the number that the reasons have.
const SENTENCES: [&str; 6] = [
    "",
    "the held gear",
    "the highest gear that fits and has enough power",
    "\"none has enough: the fitting gear with most power, the higher gear on a tie\"",
    "at the first second of a trip only the lowest gear may fit",
    "none fits",
];

/// The table of a job, or the line that says its refusal.
pub fn printed(bytes: &[u8]) -> String {
    let refused = |(number, place): paper::Refusal| format!("refused {number} at {place}\n");
    let job = match paper::read(bytes, 65_535, 65_535) {
        Ok(job) => job,
        Err(refusal) => return refused(refusal),
    };
    let card = match paper::work(&job.vehicle, &job.speeds, &job.holds, job.speeds.len()) {
        Ok(card) => card,
        Err(refusal) => return refused(refusal),
    };
    let mut text = String::from(COLUMNS);
    for (s, (speed, byte)) in job.speeds.iter().zip(&card).enumerate() {
        let clutch = if *byte >= 16 { "down" } else { "up" };
        text += &format!("{s},{}.{},{},{clutch},{}", speed / 10, speed % 10, byte % 16, job.holds[s]);
        let (_, reasons) = why::of(&job.vehicle, &job.speeds, &job.holds, s);
        text += &if paper::moving(*speed) { engine(&reasons, byte % 16, job.vehicle.nmax) } else { ",".repeat(11) };
        text.push('\n');
    }
    text
}

fn engine(reasons: &Reasons, gear: u8, nmax: u16) -> String {
    let Gear { q, w, engine, minimum, .. } = reasons.gears[gear as usize - 1];
    let (q, w, required) = (q as i128, w as i128, reasons.required as i128);
    let available = if w == 0 { String::new() } else { kilowatts(q, 1_000_000 * w) };
    let reserve = if w == 0 { String::new() } else { kilowatts(3_240_000 * q - required * w, 3_240_000_000_000 * w) };
    let steps = format!("{},{},{},{}", reasons.choice, reasons.after_a, reasons.after_b, reasons.after_c);
    let power = format!("{},{available},{reserve}", kilowatts(required, 3_240_000_000_000));
    format!(",{}.{:03},{minimum},{nmax},{power},{steps},{}", engine / 1000, engine % 1000, SENTENCES[reasons.sentence as usize])
}

/// A power in kW to the nearest watt, of two that are as near the even one.
fn kilowatts(numerator: i128, denominator: i128) -> String {
    let (low, rest) = ((1000 * numerator).div_euclid(denominator), (1000 * numerator).rem_euclid(denominator));
    let up = 2 * rest > denominator || (2 * rest == denominator && low % 2 != 0);
    let watts = low + up as i128;
    format!("{}{}.{:03}", if watts < 0 { "-" } else { "" }, watts.abs() / 1000, watts.abs() % 1000)
}
