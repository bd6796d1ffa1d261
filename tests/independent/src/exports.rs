//! The bench computer's export, from request Five of document 02 alone: the reference's reading, and exports to try, whole and damaged.

use crate::paper::Refusal;
use crate::rng::Rng;

/// What an export gives, in document 01's units; all 0 in a refusal.
#[derive(Clone, Copy, Debug, Default, PartialEq)]
pub struct Coefficients {
    pub f0: u16,
    pub f1: i32,
    pub f2: u16,
    pub tm: u16,
}

/// How many units make one of the bench's, and document 01's bounds.
struct Field {
    units: u32,
    least: i128,
    most: i128,
}

const F0: Field = Field { units: 10, least: 0, most: 10_000 };
const F1: Field = Field { units: 1_000, least: -5_000, most: 5_000 };
const F2: Field = Field { units: 100_000, least: 0, most: 20_000 };
const TM: Field = Field { units: 1, least: 400, most: 4_000 };

// ---------------------------------------------------------------- the reference

/// The exact value of a finite float, in units, to the nearest whole number, halves away from zero. The value is digits x 2^power, and is brought to
/// power 0 by one doubling or halving after the other: the last digit cut off is a half, and says alone whether to round up. What has grown past
/// every bound grows no further.
fn in_units(bits: u32, units: u32) -> i128 {
    let exponent = (bits >> 23 & 0xFF) as i32;
    let fraction = (bits & 0x7F_FFFF) as i128;
    let (digits, mut power) = if exponent == 0 { (fraction, -149) } else { (fraction + 0x80_0000, exponent - 150) };
    let mut size = digits * units as i128;
    while power > 0 {
        size = (2 * size).min(1 << 100);
        power -= 1;
    }
    let mut half = 0;
    while power < 0 {
        half = size % 2;
        size /= 2;
        power += 1;
    }
    let rounded = size + half;
    if bits >> 31 == 1 {
        -rounded
    } else {
        rounded
    }
}

struct Reading<'a> {
    bytes: &'a [u8],
    at: usize,
}

impl Reading<'_> {
    fn byte(&mut self) -> Result<u8, Refusal> {
        let byte = *self.bytes.get(self.at).ok_or((12, self.bytes.len()))?;
        self.at += 1;
        Ok(byte)
    }

    /// A float of the record that begins at `record`, judged once its bytes are read.
    fn number(&mut self, record: usize, field: &Field) -> Result<i128, Refusal> {
        let mut bits = 0;
        for k in 0..4 {
            bits |= (self.byte()? as u32) << (8 * k);
        }
        if !f32::from_bits(bits).is_finite() {
            return Err((20, record));
        }
        let value = in_units(bits, field.units);
        if value < field.least || field.most < value {
            return Err((21, record));
        }
        Ok(value)
    }
}

pub fn read(bytes: &[u8]) -> Result<Coefficients, Refusal> {
    let mut reading = Reading { bytes, at: 0 };
    let (mut loads, mut mass) = (None, None);
    loop {
        let record = reading.at;
        match reading.byte()? {
            1 if loads.is_none() => loads = Some((reading.number(record, &F0)?, reading.number(record, &F1)?, reading.number(record, &F2)?)),
            2 if mass.is_none() => mass = Some(reading.number(record, &TM)?),
            0 => {
                let (Some((f0, f1, f2)), Some(tm)) = (loads, mass) else { return Err((22, record)) };
                if reading.at < bytes.len() {
                    return Err((16, reading.at));
                }
                return Ok(Coefficients { f0: f0 as u16, f1: f1 as i32, f2: f2 as u16, tm: tm as u16 });
            }
            _ => return Err((19, record)),
        }
    }
}

/// Sums done by hand: 0.25 N, -0.0, -0.04 N, 103.35 N as a float (below 1033.5 tenths), -0.0625 N/(km/h), the smallest denormal, 399.5 kg; car Z's export.
pub fn check() {
    let sums = [
        (0x3E80_0000, 10, 3),
        (0x8000_0000, 10, 0),
        (0xBD23_D70A, 10, 0),
        (0x42CE_B333, 10, 1033),
        (0xBD80_0000, 1_000, -63),
        (0x0000_0001, 100_000, 0),
        (0x43C7_C000, 1, 400),
    ];
    for (bits, units, value) in sums {
        assert_eq!(in_units(bits, units), value);
    }
    let car_z = [1, 0, 0, 200, 66, 0, 0, 0, 0, 10, 215, 35, 61, 2, 0, 128, 187, 68, 0];
    assert_eq!(read(&car_z), Ok(Coefficients { f0: 1000, f1: 0, f2: 4000, tm: 1500 }));
}

// ---------------------------------------------------------------- exports to try

/// Edges of the format: zeros, denormals, the smallest and the largest normal floats, infinities, quiet and signalling NaNs.
const EDGES: [u32; 16] = [
    0,
    0x8000_0000,
    1,
    0x8000_0001,
    0x007F_FFFF,
    0x807F_FFFF,
    0x0080_0000,
    0x7F7F_FFFF,
    0xFF7F_FFFF,
    0x4B00_0000,
    0x7F80_0000,
    0xFF80_0000,
    0x7FC0_0000,
    0xFFC0_0000,
    0x7F80_0001,
    0xFFBF_FFFF,
];

/// A float near a whole number of units or near a half, a few floats off it; so often at or around a bound.
fn near(r: &mut Rng, field: &Field) -> u32 {
    let whole = r.edge(field.least as i64, field.most as i64);
    let target = whole as f64 + r.pick(&[0.0, 0.0, 0.25, 0.5, 0.5, -0.5]);
    let bits = ((target / field.units as f64) as f32).to_bits();
    bits.wrapping_add(r.pick(&[0, 0, 1, 2, u32::MAX, u32::MAX - 1]))
}

/// A float that is a half in units, exactly: an odd number of halves over the odd part of the scale would not end in binary, so whole multiples of it.
fn half(r: &mut Rng, field: &Field) -> u32 {
    let odd = (field.units >> field.units.trailing_zeros()) as i64;
    let halves = (2 * r.range(2 * field.least as i64 / odd / 2, (2 * field.most as i64 / odd - 1) / 2) + 1) * odd;
    ((halves as f64 / 2.0 / field.units as f64) as f32).to_bits()
}

fn float(r: &mut Rng, field: &Field) -> u32 {
    match r.range(0, 99) {
        0..=69 => near(r, field),
        70..=87 => half(r, field),
        88..=95 => r.pick(&EDGES),
        96..=97 => r.next() as u32,
        // Small, so that it is often accepted.
        _ => (r.next() as u32 & 0x8FFF_FFFF) | r.pick(&[0, 0x2000_0000]),
    }
}

fn record(r: &mut Rng, kind: u8) -> Vec<u8> {
    let fields: &[Field] = match kind {
        1 => &[F0, F1, F2],
        2 => &[TM],
        _ => &[],
    };
    let mut bytes = vec![kind];
    for field in fields {
        bytes.extend(float(r, field).to_le_bytes());
    }
    bytes
}

/// Both kinds in either order and the end, then damaged in no, one or two ways.
pub fn export(r: &mut Rng) -> Vec<u8> {
    let mut kinds = if r.chance(50) { vec![1, 2, 0] } else { vec![2, 1, 0] };
    let ways = r.pick(&[0, 0, 0, 1, 1, 2]);
    let damages: Vec<i64> = (0..ways).map(|_| r.range(0, 6)).collect();
    for damage in &damages {
        let at = r.below(kinds.len().max(1));
        match damage {
            0 if !kinds.is_empty() => kinds[at] = r.pick(&[0, 1, 2, 3, 4, 128, 255]),
            1 => kinds.insert(at, r.pick(&[0, 1, 1, 2, 2, 3])),
            2 if !kinds.is_empty() => {
                kinds.remove(at);
            }
            _ => {}
        }
    }
    let mut bytes: Vec<u8> = kinds.into_iter().flat_map(|kind| record(r, kind)).collect();
    for damage in &damages {
        match damage {
            3 => bytes.truncate(r.below(bytes.len() + 1)),
            4 => bytes.extend((0..r.range(1, 3)).map(|_| r.next() as u8)),
            5 if !bytes.is_empty() => {
                let at = r.below(bytes.len());
                bytes[at] = r.next() as u8;
            }
            _ => {}
        }
    }
    bytes
}
