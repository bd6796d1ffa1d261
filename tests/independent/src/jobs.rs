//! Jobs, whole and damaged. A job is kept as its groups until the last moment, so that damage can be done to a chosen group.

use crate::rng::Rng;
use crate::vehicle::Vehicle;

/// The shortest form.
pub fn group(value: u16) -> Vec<u8> {
    let mut left = value;
    let mut bytes = Vec::new();
    while left >= 128 {
        bytes.push((left % 128) as u8 + 128);
        left /= 128;
    }
    bytes.push(left as u8);
    bytes
}

pub struct Groups {
    pub all: Vec<Vec<u8>>,
    gears_at: usize,
    points_at: usize,
    count_at: usize,
    holds_at: usize,
}

pub fn groups(version: u16, v: &Vehicle, speeds: &[u16], holds: &[u8]) -> Groups {
    let mut values = vec![version];
    // Request Thirteen: version 3 carries the profile after the version.
    if version >= 3 {
        values.push(v.profile);
    }
    let gears_at = values.len();
    values.push(v.ng);
    values.extend_from_slice(&v.ratio[..v.ng as usize]);
    values.extend([v.idle, v.rated, v.nmax, v.f0, (v.f1 + 5000) as u16, v.f2, v.tm, v.margin]);
    let points_at = values.len();
    values.push(v.points);
    for k in 0..v.points as usize {
        values.extend([v.n[k], v.p[k]]);
        // Request Six: from version 2 on m after p.
        if version >= 2 {
            values.push(v.m[k]);
        }
    }
    let count_at = values.len();
    values.push(speeds.len() as u16);
    values.extend_from_slice(speeds);
    let holds_at = values.len();
    let held: Vec<(usize, u8)> = holds.iter().copied().enumerate().filter(|(_, gear)| *gear != 0).collect();
    values.push(held.len() as u16);
    for (second, gear) in held {
        values.extend([second as u16, gear as u16]);
    }
    Groups { all: values.into_iter().map(group).collect(), gears_at, points_at, count_at, holds_at }
}

/// The first version that can tell a vehicle.
pub fn version_of(v: &Vehicle) -> u16 {
    let marked = v.m[..v.points as usize].iter().any(|m| *m > 0);
    match (v.profile, marked) {
        (1, _) => 3,
        (_, true) => 2,
        _ => 1,
    }
}

/// Kinds of damage to groups; those above the last are done to bytes.
pub const GROUP_DAMAGES: i64 = 8;
pub const DAMAGES: i64 = 12;

pub fn damage_groups(r: &mut Rng, g: &mut Groups, kind: i64) {
    let any = r.below(g.all.len());
    let held = (g.all.len() - g.holds_at - 1) / 2;
    match kind {
        0 => stretch(&mut g.all[any]),
        1 => g.all[any] = r.pick(&[&[0xFF, 0xFF, 4][..], &[0x80, 0x80, 4], &[0x80, 0x80, 0x80], &[0x80, 0x80, 0], &[0x80, 0], &[0xFF, 0xFF, 0x83, 0]]).to_vec(),
        2 if g.gears_at == 2 && r.chance(50) => g.all[1] = group(r.pick(&[0, 1, 2, 2, 3, 128, 256, 65_535])),
        2 => g.all[g.gears_at] = group(r.pick(&[0, 1, 2, 11, 65_535])),
        3 => g.all[g.points_at] = group(r.pick(&[0, 1, 65, 65_535])),
        4 => g.all[g.count_at] = group(r.pick(&[0, 2_049, 16_384, 16_385, 65_535])),
        5 => g.all[0] = group(r.pick(&[0, 1, 2, 3, 4, 127, 128, 257, 65_535])),
        6 => g.all[g.holds_at] = group((held as i64 + r.range(-2, 2)).clamp(0, 65_535) as u16),
        7 => g.all[any] = group(r.next() as u16),
        _ => damage_hold(r, g, held),
    }
}

/// Pads a group by a byte that adds nothing.
fn stretch(group: &mut Vec<u8>) {
    *group.last_mut().unwrap() |= 0x80;
    group.push(0);
}

/// One hold's second or gear is made wrong, or only looks so.
fn damage_hold(r: &mut Rng, g: &mut Groups, held: usize) {
    if held == 0 {
        return;
    }
    let k = r.below(held);
    let at = g.holds_at + 1 + 2 * k;
    let seconds = (g.holds_at - g.count_at - 1) as u16;
    match r.range(0, 5) {
        0 => g.all[at + 1] = group(0),
        1 => g.all[at + 1] = group(r.pick(&[255, 256, 257, 512, 65_535])),
        2 => g.all[at] = group(r.pick(&[seconds, seconds + 1, 65_535])),
        3 if k > 0 => g.all[at] = g.all[at - 2].clone(),
        4 if k > 0 => g.all.swap(at, at - 2),
        _ => g.all[at] = group(r.range(0, seconds as i64) as u16),
    }
}

pub fn damage_bytes(r: &mut Rng, bytes: &mut Vec<u8>, kind: i64) {
    if bytes.is_empty() {
        return;
    }
    match kind {
        9 => (0..r.range(1, 3)).for_each(|_| {
            let at = r.below(bytes.len());
            bytes[at] ^= 1 << r.below(8);
        }),
        10 => bytes.truncate(r.below(bytes.len())),
        11 => (0..r.range(1, 4)).for_each(|_| bytes.push(r.next() as u8 & r.pick(&[0xFF, 0x80, 0x00]))),
        _ => {
            let at = r.below(bytes.len());
            bytes[at] = r.next() as u8;
        }
    }
}
