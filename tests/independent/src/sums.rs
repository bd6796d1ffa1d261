//! The paper's sums, held against the reference before any case is run: a reference that misreads the paper is of no use.

use crate::jobs;
use crate::paper::{self, Lies, Trip, LIES};
use crate::rare;
use crate::summary::{self, Shown, Summary};
use crate::vehicle::{car_z, with_crawler, without_crawler, Vehicle};

pub fn check() {
    one_second();
    passes();
    cards();
    groups();
    printed();
    written();
    vans();
    summaries();
    rare::check();
}

/// Request Thirteen: car Z with a crawler of 200 min^-1 per km/h.
fn vans() {
    let van = with_crawler(&car_z(), 20_000);
    assert_eq!(without_crawler(&van), car_z());
    assert_eq!([2, 3, 4, 6].map(|gear| paper::minimum(&van, gear, Lies::Elsewhere)), [800, 720, 1400, 1400]);
    assert_eq!(LIES.map(|lies| paper::minimum(&van, 3, lies)), [800, 920, 720]);
    let speeds = [0, 50, 150, 100, 0];
    let right = [18, 2, 3, 19, 0];
    assert_eq!(paper::work(&van, &speeds, &[0; 5], 5), Ok(right.to_vec()));
    assert_eq!(paper::work(&van, &speeds, &[0, 0, 4, 0, 0], 5), Ok(vec![18, 2, 20, 19, 0]));
    assert_eq!(paper::work(&van, &speeds, &[0, 0, 1, 0, 0], 5), Err((7, 2)));
    // The same gears, all of them driven: X in second gear is 1,800,000 and 1,200,000, third gear is below its 1400.
    assert_eq!(paper::work(&Vehicle { profile: 0, ..van }, &speeds, &[0; 5], 5), Ok(vec![17, 1, 2, 2, 0]));
    // 7 before 8, and gear 0 is no hold.
    assert_eq!(paper::hold(&van, &speeds, &[0; 5], &right, 4, 1), Err((7, 4)));
    assert_eq!(paper::hold(&van, &speeds, &[0; 5], &right, 4, 2), Err((8, 4)));
    assert_eq!(paper::work(&van, &speeds, &[0, 0, 0, 0, 1], 5), Err((7, 4)));
    assert_eq!(paper::work(&Vehicle { profile: 2, ..van }, &speeds, &[0; 5], 5), Err((3, 1)));
    assert_eq!(paper::work(&Vehicle { ng: 2, ..van }, &speeds, &[0; 5], 5), Err((3, 1)));
    assert!(paper::work(&Vehicle { ng: 3, ..van }, &speeds, &[0; 5], 5).is_ok());
    let bytes = paper::write(3, &van, &speeds, &[0; 5], 80).unwrap();
    assert_eq!((bytes.len(), &bytes[..6]), (74, &[3, 1, 6, 0xA0, 0x9C, 1][..]));
    assert!(paper::read(&bytes, 5, 5).is_ok_and(|job| job.version == 3 && job.vehicle == van));
    assert_eq!([1, 2].map(|version| paper::write(version, &van, &speeds, &[0; 5], 80)), [Err((3, 1)), Err((3, 1))]);
    let refusal = |bytes: &[u8]| paper::read(bytes, 9, 9).err();
    assert_eq!(
        [refusal(&[3]), refusal(&[3, 2]), refusal(&[3, 1, 2]), refusal(&[3, 0, 2]), refusal(&[3, 1, 3])],
        [Some((12, 1)), Some((3, 1)), Some((3, 1)), Some((12, 3)), Some((12, 3))]
    );
}

fn one_second() {
    let z = car_z();
    assert_eq!([1, 2, 3, 5].map(|gear| paper::minimum(&z, gear, Lies::Elsewhere)), [800, 720, 1400, 1400]);
    assert_eq!(LIES.map(|lies| paper::minimum(&z, 2, lies)), [800, 920, 720]);
    assert_eq!(paper::required(&z, 500, 0), 9_000_000_000_000);
    assert_eq!(paper::required(&z, 500, 36), 78_525_000_000_000);
    // 100 - M times the paper's Q, which are of full-load power.
    assert_eq!((paper::power(&z, 5, 500).q, paper::power(&z, 4, 500).q), (90 * 220_000_000, 90 * 290_000_000));
    let mut derated = z;
    derated.m[1] = 50;
    assert_eq!(paper::power(&derated, 5, 500).q, 10_800_000_000);
    let choice = |speeds: &[u16]| paper::first_choice(&z, speeds, &vec![0; speeds.len()], 2, Some(4));
    assert_eq!(choice(&[0, 400, 500, 500]), Some(5));
    assert_eq!(choice(&[0, 400, 499, 499]), Some(4));
    assert_eq!(choice(&[0, 400, 500, 536]), Some(4));
}

fn passes() {
    let z = car_z();
    let trip = |length: usize| Trip { first: 1, last: length };
    for (gears, after) in [([3, 4, 3], [3, 3, 3]), ([3, 4, 2], [3, 3, 2]), ([2, 4, 3], [2, 3, 3]), ([2, 4, 2], [2, 4, 2])] {
        let mut row = [0, gears[0], gears[1], gears[2], 0];
        paper::pass_a(&z, &[0, 100, 100, 100, 0], &[0; 5], trip(3), &mut row);
        assert_eq!(row[1..4], after);
    }
    let mut row = [0, 1, 2, 3, 3, 3, 3, 3, 0];
    paper::pass_b(&z, &[0, 20, 30, 40, 50, 60, 70, 80, 0], &[0; 9], trip(7), &mut row);
    assert_eq!(row, [0, 1, 1, 2, 2, 3, 3, 3, 0]);
}

fn cards() {
    let z = car_z();
    let speeds = [0, 50, 150, 100, 0];
    assert_eq!(paper::work(&z, &speeds, &[0; 5], 5), Ok(vec![17, 1, 2, 18, 0]));
    assert_eq!(paper::work(&z, &speeds, &[0, 0, 3, 0, 0], 5), Ok(vec![17, 1, 19, 18, 0]));
    assert_eq!(paper::hold(&z, &speeds, &[0; 5], &[17, 1, 2, 18, 0], 2, 3), Ok((vec![0, 0, 3, 0, 0], vec![17, 1, 19, 18, 0])));
    assert_eq!(paper::release(&z, &speeds, &[0, 0, 3, 0, 0], &[17, 1, 19, 18, 0], 2), Ok((vec![0; 5], vec![17, 1, 2, 18, 0])));
    assert_eq!(paper::hold(&z, &speeds, &[0; 5], &[17, 1, 2, 18, 0], 2, 0), Err((7, 2)));
    assert_eq!(paper::hold(&z, &speeds, &[0; 5], &[17, 1, 2, 18, 0], 4, 0), Err((7, 4)));
    let mend = |speeds: &[u16], holds: &[u8], card: &[u8], second, speed| paper::mend(&z, speeds, holds, card, second, speed);
    let right = [17, 1, 2, 18, 0];
    let split = [0, 50, 0, 100, 0];
    assert_eq!(mend(&speeds, &[0; 5], &right, 2, 110), Ok((vec![0, 50, 110, 100, 0], vec![17, 1, 18, 18, 0])));
    assert_eq!(mend(&speeds, &[0; 5], &right, 2, 0), Ok((split.to_vec(), vec![17, 17, 17, 1, 0])));
    assert_eq!(mend(&split, &[0; 5], &[17, 17, 17, 1, 0], 2, 150), Ok((speeds.to_vec(), right.to_vec())));
    assert_eq!(mend(&speeds, &[0, 0, 3, 0, 0], &[17, 1, 19, 18, 0], 2, 9), Err((8, 2)));
    assert_eq!(mend(&speeds, &[0; 5], &right, 3, 151), Err((5, 4)));
    assert_eq!(mend(&speeds, &[0; 5], &right, 4, 10), Err((6, 4)));
    assert_eq!(mend(&speeds, &[0; 5], &right, 5, 10), Err((11, 5)));
    assert_eq!(paper::work(&z, &[0, 110, 110, 110, 0], &[0; 5], 5), Ok(vec![17, 1, 1, 18, 0]));
    assert_eq!(paper::work(&z, &[0], &[0], 1), Ok(vec![0]));
    assert!(paper::work(&z, &[0, 150, 0], &[0; 3], 3).is_ok());
    assert_eq!(paper::work(&z, &[0, 151, 0], &[0; 3], 3), Err((5, 1)));
}

fn groups() {
    assert_eq!(jobs::group(12_000), [0xE0, 0x5D]);
    assert_eq!(jobs::group(65_535), [0xFF, 0xFF, 3]);
    let refusal = |bytes: &[u8]| paper::read(bytes, 9, 9).err();
    assert_eq!(refusal(&[0x80, 0]), Some((13, 0)));
    assert_eq!(refusal(&[0x80, 0x80, 4]), Some((13, 0)));
    assert_eq!(refusal(&[0xFF, 0xFF, 3]), Some((14, 0)));
    assert_eq!(refusal(&[4]), Some((14, 0)));
    assert_eq!(refusal(&[2]), Some((12, 1)));
    assert_eq!(refusal(&[]), Some((12, 0)));
}

fn printed() {
    let job = jobs::groups(1, &car_z(), &[0, 50, 150, 100, 0], &[0; 5]).all.concat();
    let text = "second speed gear clutch\n0 0.0 1 down\n1 5.0 1 up\n2 15.0 2 up\n3 10.0 2 down\n4 0.0 0 up\n";
    assert_eq!(paper::printed(&job), text);
}

fn written() {
    let (z, speeds) = (car_z(), [0, 50, 150, 100, 0]);
    let bytes = paper::write(1, &z, &speeds, &[0; 5], 63).unwrap();
    assert_eq!((bytes.len(), &bytes[..6], &bytes[55..]), (63, &[1, 5, 0xE0, 0x5D, 0xD8, 0x36][..], &[5, 0, 50, 0x96, 1, 100, 0, 0][..]));
    assert_eq!(paper::write(1, &z, &speeds, &[0; 5], 62), Err((17, 63)));
    assert_eq!(paper::write(1, &z, &speeds, &[0, 0, 3, 0, 0], 65).unwrap()[62..], [1, 2, 3]);
    assert_eq!(paper::write(1, &z, &speeds, &[0; 4], 0), Err((2, 0)));
    assert_eq!(paper::write(1, &z, &[0, 151, 0], &[0; 3], 0), Err((5, 1)));
    let mut marked = z;
    marked.m[1] = 50;
    assert_eq!(paper::write(4, &marked, &speeds, &[0; 4], 0), Err((14, 0)));
    assert_eq!(paper::write(1, &marked, &speeds, &[0; 5], 100), Err((3, 12)));
    let bytes = paper::write(2, &marked, &speeds, &[0; 5], 70).unwrap();
    assert_eq!((bytes.len(), bytes[0], &bytes[28..37]), (70, 2, &[160, 6, 100, 0, 136, 14, 172, 2, 50][..]));
}

/// Request Nine, counted by hand.
fn summaries() {
    let of = |speeds: &[u16], card: &[u8]| summary::of(Shown { speeds, card });
    let speeds = [0, 50, 150, 100, 0];
    let counted = |standing, gears: [u16; 3], changes| {
        let mut summary = Summary { standing, changes, ..summary::NONE };
        summary.gears[..3].copy_from_slice(&gears);
        summary
    };
    let right = counted(2, [1, 2, 0], 1);
    assert_eq!(of(&speeds, &[17, 1, 2, 18, 0]), Ok(right));
    // The clutch makes no change; gears 0 and 11 are in no gear, but make changes; a standing second between makes none.
    assert_eq!(of(&speeds, &[17, 1, 0, 11, 0]), Ok(counted(2, [1, 0, 0], 2)));
    assert_eq!(of(&[0, 50, 9, 100, 0], &[17, 1, 18, 2, 0]), Ok(counted(3, [1, 1, 0], 0)));
    assert_eq!(of(&[], &[]), Err((1, 0)));
    assert_eq!(of(&speeds, &[0; 4]), Err((2, 0)));
    // Second 2 held in gear 3: it leaves gear 2, and there is one change more. A wrong summary stops at an end.
    let before = Shown { speeds: &speeds, card: &[17, 1, 2, 18, 0] };
    let after = Shown { speeds: &speeds, card: &[17, 1, 19, 18, 0] };
    assert_eq!(summary::after(right, before, after), counted(2, [1, 1, 1], 2));
    assert_eq!(summary::after(counted(9, [9, 0, 65_535], 65_535), before, after), counted(9, [9, 0, 65_535], 65_535));
    // Mended to rest: one more standing.
    let rests = Shown { speeds: &[0, 50, 0, 100, 0], card: &[17, 17, 17, 1, 0] };
    assert_eq!(summary::after(right, before, rests), counted(3, [2, 0, 0], 0));
}
