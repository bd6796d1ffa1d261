//! The test cycles of the regulation, joined of the phases in cycles/. docs/CYCLES.md says how they were read and which are left out.

use std::fs;
use std::io::ErrorKind;
use std::path::Path;

/// The cycles as Annex 1 composes them, and the samples of a whole one. A phase without a file is left out.
const CYCLES: [(&str, &[&str], usize); 4] = [
    ("class-1", &["class-1-low", "class-1-medium", "class-1-low"], 1612),
    ("class-2", &["class-2-low", "class-2-medium", "class-2-high", "class-2-extra-high"], 1801),
    ("class-3-1", &["low-3", "medium-3-1", "high-3-1", "extra-high-3"], 1801),
    ("class-3-2", &["low-3", "medium-3-2", "high-3-2", "extra-high-3"], 1801),
];

/// Reads a file of one phase: its first second, and the speeds in tenths of km/h. Stops if the name, the count or the sum
/// is not that of the first line, `# NAME: seconds FIRST to LAST, checksum SUM; ...`.
pub fn parse(name: &str, text: &str) -> (usize, Vec<u16>) {
    let (head, body) = text.split_once('\n').unwrap_or_else(|| panic!("{name}: no first line"));
    let (title, numbers) = head.split_once(':').unwrap_or_else(|| panic!("{name}: first line without a colon"));
    assert_eq!(title, format!("# {name}"), "{name}: named otherwise in its first line");
    let numbers: Vec<usize> = numbers.split(|c: char| !c.is_ascii_digit()).filter_map(|w| w.parse().ok()).collect();
    let [first, last, checksum] = numbers[..] else { panic!("{name}: first line needs three numbers") };
    let speed = |w: &str| w.parse::<u16>().unwrap_or_else(|_| panic!("{name}: {w} is not a speed"));
    let speeds: Vec<u16> = body.split_whitespace().map(speed).collect();
    assert_eq!(speeds.len(), last + 1 - first, "{name}: number of speeds");
    assert_eq!(speeds.iter().map(|&v| v as usize).sum::<usize>(), checksum, "{name}: sum of speeds");
    (first, speeds)
}

/// The phases that are there, by name, and their speeds, one after the other.
fn joined(dir: &Path, parts: &[&'static str]) -> (Vec<&'static str>, Vec<u16>) {
    let mut there = Vec::new();
    let mut speeds: Vec<u16> = Vec::new();
    for name in parts {
        let text = match fs::read_to_string(dir.join(format!("{name}.txt"))) {
            Ok(text) => text,
            Err(e) if e.kind() == ErrorKind::NotFound => continue,
            Err(e) => panic!("{name}: {e}"),
        };
        let (first, phase) = parse(name, &text);
        // Second 0 is the start of the cycle; a low phase driven again begins with its second 1.
        let again = !speeds.is_empty() && first == 0;
        speeds.extend(&phase[again as usize..]);
        there.push(*name);
    }
    (there, speeds)
}

/// Each cycle of which some phase is there: its name, with the phases it is made of, and its speeds.
pub fn traces(dir: &Path) -> Vec<(String, Vec<u16>)> {
    let mut traces = Vec::new();
    for (cycle, parts, whole) in CYCLES {
        let (there, speeds) = joined(dir, parts);
        if there.len() == parts.len() {
            assert_eq!(speeds.len(), whole, "{cycle}: number of samples");
        }
        if !there.is_empty() {
            traces.push((format!("{cycle}: {}", there.join(" ")), speeds));
        }
    }
    assert!(!traces.is_empty(), "{}: no phase of any cycle", dir.display());
    traces
}

/// The whole Class 3 cycle for top speeds of 120 km/h and over.
pub fn class_3(dir: &Path) -> Vec<u16> {
    let (_, parts, whole) = CYCLES[3];
    let (there, speeds) = joined(dir, parts);
    assert_eq!((there.len(), speeds.len()), (parts.len(), whole), "{}: the Class 3 cycle is not whole", dir.display());
    speeds
}
