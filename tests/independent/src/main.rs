//! Compares the gear card library with a working of its own, written from docs/01-scope.md and requests One, Five,
//! Eight and Nine of document 02 alone; margins and versions from request Six.
//!
//!   independent [--seed S] [--cases N] [--cycles DIR] -- DRIVER..    the cycles of DIR, the built-in and the scaled cycle, the long traces, then N cases
//!   of each kind (read, work, hold, release, export, write, mend, summary, why)
//!   with --class-3 FILE: that job must have the speeds of the built-in cycle
//!   with --few: not everything that can happen must be met
//!   with --threads N: so many, each with a driver of its own, where else there is one for each processor; the cases and the counts are the same
//!   independent [--seed S] --case KIND I -- DRIVER..                 one case again (KIND as above)
//!   independent [--seed S] --cycles DIR --only cycles -- DRIVER..    the built-in and the scaled cycle alone
//!   independent --job FILE                                           what the card program would print of a job, from the reference alone
//!   independent --table FILE                                         what `./gearcard table --csv` would print of it

mod builtin;
mod cases;
mod cycles;
mod downscale;
mod drives;
mod events;
mod exports;
mod jobs;
mod library;
mod long;
mod paper;
mod parts;
mod rare;
mod revs;
mod rng;
mod summary;
mod sums;
mod tables;
mod traces;
mod vehicle;
mod vehicles;
mod why;

use library::Library;
use parts::{Counts, Run, Tally};
use std::path::Path;
use std::process::exit;
use std::thread;

const DEFAULT_CASES: u64 = 600_000;
const DEFAULT_SEED: u64 = 20_261_115;

/// The numbers of refusal that a case of each kind can have.
const REFUSALS: [&[usize]; cases::KINDS.len()] = [
    &[1, 2, 3, 12, 13, 14, 15, 16],
    &[1, 2, 3, 4, 5, 6, 7, 8, 9, 10],
    &[1, 2, 3, 4, 5, 6, 7, 8, 9, 10, 11],
    &[1, 2, 3, 4, 5, 6, 7, 8, 9, 10, 11],
    &[12, 16, 19, 20, 21, 22],
    &[1, 2, 3, 4, 5, 6, 7, 8, 9, 14, 17],
    &[1, 2, 3, 4, 5, 6, 7, 8, 9, 10, 11],
    &[1, 2],
    &[1, 2, 3, 4, 5, 6, 7, 8, 9, 10, 11],
];
/// The kinds that know of no vehicle.
const WITHOUT_VEHICLE: [&str; 2] = ["export", "summary"];

struct Options {
    seed: u64,
    cases: u64,
    /// Kind and number.
    case: Option<(usize, u64)>,
    cycles: Option<String>,
    class_3: Option<String>,
    /// The built-in and the scaled cycle alone.
    only_cycles: bool,
    /// Not everything that can happen must be met.
    few: bool,
    threads: usize,
}

fn main() {
    let words: Vec<String> = std::env::args().skip(1).collect();
    if let [option, file] = &words[..] {
        if option == "--job" {
            return print_of(file, paper::printed);
        }
        if option == "--table" {
            return print_of(file, tables::printed);
        }
    }
    let Some(split) = words.iter().position(|word| word == "--") else { usage() };
    let options = options(&words[..split]);
    let driver = &words[split + 1..];
    if driver.is_empty() {
        usage();
    }
    let outcome = match options.case {
        Some((kind, index)) => Library::start(driver).and_then(|library| one_case(library, options.seed, kind, index)),
        None if options.only_cycles => Library::start(driver).and_then(|library| cycles_alone(library, &options)),
        None => run(driver, &options),
    };
    if let Err(why) = outcome {
        println!("{why}");
        exit(1);
    }
}

fn usage() -> ! {
    eprintln!("use: [--seed S] [--cases N] [--cycles DIR [--class-3 FILE] [--only cycles]] [--few] [--threads N] -- DRIVER..");
    eprintln!("     [--seed S] --case KIND I -- DRIVER.. | --job FILE | --table FILE");
    exit(2)
}

fn options(words: &[String]) -> Options {
    let threads = thread::available_parallelism().map_or(1, |count| count.get());
    let mut options = Options { seed: DEFAULT_SEED, cases: DEFAULT_CASES, case: None, cycles: None, class_3: None, only_cycles: false, few: false, threads };
    let mut words = words.iter().map(String::as_str);
    while let Some(option) = words.next() {
        let mut value = || words.next().unwrap_or_else(|| usage());
        match option {
            "--seed" => options.seed = number(value()),
            "--cases" => options.cases = number(value()),
            "--cycles" => options.cycles = Some(String::from(value())),
            "--class-3" => options.class_3 = Some(String::from(value())),
            "--only" if value() == "cycles" => options.only_cycles = true,
            "--few" => options.few = true,
            "--threads" => options.threads = number(value()).clamp(1, 64) as usize,
            "--case" => options.case = Some((kind(value()), number(value()))),
            _ => usage(),
        }
    }
    options
}

fn number(word: &str) -> u64 {
    word.parse().unwrap_or_else(|_| usage())
}

fn kind(word: &str) -> usize {
    cases::KINDS.iter().position(|name| *name == word).unwrap_or_else(|| usage())
}

fn print_of(file: &str, printed: fn(&[u8]) -> String) {
    match std::fs::read(file) {
        Ok(bytes) => print!("{}", printed(&bytes)),
        Err(why) => {
            eprintln!("{file}: {why}");
            exit(2)
        }
    }
}

fn one_case(mut library: Library, seed: u64, kind: usize, index: u64) -> Result<(), String> {
    let met = cases::run(&mut library, seed, kind, index)?;
    println!("agreed, answer {}", met.number);
    library.end()
}

fn cycles_alone(mut library: Library, options: &Options) -> Result<(), String> {
    filled(&mut library, options)?;
    library.end()
}

fn run(driver: &[String], options: &Options) -> Result<(), String> {
    sums::check();
    exports::check();
    println!("the paper's own sums: agreed");
    let opening = |library: &mut Library| opening(library, options);
    let tally = Run { driver, seed: options.seed, cases: options.cases, opening: &opening }.all(options.threads)?;
    for (kind, time) in cases::KINDS.iter().zip(tally.spent) {
        let each = time.as_micros() as u64 / options.cases.max(1);
        println!("{kind}: {} cases of seed {} agreed, {each} ms for each 1,000 cases", options.cases, options.seed);
    }
    events::print();
    print_counts(&tally.met);
    print_profiles(&tally);
    if options.few {
        return Ok(());
    }
    why::all_met()?;
    all_met(&tally)
}

/// What is driven whole, or filled, before the cases.
fn opening(library: &mut Library, options: &Options) -> Result<(), String> {
    rare::run(library, options.seed)?;
    let Some(dir) = options.cycles.as_deref().map(Path::new) else { return Ok(()) };
    drives::run(library, options.seed, dir)?;
    filled(library, options)?;
    long::run(library, options.seed, dir)
}

/// The built-in and the scaled cycle.
fn filled(library: &mut Library, options: &Options) -> Result<(), String> {
    let Some(dir) = options.cycles.as_deref().map(Path::new) else { usage() };
    builtin::run(library, options.seed, dir, options.class_3.as_deref().map(Path::new))?;
    downscale::run(library, options.seed, dir)
}

fn print_counts(met: &Counts) {
    println!("{:>9}{}", "answer", cases::KINDS.map(|kind| format!(" {kind:>8}")).concat());
    for number in (0..met[0].len()).filter(|number| *number == 0 || REFUSALS.iter().any(|numbers| numbers.contains(number))) {
        let name = if number == 0 { String::from("accepted") } else { number.to_string() };
        println!("{name:>9}{}", met.map(|counts| format!(" {:>8}", counts[number])).concat());
    }
}

/// A case is of profile 1 where the vehicle lent, or the job read, has a crawler.
fn print_profiles(tally: &Tally) {
    let rows = [("profile 0", tally.profiles[0]), ("profile 1", tally.profiles[1]), ("accepted", tally.vans), ("neither", tally.profiles[2])];
    for (name, counts) in rows {
        println!("{name:>9}{}", counts.map(|count| format!(" {count:>8}")).concat());
    }
}

/// What no case met was not tried: a turn of the rules, a refusal of a kind that can have it, a van in a kind that knows of vehicles.
fn all_met(tally: &Tally) -> Result<(), String> {
    let mut missed: Vec<String> = events::missed().into_iter().map(String::from).collect();
    for (kind, name) in cases::KINDS.iter().enumerate() {
        missed.extend(REFUSALS[kind].iter().filter(|number| tally.met[kind][**number] == 0).map(|number| format!("refusal {number} of {name}")));
        if tally.vans[kind] == 0 && !WITHOUT_VEHICLE.contains(name) {
            missed.push(format!("a van accepted by {name}"));
        }
    }
    if missed.is_empty() {
        return Ok(());
    }
    Err(format!("FAILED: never met: {}", missed.join("; ")))
}
