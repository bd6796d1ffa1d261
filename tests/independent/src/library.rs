//! The library, called through driver.c or driver.mjs: each lent slice lies inside a larger one, whose other places are compared too.

use crate::events::{asked, count, Event};
use crate::exports::Coefficients;
use crate::paper::{self, Edited, Job, Mended, Refusal};
use crate::revs::Finished;
use crate::rng::Rng;
use crate::summary::{self, Shown, Summary};
use crate::vehicle::{Vehicle, ZERO};
use crate::why::{Gear, Reasons, Why};
use std::fmt::Debug;
use std::io::{self, BufReader, BufWriter, Read, Write};
use std::process::{Child, ChildStdin, ChildStdout, Command, Stdio};

/// A number that goes through the pipe, little-endian.
pub trait Wire: Copy + PartialEq + Debug {
    const SIZE: usize;
    fn put(self, to: &mut Vec<u8>);
    /// Of so many bytes.
    fn of(bytes: &[u8]) -> Self;

    fn get(from: &mut impl Read) -> io::Result<Self> {
        let mut bytes = [0; 8];
        from.read_exact(&mut bytes[..Self::SIZE])?;
        Ok(Self::of(&bytes[..Self::SIZE]))
    }
}

macro_rules! wire {
    ($($number:ty)*) => {$(
        impl Wire for $number {
            const SIZE: usize = size_of::<$number>();

            fn put(self, to: &mut Vec<u8>) {
                to.extend_from_slice(&self.to_le_bytes());
            }

            fn of(bytes: &[u8]) -> $number {
                <$number>::from_le_bytes(bytes.try_into().unwrap())
            }
        }
    )*};
}

wire!(u8 u16 u32 u64 i32 i64);

fn put_all<T: Wire>(values: &[T], to: &mut Vec<u8>) {
    to.reserve(values.len() * T::SIZE);
    values.iter().for_each(|value| value.put(to));
}

fn get_all<T: Wire>(values: &mut [T], from: &mut impl Read) -> io::Result<()> {
    let mut bytes = vec![0; values.len() * T::SIZE];
    from.read_exact(&mut bytes)?;
    values.iter_mut().zip(bytes.chunks_exact(T::SIZE)).for_each(|(value, bytes)| *value = T::of(bytes));
    Ok(())
}

fn put_vehicle(v: &Vehicle, to: &mut Vec<u8>) {
    v.ng.put(to);
    put_all(&v.ratio, to);
    put_all(&[v.idle, v.rated, v.nmax, v.f0], to);
    v.f1.put(to);
    put_all(&[v.f2, v.tm, v.margin, v.points], to);
    put_all(&v.n, to);
    put_all(&v.p, to);
    put_all(&v.m, to);
    v.profile.put(to);
}

fn get_vehicle(from: &mut impl Read) -> io::Result<Vehicle> {
    let mut v = ZERO;
    v.ng = u16::get(from)?;
    get_all(&mut v.ratio, from)?;
    for field in [&mut v.idle, &mut v.rated, &mut v.nmax, &mut v.f0] {
        *field = u16::get(from)?;
    }
    v.f1 = i32::get(from)?;
    for field in [&mut v.f2, &mut v.tm, &mut v.margin, &mut v.points] {
        *field = u16::get(from)?;
    }
    get_all(&mut v.n, from)?;
    get_all(&mut v.p, from)?;
    get_all(&mut v.m, from)?;
    v.profile = u16::get(from)?;
    Ok(v)
}

fn get_gear(from: &mut impl Read) -> io::Result<Gear> {
    let mut gear = Gear { q: i64::get(from)?, w: i64::get(from)?, engine: u32::get(from)?, minimum: u32::get(from)?, ..Gear::default() };
    for code in [&mut gear.rule, &mut gear.allowed, &mut gear.over_minimum, &mut gear.under_nmax, &mut gear.fits, &mut gear.enough] {
        *code = u8::get(from)?;
    }
    Ok(gear)
}

fn get_reasons(from: &mut impl Read) -> io::Result<Reasons> {
    let mut r = Reasons { about: u64::get(from)?, first: u64::get(from)?, last: u64::get(from)?, required: i64::get(from)?, ..Reasons::default() };
    for gear in &mut r.gears {
        *gear = get_gear(from)?;
    }
    let chain = [&mut r.kind, &mut r.role, &mut r.held, &mut r.choice, &mut r.sentence, &mut r.after_a, &mut r.after_b, &mut r.after_c];
    for code in chain.into_iter().chain([&mut r.floor, &mut r.ceiling, &mut r.clutch, &mut r.clutch_reason, &mut r.byte]) {
        *code = u8::get(from)?;
    }
    Ok(r)
}

/// A slice lent to the library, with guards before and after.
#[derive(Clone)]
struct Lent<T> {
    all: Vec<T>,
    before: usize,
    length: usize,
}

impl<T: Wire> Lent<T> {
    /// Guards are random, and their number too, so that the slice lies at any alignment its type allows.
    fn new(r: &mut Rng, content: &[T], random: impl Fn(u64) -> T) -> Lent<T> {
        let before = r.range(8, 40) as usize;
        let after = r.range(8, 40) as usize;
        let mut all: Vec<T> = (0..before).map(|_| random(r.next())).collect();
        all.extend_from_slice(content);
        all.extend((0..after).map(|_| random(r.next())));
        Lent { all, before, length: content.len() }
    }

    fn content(&self) -> &[T] {
        &self.all[self.before..self.before + self.length]
    }

    fn span(&self) -> [u32; 3] {
        [self.before, self.length, self.all.len() - self.before - self.length].map(|count| count as u32)
    }

    /// Every element afterwards against what it was, or against `expected` at the start of the slice; places count from there.
    fn compare(&self, name: &str, after: &Lent<T>, expected: &[T]) -> Result<(), String> {
        let (from, to) = (self.before, self.before + expected.len());
        if after.all[..from] == self.all[..from] && after.all[from..to] == *expected && after.all[to..] == self.all[to..] {
            return Ok(());
        }
        let mut wanted = self.all.clone();
        wanted[from..to].copy_from_slice(expected);
        match (0..wanted.len()).find(|&k| wanted[k] != after.all[k]) {
            None => Ok(()),
            Some(k) => {
                let place = k as i64 - self.before as i64;
                Err(format!("{name} (length {}) differs at {place}: expected {:?}, library {:?}", self.length, wanted[k], after.all[k]))
            }
        }
    }
}

/// What one call is lent besides the vehicle. The third is the card, or for a read the job, or the export, or for a write its room.
#[derive(Clone)]
pub struct Loan {
    speeds: Lent<u16>,
    holds: Lent<u8>,
    third: Lent<u8>,
}

impl Loan {
    /// A room for speeds alone.
    pub fn room(r: &mut Rng, speeds: &[u16]) -> Loan {
        Loan::new(r, speeds, &[], &[])
    }

    /// Every element afterwards is what it was, but the first speeds, which are `expected`.
    fn same_but_speeds(&self, after: &Loan, expected: &[u16]) -> Result<(), String> {
        self.speeds.compare("speeds", &after.speeds, expected)?;
        self.holds.compare("holds", &after.holds, &[])?;
        self.third.compare("third", &after.third, &[])
    }

    /// The third as a finished card of the others.
    fn finished<'a>(&'a self, vehicle: &'a Vehicle) -> Finished<'a> {
        Finished { vehicle, speeds: self.speeds.content(), holds: self.holds.content(), card: self.third.content() }
    }

    /// What an edit of this leaves of a summary, `after` being the trace and the card that it leaves, or none where it
    /// is refused. And the paper against itself: a right summary stays right.
    fn kept(&self, was: Summary, after: Option<Shown>) -> Result<Summary, String> {
        let before = Shown { speeds: self.speeds.content(), card: self.third.content() };
        let Some(after) = after else {
            count(Event::KeptRefused);
            return Ok(was);
        };
        let kept = asked(|| summary::after(was, before, after));
        if summary::of(before) != Ok(was) {
            return Ok(kept);
        }
        count(Event::KeptRight);
        if summary::of(after) == Ok(kept) {
            return Ok(kept);
        }
        Err(format!("the reference's summary, right before, is {kept:?} after"))
    }

    pub fn new(r: &mut Rng, speeds: &[u16], holds: &[u8], third: &[u8]) -> Loan {
        Loan { speeds: Lent::new(r, speeds, |x| x as u16), holds: Lent::new(r, holds, |x| x as u8), third: Lent::new(r, third, |x| x as u8) }
    }
}

#[derive(Clone, Copy)]
enum Call {
    Read,
    Work,
    Hold,
    Release,
    Export,
    Cycle,
    CyclePart,
    Downscale,
    Write,
    Mend,
    Summary,
    Why,
}

struct Request<'a> {
    call: Call,
    vehicle: &'a Vehicle,
    second: usize,
    /// Of a mend the speed.
    gear: u16,
    /// Of an edit; of other calls it is not looked at.
    summary: Summary,
    loan: &'a Loan,
}

struct Answer {
    number: u32,
    place: u64,
    /// With the version before it and the count; of a read only.
    vehicle: Option<(u16, Vehicle, u64)>,
    /// Of an export only.
    coefficients: Option<Coefficients>,
    /// Of a write only.
    length: Option<u64>,
    /// Of an edit, and of a summary.
    summary: Option<Summary>,
    /// Of a why.
    reasons: Option<Reasons>,
    loan: Loan,
}

impl Answer {
    /// Number 0 at place 0 is how an accepted case answers.
    fn compare(&self, expected: Option<Refusal>) -> Result<(), String> {
        let (number, place) = expected.unwrap_or((0, 0));
        if (number, place as u64) == (self.number, self.place) {
            return Ok(());
        }
        Err(format!("answer: expected {number} at {place}, library {} at {}", self.number, self.place))
    }

    fn compare_summary(&self, expected: Summary) -> Result<(), String> {
        if self.summary == Some(expected) {
            return Ok(());
        }
        Err(format!("summary: expected {expected:?}, library {:?}", self.summary))
    }
}

pub struct Library {
    driver: Child,
    to: BufWriter<ChildStdin>,
    from: BufReader<ChildStdout>,
}

impl Library {
    /// The words are the driver's command.
    pub fn start(words: &[String]) -> Result<Library, String> {
        let started = Command::new(&words[0]).args(&words[1..]).stdin(Stdio::piped()).stdout(Stdio::piped()).spawn();
        let mut driver = started.map_err(|why| format!("{}: {why}", words[0]))?;
        let to = BufWriter::with_capacity(1 << 16, driver.stdin.take().unwrap());
        let from = BufReader::with_capacity(1 << 16, driver.stdout.take().unwrap());
        Ok(Library { driver, to, from })
    }

    /// A driver that ends before it has answered is a fault of this very call.
    fn call(&mut self, request: &Request) -> Result<Answer, String> {
        self.converse(request).map_err(|why| match self.driver.wait() {
            Ok(status) => format!("the driver ended before its answer ({status}; {why})"),
            Err(other) => format!("the driver does not answer ({why}; {other})"),
        })
    }

    fn converse(&mut self, request: &Request) -> io::Result<Answer> {
        let mut bytes = Vec::new();
        put_all(&[request.call as u32, request.gear as u32], &mut bytes);
        (request.second as u64).put(&mut bytes);
        put_vehicle(request.vehicle, &mut bytes);
        put_all(&request.summary.list(), &mut bytes);
        let mut loan = request.loan.clone();
        put_all(&[loan.speeds.span(), loan.holds.span(), loan.third.span()].concat(), &mut bytes);
        put_all(&loan.speeds.all, &mut bytes);
        put_all(&loan.holds.all, &mut bytes);
        put_all(&loan.third.all, &mut bytes);
        self.to.write_all(&bytes)?;
        self.to.flush()?;

        let from = &mut self.from;
        let (number, place) = (u32::get(from)?, u64::get(from)?);
        let vehicle = match request.call {
            Call::Read => Some((u16::get(from)?, get_vehicle(from)?, u64::get(from)?)),
            _ => None,
        };
        let coefficients = match request.call {
            Call::Export => Some(Coefficients { f0: u16::get(from)?, f1: i32::get(from)?, f2: u16::get(from)?, tm: u16::get(from)? }),
            _ => None,
        };
        let length = match request.call {
            Call::Write => Some(u64::get(from)?),
            _ => None,
        };
        let summary = match request.call {
            Call::Hold | Call::Release | Call::Mend | Call::Summary => {
                let mut list = [0; 12];
                get_all(&mut list, from)?;
                Some(Summary::of_list(list))
            }
            _ => None,
        };
        let reasons = match request.call {
            Call::Why => Some(get_reasons(from)?),
            _ => None,
        };
        get_all(&mut loan.speeds.all, from)?;
        get_all(&mut loan.holds.all, from)?;
        get_all(&mut loan.third.all, from)?;
        Ok(Answer { number, place, vehicle, coefficients, length, summary, reasons, loan })
    }

    /// No more requests: the driver then ends, and well.
    pub fn end(mut self) -> Result<(), String> {
        drop(self.to);
        match self.driver.wait() {
            Ok(status) if status.success() => Ok(()),
            other => Err(format!("the driver did not end well: {other:?}")),
        }
    }

    /// `expected`: the card.
    pub fn work(&mut self, vehicle: &Vehicle, loan: &Loan, expected: &Result<Vec<u8>, Refusal>) -> Result<(), String> {
        let answer = self.call(&Request { call: Call::Work, vehicle, second: 0, gear: 0, summary: summary::NONE, loan })?;
        answer.compare(expected.as_ref().err().copied())?;
        loan.speeds.compare("speeds", &answer.loan.speeds, &[])?;
        loan.holds.compare("holds", &answer.loan.holds, &[])?;
        loan.third.compare("card", &answer.loan.third, expected.as_deref().unwrap_or(&[]))?;
        if answer.number != 0 {
            return Ok(());
        }
        asked(|| answer.loan.finished(vehicle).check())
    }

    /// The summary afterwards.
    pub fn hold(&mut self, vehicle: &Vehicle, loan: &Loan, second: usize, gear: u8, summary: Summary, expected: &Edited) -> Result<Summary, String> {
        self.edit(&Request { call: Call::Hold, vehicle, second, gear: gear as u16, summary, loan }, expected)
    }

    /// The summary afterwards.
    pub fn release(&mut self, vehicle: &Vehicle, loan: &Loan, second: usize, summary: Summary, expected: &Edited) -> Result<Summary, String> {
        self.edit(&Request { call: Call::Release, vehicle, second, gear: 0, summary, loan }, expected)
    }

    /// `expected`: the holds and the card.
    fn edit(&mut self, request: &Request, expected: &Edited) -> Result<Summary, String> {
        let loan = request.loan;
        let answer = self.call(request)?;
        answer.compare(expected.as_ref().err().copied())?;
        let (holds, card): (&[u8], &[u8]) = match expected {
            Ok((holds, card)) => (holds, card),
            Err(_) => (&[], &[]),
        };
        loan.speeds.compare("speeds", &answer.loan.speeds, &[])?;
        loan.holds.compare("holds", &answer.loan.holds, holds)?;
        loan.third.compare("card", &answer.loan.third, card)?;
        let speeds = loan.speeds.content();
        let kept = loan.kept(request.summary, expected.as_ref().ok().map(|_| Shown { speeds, card }))?;
        answer.compare_summary(kept)?;
        if answer.number != 0 || !paper::moving(speeds[request.second]) {
            return Ok(kept);
        }
        // Whether the card was right or not, the seconds that were worked anew.
        asked(|| answer.loan.finished(request.vehicle).check_trip(paper::trip_of(speeds, request.second)))?;
        Ok(kept)
    }

    /// `expected`: the speeds and the card. The summary afterwards.
    pub fn mend(&mut self, vehicle: &Vehicle, loan: &Loan, second: usize, speed: u16, summary: Summary, expected: &Mended) -> Result<Summary, String> {
        let answer = self.call(&Request { call: Call::Mend, vehicle, second, gear: speed, summary, loan })?;
        answer.compare(expected.as_ref().err().copied())?;
        let (speeds, card): (&[u16], &[u8]) = match expected {
            Ok((speeds, card)) => (speeds, card),
            Err(_) => (&[], &[]),
        };
        loan.speeds.compare("speeds", &answer.loan.speeds, speeds)?;
        loan.holds.compare("holds", &answer.loan.holds, &[])?;
        loan.third.compare("card", &answer.loan.third, card)?;
        let kept = loan.kept(summary, expected.as_ref().ok().map(|_| Shown { speeds, card }))?;
        answer.compare_summary(kept)?;
        Ok(kept)
    }

    /// `expected`: the refusal, if there is one, and every fact and step.
    pub fn why(&mut self, vehicle: &Vehicle, loan: &Loan, second: usize, expected: &Why) -> Result<(), String> {
        let answer = self.call(&Request { call: Call::Why, vehicle, second, gear: 0, summary: summary::NONE, loan })?;
        answer.compare(expected.0)?;
        if answer.reasons != Some(expected.1) {
            return Err(format!("reasons: expected {:?}, library {:?}", expected.1, answer.reasons));
        }
        loan.same_but_speeds(&answer.loan, &[])
    }

    /// `expected`: the summary of the speeds and the third.
    pub fn summary(&mut self, loan: &Loan, expected: &Result<Summary, Refusal>) -> Result<(), String> {
        let answer = self.call(&Request { call: Call::Summary, vehicle: &ZERO, second: 0, gear: 0, summary: summary::NONE, loan })?;
        answer.compare(expected.as_ref().err().copied())?;
        answer.compare_summary(expected.unwrap_or(summary::NONE))?;
        loan.same_but_speeds(&answer.loan, &[])
    }

    /// `expected`: the first places of the room, which is lent as the speeds.
    pub fn cycle(&mut self, part: u32, loan: &Loan, expected: &Result<Vec<u16>, Refusal>) -> Result<(), String> {
        let answer = self.call(&Request { call: Call::Cycle, vehicle: &ZERO, second: part as usize, gear: 0, summary: summary::NONE, loan })?;
        answer.compare(expected.as_ref().err().copied())?;
        loan.same_but_speeds(&answer.loan, expected.as_deref().unwrap_or(&[]))
    }

    /// `expected`: the room, which is lent as the speeds.
    pub fn downscale(&mut self, factor: u32, loan: &Loan, expected: &Result<Vec<u16>, Refusal>) -> Result<(), String> {
        let answer = self.call(&Request { call: Call::Downscale, vehicle: &ZERO, second: factor as usize, gear: 0, summary: summary::NONE, loan })?;
        answer.compare(expected.as_ref().err().copied())?;
        loan.same_but_speeds(&answer.loan, expected.as_deref().unwrap_or(&[]))
    }

    /// `expected`: the part's first second and how many there are, in a room as long as the speeds.
    pub fn cycle_part(&mut self, part: u32, loan: &Loan, expected: (usize, usize)) -> Result<(), String> {
        let answer = self.call(&Request { call: Call::CyclePart, vehicle: &ZERO, second: part as usize, gear: 0, summary: summary::NONE, loan })?;
        if (answer.place, answer.number as u64) != (expected.0 as u64, expected.1 as u64) {
            return Err(format!("part: expected {} from {}, library {} from {}", expected.1, expected.0, answer.number, answer.place));
        }
        loan.same_but_speeds(&answer.loan, &[])
    }

    pub fn read(&mut self, loan: &Loan, expected: &Result<Job, Refusal>) -> Result<(), String> {
        let answer = self.call(&Request { call: Call::Read, vehicle: &ZERO, second: 0, gear: 0, summary: summary::NONE, loan })?;
        answer.compare(expected.as_ref().err().copied())?;
        let (version, vehicle, speeds, holds): (u16, Vehicle, &[u16], &[u8]) = match expected {
            Ok(job) => (job.version, job.vehicle, &job.speeds, &job.holds),
            Err(_) => (0, ZERO, &[], &[]),
        };
        if answer.vehicle != Some((version, vehicle, speeds.len() as u64)) {
            return Err(format!("version, vehicle and count: expected {version} {vehicle:?} {}, library {:?}", speeds.len(), answer.vehicle));
        }
        loan.third.compare("job", &answer.loan.third, &[])?;
        loan.speeds.compare("speeds", &answer.loan.speeds, speeds)?;
        loan.holds.compare("holds", &answer.loan.holds, holds)
    }

    /// `expected`: the bytes of the job.
    pub fn write(&mut self, version: u16, vehicle: &Vehicle, loan: &Loan, expected: &Result<Vec<u8>, Refusal>) -> Result<(), String> {
        let answer = self.call(&Request { call: Call::Write, vehicle, second: version as usize, gear: 0, summary: summary::NONE, loan })?;
        answer.compare(expected.as_ref().err().copied())?;
        let bytes = expected.as_deref().unwrap_or(&[]);
        if answer.length != Some(bytes.len() as u64) {
            return Err(format!("length: expected {}, library {:?}", bytes.len(), answer.length));
        }
        loan.speeds.compare("speeds", &answer.loan.speeds, &[])?;
        loan.holds.compare("holds", &answer.loan.holds, &[])?;
        loan.third.compare("room", &answer.loan.third, bytes)
    }

    pub fn export(&mut self, loan: &Loan, expected: &Result<Coefficients, Refusal>) -> Result<(), String> {
        let answer = self.call(&Request { call: Call::Export, vehicle: &ZERO, second: 0, gear: 0, summary: summary::NONE, loan })?;
        answer.compare(expected.as_ref().err().copied())?;
        let wanted = expected.unwrap_or_default();
        if answer.coefficients != Some(wanted) {
            return Err(format!("coefficients: expected {wanted:?}, library {:?}", answer.coefficients));
        }
        loan.third.compare("export", &answer.loan.third, &[])
    }
}
