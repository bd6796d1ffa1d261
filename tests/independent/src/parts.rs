//! A run in parts, which threads take one after the other, each with a driver of its own: which cases are run, what is counted and which difference is told
//! do not hang on how many threads there are.

use crate::cases::{self, Met};
use crate::events;
use crate::library::Library;
use std::sync::atomic::{AtomicU64, Ordering::SeqCst};
use std::sync::Mutex;
use std::thread;
use std::time::{Duration, Instant};

/// Cases of each kind in a part.
const BLOCK: u64 = 250;

/// Answers by kind and number, 0 for accepted.
pub type Counts = [[u64; 23]; cases::KINDS.len()];

/// Of some cases: their answers, their profiles, 0, 1 and neither, those of profile 1 that were accepted, and the time they took, in a thread's own time.
pub struct Tally {
    pub met: Counts,
    pub profiles: [[u64; cases::KINDS.len()]; 3],
    pub vans: [u64; cases::KINDS.len()],
    pub spent: [Duration; cases::KINDS.len()],
}

impl Tally {
    fn new() -> Tally {
        Tally {
            met: [[0; 23]; cases::KINDS.len()],
            profiles: [[0; cases::KINDS.len()]; 3],
            vans: [0; cases::KINDS.len()],
            spent: [Duration::ZERO; cases::KINDS.len()],
        }
    }

    fn add(&mut self, other: &Tally) {
        for kind in 0..cases::KINDS.len() {
            self.spent[kind] += other.spent[kind];
            self.met[kind].iter_mut().zip(other.met[kind]).for_each(|(all, more)| *all += more);
            self.profiles.iter_mut().zip(other.profiles).for_each(|(all, more)| all[kind] += more[kind]);
            self.vans[kind] += other.vans[kind];
        }
    }

    fn count(&mut self, kind: usize, met: &Met) {
        self.met[kind][met.number as usize] += 1;
        self.profiles[met.profile.min(2) as usize][kind] += 1;
        if (met.profile, met.number) == (1, 0) {
            self.vans[kind] += 1;
        }
    }
}

pub struct Run<'a> {
    pub driver: &'a [String],
    pub seed: u64,
    pub cases: u64,
    /// What goes before the cases: a part by itself, the first.
    pub opening: &'a (dyn Fn(&mut Library) -> Result<(), String> + Sync),
}

/// What the threads share. Parts are taken in order, so all before one that failed were taken too, and the lowest that fails is always found.
struct Shared {
    next: AtomicU64,
    failed: Mutex<Option<(u64, String)>>,
}

impl Shared {
    fn take(&self) -> Option<u64> {
        let failed = self.failed.lock().unwrap();
        failed.is_none().then(|| self.next.fetch_add(1, SeqCst))
    }

    fn fail(&self, part: u64, why: String) {
        let mut failed = self.failed.lock().unwrap();
        if failed.as_ref().is_none_or(|(lowest, _)| part < *lowest) {
            *failed = Some((part, why));
        }
    }
}

impl Run<'_> {
    /// All parts, by so many threads.
    pub fn all(&self, threads: usize) -> Result<Tally, String> {
        let shared = Shared { next: AtomicU64::new(0), failed: Mutex::new(None) };
        let mut all = Tally::new();
        thread::scope(|scope| {
            let started: Vec<_> = (0..threads).map(|_| scope.spawn(|| self.some(&shared))).collect();
            started.into_iter().for_each(|thread| all.add(&thread.join().expect("a thread stopped")));
        });
        match shared.failed.into_inner().unwrap() {
            Some((_, why)) => Err(why),
            None => Ok(all),
        }
    }

    /// One thread's: part after part, until there is none or one has failed.
    fn some(&self, shared: &Shared) -> Tally {
        let mut tally = Tally::new();
        let mut part = 0;
        if let Err(why) = self.taken(shared, &mut tally, &mut part) {
            shared.fail(part, why);
        }
        events::hand_in();
        tally
    }

    fn taken(&self, shared: &Shared, tally: &mut Tally, part: &mut u64) -> Result<(), String> {
        let mut library = Library::start(self.driver)?;
        while let Some(taken) = shared.take() {
            *part = taken;
            if taken == 0 {
                (self.opening)(&mut library)?;
                continue;
            }
            let from = (taken - 1) * BLOCK;
            if from >= self.cases {
                break;
            }
            self.block(&mut library, tally, from, (from + BLOCK).min(self.cases))?;
        }
        library.end()
    }

    fn block(&self, library: &mut Library, tally: &mut Tally, from: u64, to: u64) -> Result<(), String> {
        for index in from..to {
            for kind in 0..cases::KINDS.len() {
                let start = Instant::now();
                let met = cases::run(library, self.seed, kind, index)?;
                tally.spent[kind] += start.elapsed();
                tally.count(kind, &met);
            }
        }
        Ok(())
    }
}
