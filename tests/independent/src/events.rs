//! How often the rarer turns of the rules were met in what the library was asked: a turn that it was never asked about is not tested. What the reference works
//! for itself, the paper's sums, a card to lend, its own quick way against its whole working, counts nothing.

use std::cell::Cell;
use std::sync::atomic::{AtomicU64, Ordering::Relaxed};

#[derive(Clone, Copy)]
pub enum Event {
    PassA,
    PassAFloor,
    PassB,
    PassBFloor,
    PassC,
    NoneEnough,
    PowerTie,
    PowerEqual,
    ClutchMoving,
    StandingCleared,
    NoGearLater,
    FreeReleased,
    RoomExact,
    WrittenAsRead,
    RisesByOne,
    RisesToFloor,
    TripSplit,
    TripsJoined,
    TripBegun,
    TripEnded,
    HoldWon,
    ElsewhereDecides,
    ClosingDecides,
    AfterFirstDecides,
    LaterWithout,
    CrawlerHeld,
    CrawlerAtRest,
    ProfileRead,
    TwoGearsRead,
    VanAsCar,
    InNoGear,
    StoppedAtNone,
    StoppedAtMost,
    ChangesMoved,
    StandingMoved,
    KeptRight,
    KeptRefused,
    ClutchAlone,
    EditAsWhole,
    RefusalAsWhole,
}

const NAMES: [&str; 40] = [
    "pass A lowered a gear",
    "pass A stopped by the floor",
    "pass B lowered a gear to the ceiling",
    "pass B stopped by the floor",
    "pass C raised a gear",
    "no fitting gear had enough power",
    "tie of most power",
    "power exactly as required",
    "clutch down while moving",
    "hold cleared at a standing second",
    "gear 0 not held, for another fault of the span",
    "free second of a right card released",
    "job written into room of exactly its length",
    "job that was read written as the same bytes",
    "a card's gear one above the gear before, the speed rising",
    "a card's gear at its floor, two or more above the gear before, the speed rising",
    "trip split by a mended sample",
    "two trips joined by a mended sample",
    "trip begun by a mended sample",
    "trip ended by a mended sample",
    "held second not mended to rest",
    "nine tenths of idle decides for second gear's part",
    "idle decides for second gear's part, in the closing run",
    "1.15 times idle decides for second gear's part, after the lowest gear as first choice",
    "hold or release refused, a later second of its trip without a gear",
    "crawler held, which is not driven",
    "crawler held at a standing second",
    "job refused for its profile",
    "job of two gears refused, the first a crawler",
    "van's card that of its car without the crawler, each gear one higher",
    "moving second of a wrong card counted in no gear",
    "count stopped at 0",
    "count stopped at 65,535",
    "edit that changed the count of gear changes",
    "mended sample that changed the count of standing seconds",
    "right summary kept right by an edit",
    "summary kept as it was by a refused edit",
    "neighbouring moving seconds that differ by the clutch alone",
    "edit of a right card taken, the card that of the whole working",
    "edit of a right card refused, as the whole working refuses it",
];

/// Of all threads that have handed theirs in.
static COUNTS: [AtomicU64; NAMES.len()] = [const { AtomicU64::new(0) }; NAMES.len()];

thread_local! {
    static HERE: [Cell<u64>; NAMES.len()] = const { [const { Cell::new(0) }; NAMES.len()] };
    /// Whether what is being worked is what the library is asked.
    static ASKED: Cell<bool> = const { Cell::new(false) };
}

/// The reference's part of a question to the library: what it meets counts.
pub fn asked<T>(work: impl FnOnce() -> T) -> T {
    let was = ASKED.replace(true);
    let answer = work();
    ASKED.set(was);
    answer
}

/// Met by the reference; it counts where the library is asked the same.
pub fn note(event: Event) {
    if ASKED.get() {
        count(event);
    }
}

/// Met by what the library was asked or answered.
pub fn count(event: Event) {
    HERE.with(|here| here[event as usize].set(here[event as usize].get() + 1));
}

/// What this thread has met counts from here on.
pub fn hand_in() {
    HERE.with(|here| {
        for (all, count) in COUNTS.iter().zip(here) {
            all.fetch_add(count.take(), Relaxed);
        }
    });
}

/// The turns that nobody met, by name.
pub fn missed() -> Vec<&'static str> {
    NAMES.iter().zip(&COUNTS).filter(|(_, count)| count.load(Relaxed) == 0).map(|(name, _)| *name).collect()
}

pub fn print() {
    println!("met by what the library was asked:");
    for (name, count) in NAMES.iter().zip(&COUNTS) {
        println!("  {:>10}  {name}", count.load(Relaxed));
    }
}
