//! `soak SECONDS SEED`: random histories of all sixteen changes, and readings of random stores, the library against the
//! second implementation and its book, one seed after the other until the time is over. It stops at the first
//! difference.

use compare::histories::Comparison;
use compare::reading_out::Readings;
use compare::threads::in_threads;
use second::random::history::Counts;
use std::panic::{catch_unwind, AssertUnwindSafe};
use std::process::{exit, ExitCode};
use std::sync::atomic::{AtomicU64, AtomicUsize, Ordering::Relaxed};
use std::time::{Duration, Instant};

/// What all threads share.
struct Soak {
    start: Instant,
    time: Duration,
    first: u64,
    next: AtomicU64,
    changes: AtomicUsize,
    readings: AtomicUsize,
    /// Minutes that are told.
    minutes: AtomicU64,
}

impl Soak {
    fn run(&self) -> Counts {
        let mut comparison = Comparison::default();
        while self.start.elapsed() < self.time {
            let seed = self.next.fetch_add(1, Relaxed);
            let before = comparison.compared;
            let read = catch_unwind(AssertUnwindSafe(|| {
                comparison.history_of(seed);
                let mut readings = Readings::from(seed);
                readings.round();
                readings.calls
            }));
            let Ok(read) = read else {
                println!("a difference at seed {seed}; run again with tools/soak 1 {seed}");
                exit(1);
            };
            self.changes
                .fetch_add(comparison.compared - before, Relaxed);
            self.readings.fetch_add(read, Relaxed);
            let minute = self.start.elapsed().as_secs() / 60;
            if self.minutes.fetch_max(minute, Relaxed) < minute {
                self.tell();
            }
        }
        comparison.counts
    }

    fn tell(&self) {
        let (seconds, last) = (self.start.elapsed().as_secs(), self.next.load(Relaxed));
        let (changes, readings) = (self.changes.load(Relaxed), self.readings.load(Relaxed));
        println!(
            "{seconds} s: {changes} changes and {readings} readings agree; seeds {} to {}",
            self.first,
            last.wrapping_sub(1)
        );
    }
}

fn main() -> ExitCode {
    let words: Vec<u64> = std::env::args()
        .skip(1)
        .map_while(|word| word.parse().ok())
        .collect();
    let [seconds, first] = words[..] else {
        eprintln!("usage: soak SECONDS SEED");
        return ExitCode::from(2);
    };
    let soak = Soak {
        start: Instant::now(),
        time: Duration::from_secs(seconds),
        first,
        next: AtomicU64::new(first),
        changes: AtomicUsize::new(0),
        readings: AtomicUsize::new(0),
        minutes: AtomicU64::new(0),
    };
    let mut counts = Counts::new();
    for part in in_threads(|| soak.run()) {
        counts.add(&part);
    }
    counts.print();
    soak.tell();
    ExitCode::SUCCESS
}
