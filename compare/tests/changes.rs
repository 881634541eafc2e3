//! Histories of all sixteen changes, grown from the fresh store, from built stores and from texts that were read: the
//! library answers as the second implementation does, and its stores are those of the book.

use compare::histories::Comparison;
use compare::threads::in_threads;
use second::random::history::{seed, Counts, Named};
use std::sync::atomic::{AtomicU64, AtomicUsize, Ordering::Relaxed};

/// The refusals that each change can give besides 1 (bad store) and 18 (buffer), which all can.
const REFUSALS: [&[usize]; 16] = [
    &[2, 4, 5, 16],
    &[6, 10],
    &[3, 4, 6, 8, 9, 10, 11, 12, 13, 16, 17],
    &[6, 8, 14, 15],
    &[3, 4, 6, 8, 12, 13, 16, 17],
    &[4, 6, 8, 14, 16],
    &[6, 8, 14],
    &[3, 4, 6, 8, 12, 13, 16, 17],
    &[2, 3, 4, 5, 6, 12, 16, 17],
    &[6],
    &[3, 6, 16, 17],
    &[3, 6, 7, 8, 15, 16, 17],
    &[7, 15],
    &[3, 6, 7, 15, 16, 17],
    &[6, 7, 15],
    &[3, 7, 9],
];

const CALLS: usize = 600_000;

/// Histories of one seed after the other, until all threads together have compared the calls.
fn histories(seed: &AtomicU64, compared: &AtomicUsize) -> Counts {
    let mut comparison = Comparison::default();
    while compared.load(Relaxed) < CALLS {
        let seed = seed.fetch_add(1, Relaxed);
        let _named = Named(seed);
        let before = comparison.compared;
        comparison.history_of(seed);
        compared.fetch_add(comparison.compared - before, Relaxed);
    }
    comparison.counts
}

/// Every change is accepted and gives each of its refusals, and no other.
#[test]
fn histories_of_all_changes() {
    let (seed, compared) = (AtomicU64::new(seed()), AtomicUsize::new(0));
    let mut counts = Counts::new();
    for part in in_threads(|| histories(&seed, &compared)) {
        counts.add(&part);
    }
    println!("{} calls compared", compared.into_inner());
    counts.print();
    for (change, refusals) in (1..).zip(REFUSALS) {
        for (number, &count) in counts.answers[change].iter().enumerate() {
            let possible = matches!(number, 0 | 1 | 18) || refusals.contains(&number);
            assert_eq!(possible, count > 0, "answers {number} of {change}");
        }
    }
}
