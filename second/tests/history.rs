//! Random histories from the fresh store, the book compared after every call.

use second::random::history::{seed, Counts, Moment, Named};
use second::rng::Rng;
use second::Call;
use std::time::{Duration, Instant};

const CALLS: usize = 400;
const HISTORIES: usize = 150;
const TIME: Duration = Duration::from_secs(12);

#[test]
fn book_agrees_after_every_call() {
    let seed = seed();
    let mut counts = Counts::new();
    let start = Instant::now();
    let mut histories = 0;
    while histories < HISTORIES || start.elapsed() < TIME {
        let seed = seed.wrapping_add(histories as u64);
        let _named = Named(seed);
        let mut rng = Rng::new(seed);
        history(&mut rng, &mut counts);
        histories += 1;
    }
    println!("{histories} histories of {CALLS} calls");
    counts.print();
    for change in 1..=16 {
        assert!(counts.accepted(change) >= 200, "change {change}");
    }
    // No history from the fresh store comes to a bad store or to the last serial.
    for number in (2..=16).chain([18]) {
        assert!(counts.given(number) >= 5, "refusal {number}");
    }
}

fn history(rng: &mut Rng, counts: &mut Counts) {
    let mut moment = Moment::fresh();
    // Most histories are kept small; the others may run into the ceilings.
    let small = rng.chance(85);
    for _ in 0..CALLS {
        let mut call = moment.random_call(rng);
        let rows = moment.store.row_count();
        if small && rows > 150 {
            let roots = &moment.store.documents;
            let element = roots[rng.below(roots.len())].serial;
            call = Call::DestroyElement { element };
        }
        let answer = moment.step(rng, &call);
        counts.note(&call, answer);
    }
    moment.each_serial_made_once();
}
