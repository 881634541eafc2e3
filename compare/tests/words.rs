//! Stores with a document for every word of up to four children that a model accepts: every call of the changes 3 to 8
//! at every place, and at places that are absent, with every quantifier, sort and count. The library answers as the
//! second implementation does, and what it leaves passes and is the book's.

use compare::threads::in_threads;
use compare::{agreed, check};
use second::model::depth_of;
use second::random::history::{seed, Counts, Moment, Named, LONGEST};
use second::random::words;
use second::rng::Rng;
use second::store::{Store, MAX_MODEL_DEPTH};
use second::testing::notation;
use second::{Answer, Call};
use std::sync::atomic::{AtomicU64, Ordering::Relaxed};

const MODELS: u64 = 300;

/// Models of which the stores are tried first: groups of several rounds, deep ones, choices that accept nothing.
const CHOSEN: [&str; 12] = [
    "()",
    "((a,b)*)",
    "((a,b)+,c)",
    "((a?,b*)*,c)",
    "((a|b)*,c?)",
    "((a,(b|c)+)*)",
    "(((a?)*)*,x)",
    "(a,(b,(c,(x))))",
    "((((a,b?)),c*)+)",
    "(a*,(b?|c)?,x)",
    "((((a|b)|c))*,x)",
    "((a?,(b?,(c?,(x?)?)+)*))",
];

struct Comparison {
    counts: Counts,
    compared: usize,
    /// How many random models were that deep.
    depths: [usize; MAX_MODEL_DEPTH + 1],
    /// What the calls write into.
    buffer: Vec<u8>,
}

impl Comparison {
    fn new() -> Comparison {
        Comparison {
            counts: Counts::new(),
            compared: 0,
            depths: Default::default(),
            buffer: vec![0xEE; LONGEST],
        }
    }

    /// All calls on the store, each from there.
    fn compare_all(&mut self, store: Store) {
        let calls = words::all_calls(&store.form.definitions[words::OWNER].model);
        let moment = Moment::at(store);
        for call in calls {
            self.compare(&call, &moment);
        }
    }

    fn compare(&mut self, call: &Call, moment: &Moment) {
        // Room for what a call makes in each document, and not more: it is copied again and again.
        let room = moment.bytes.len() + 1000 * (1 + moment.store.documents.len());
        let buffer = &self.buffer[..room.min(LONGEST)];
        let (answer, mut out) = agreed(call, &moment.bytes, buffer);
        let (number, length) = (answer.number, answer.length);
        self.counts.note(call, Answer { number, length });
        self.compared += 1;
        if number == 0 {
            out.truncate(length);
            assert_eq!(check(&out), 0, "{call:?} left a bad store");
            moment.clone().note(call, Some(out));
        }
    }

    /// Random models, of one seed after the other.
    fn compare_models(&mut self, seed: &AtomicU64, end: u64) {
        loop {
            let seed = seed.fetch_add(1, Relaxed);
            if seed >= end {
                return;
            }
            let _named = Named(seed);
            let store = words::random_store(&mut Rng::new(seed));
            self.depths[depth_of(&store.form.definitions[words::OWNER].model)] += 1;
            self.compare_all(store);
        }
    }

    fn add(&mut self, other: &Comparison) {
        self.counts.add(&other.counts);
        self.compared += other.compared;
        for (own, more) in self.depths.iter_mut().zip(other.depths) {
            *own += more;
        }
    }
}

#[test]
fn random_models() {
    let first = seed();
    let seed = AtomicU64::new(first);
    let mut all = Comparison::new();
    for part in in_threads(|| {
        let mut part = Comparison::new();
        part.compare_models(&seed, first + MODELS);
        part
    }) {
        all.add(&part);
    }
    println!("{} calls compared", all.compared);
    println!("models of depth 0 to 4: {:?}", all.depths);
    all.counts.print();
    for change in 3..=8 {
        assert!(all.counts.accepted(change) >= 100, "change {change}");
    }
    assert!(all.depths.iter().all(|count| *count > 0));
}

#[test]
fn chosen_models() {
    let mut comparison = Comparison::new();
    let mut rng = Rng::new(1);
    for model in CHOSEN {
        comparison.compare_all(words::store_of(&mut rng, notation::model(model)));
    }
    println!("{} calls compared", comparison.compared);
}
