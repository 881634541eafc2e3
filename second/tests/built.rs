//! Stores that are built and not grown: no history makes two rounds of (a,b)*,
//! a next serial near the highest, or serials out of order.

use second::layout::encode;
use second::random::calls::call;
use second::random::damage::damaged;
use second::random::history::{seed, Counts, Moment, Named, LONGEST};
use second::random::{documents, words};
use second::rng::Rng;
use second::{apply, check};
use std::time::{Duration, Instant};

const TIME: Duration = Duration::from_secs(8);

/// Short histories from random stores.
#[test]
fn histories_from_built_stores() {
    let seed = seed();
    let mut counts = Counts::new();
    let start = Instant::now();
    let mut number = 0;
    while number < 3000 || start.elapsed() < TIME {
        let seed = seed.wrapping_add(number);
        let _named = Named(seed);
        let mut rng = Rng::new(seed);
        let store = match rng.below(40) {
            0 => documents::store(&mut rng, 64, 64, 4096),
            1 => documents::crowded_store(&mut rng),
            _ => documents::store(&mut rng, 9, 8, 400),
        };
        let mut moment = Moment::at(store);
        for _ in 0..12 {
            let call = moment.random_call(&mut rng);
            let answer = moment.step(&mut rng, &call);
            counts.note(&call, answer);
        }
        number += 1;
    }
    println!("{number} stores");
    counts.print();
    for change in 1..=16 {
        assert!(counts.accepted(change) >= 50, "change {change}");
    }
    for number in 2..=18 {
        assert!(counts.given(number) >= 5, "refusal {number}");
    }
}

/// Damaged stores: every call refuses with 1 exactly where the check fails, and
/// what passes in spite of the damage is the encoding of what it decodes to.
#[test]
fn damaged_stores() {
    let seed = seed();
    let mut rng = Rng::new(seed);
    let (mut bad, mut good) = (0, 0);
    let mut out = vec![0x5a; LONGEST];
    for _ in 0..6000 {
        let store = documents::store(&mut rng, 6, 6, 120);
        let bytes = damaged(&mut rng, &encode(&store));
        let call = call(&mut rng, &store);
        let answer = apply(&call, &bytes, &mut out);
        let passes = check(&bytes) == 0;
        assert_eq!(answer.number != 1, passes, "{call:?}");
        if passes {
            good += 1;
            let decoded = second::check::read(&bytes).expect("it passes");
            assert!(encode(&decoded) == bytes);
        } else {
            bad += 1;
            assert_eq!(answer.length, 0);
        }
        if answer.number == 0 {
            assert_eq!(check(&out[..answer.length]), 0, "{call:?}");
            out.fill(0x5a);
        }
        assert!(out.iter().all(|&byte| byte == 0x5a), "a refusal wrote");
    }
    println!("{bad} bad, {good} good");
    assert!(bad > 1000 && good > 100);
}

/// Random models with an instance for every word of up to four children that
/// they accept, against changes 3 to 8 at all places with all quantifiers.
#[test]
fn models_with_every_short_word() {
    let seed = seed();
    let mut counts = Counts::new();
    let start = Instant::now();
    let mut models = 0;
    while models < 100 || start.elapsed() < TIME {
        let seed = seed.wrapping_add(models);
        let _named = Named(seed);
        let mut rng = Rng::new(seed);
        let store = words::random_store(&mut rng);
        let before = words::words(&store.form);
        let calls = words::all_calls(&store.form.definitions[words::OWNER].model);
        let start = Moment::at(store);
        let mut moment = start.clone();
        for call in calls {
            let answer = moment.step(&mut rng, &call);
            counts.note(&call, answer);
            if answer.number != 0 {
                continue;
            }
            if matches!(call.number(), 6 | 7) {
                assert_eq!(before, words::words(&moment.store.form), "{call:?}");
            }
            moment = start.clone();
        }
        models += 1;
    }
    println!("{models} models");
    counts.print();
    for change in 3..=8 {
        assert!(counts.accepted(change) >= 20, "change {change}");
    }
}
