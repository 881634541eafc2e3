//! Stores and arguments at the limits: ceilings, the last serials, fillings too large to make, lengths and bytes of
//! names and values, places, rounds of a group. Every call is also compared with the second implementation, byte by
//! byte.

mod documents;
mod forms;

use compare::agreed;
use compare::worst::{add_required, filling_rows, group, member, nested_form};
use second::layout::encode;
use second::random::history::LONGEST;
use second::store::*;
use second::testing::notation;
use second::Call;
use std::time::{Duration, Instant};

/// The number that both answer with the longest buffer, and the new store. An accepted call is also compared in buffers
/// that are just long enough, one byte short and empty.
fn change(call: &Call, store: &[u8]) -> (u32, Vec<u8>) {
    let (answer, mut out) = agreed(call, store, &[0xEE; LONGEST]);
    if answer.number == 0 {
        for (length, number) in [(answer.length, 0), (answer.length - 1, 18), (0, 18)] {
            let (shorter, _) = agreed(call, store, &vec![0xEE; length]);
            assert_eq!(shorter.number, number, "{call:?} into {length} bytes");
        }
    }
    out.truncate(answer.length);
    (answer.number, out)
}

fn number(call: &Call, store: &[u8]) -> u32 {
    change(call, store).0
}

/// `m` has an IMPLIED attribute, 0.
fn with_attribute(mut store: Store) -> Store {
    store.form.attributes.push(Attribute {
        owner: 0,
        name: b"n".to_vec(),
        sort: AttributeSort::Implied,
        value: Vec::new(),
    });
    store
}

/// So many documents `m` without children, with this next serial.
fn childless(model: &str, documents: usize, next_serial: u32) -> Vec<u8> {
    let mut store = with_attribute(notation::store(model, &vec![""; documents]));
    store.next_serial = next_serial;
    encode(&store)
}

/// Calls with a value of all bytes, and of all lengths up to one more than a byte counts: all are accepted where it is
/// good, else they give 3.
fn judge_values(store: &[u8], calls: impl Fn(&[u8]) -> Vec<Call>) {
    let judge = |value: &[u8], good: bool| {
        for call in calls(value) {
            let wanted = if good { 0 } else { 3 };
            assert_eq!(number(&call, store), wanted, "{call:?}");
        }
    };
    for byte in 0..=255u8 {
        judge(&[b'v', byte], (0x20..=0x7e).contains(&byte));
    }
    for length in 0..=257 {
        judge(&vec![b'v'; length], length <= 32);
    }
}

/// The library alone answers 16 within a second, and both agree.
fn refused_at_once(call: &Call, store: &[u8]) {
    let mut out = vec![0xEE; LONGEST];
    let start = Instant::now();
    let answer = compare::changes::apply(call, store, &mut out);
    assert!(start.elapsed() < Duration::from_secs(1), "{call:?}");
    assert_eq!(answer.number, 16);
    assert_eq!(number(call, store), 16);
}
