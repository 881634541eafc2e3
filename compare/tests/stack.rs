//! No call needs more stack than the header says, on the worst stores and texts that could be made and on random ones.

use compare::marks::Marks;
use compare::stack::Stack;
use compare::{changes, header, worst};
use formstore::raw;
use second::random::history::seed;
use second::Call;
use std::hint::black_box;
use std::thread;

const BLOCK: usize = 512;

/// Needs at least so much stack.
fn use_stack(bytes: usize) {
    let block = black_box([1u8; BLOCK]);
    if bytes > BLOCK {
        use_stack(bytes - BLOCK);
    }
    black_box(&block);
}

/// What is measured is what is used, and a little for the frames.
#[test]
fn the_measure_is_awake() {
    let mut stack = Stack::default();
    let nothing = stack.depth_of(|| ());
    assert!(nothing < 8 * BLOCK, "{nothing} bytes for nothing");
    for bytes in [10_000, 300_000, 100_000] {
        let depth = stack.depth_of(|| use_stack(bytes));
        assert!(
            depth >= bytes && depth < bytes + bytes / 2,
            "{depth} bytes for {bytes}"
        );
    }
}

fn bound() -> usize {
    header::number("FORMSTORE_STACK") as usize
}

#[test]
fn no_call_needs_more_than_the_header_says() {
    let mut marks = Marks::of_worst_stores();
    marks.add_random(seed(), 100);
    marks.print();
    assert!(
        marks.missing().is_empty(),
        "never accepted: {:?}",
        marks.missing()
    );
    let (most, bound) = (marks.most(), bound());
    assert!(most <= bound, "{most} bytes; FORMSTORE_STACK is {bound}");
}

/// How many of the calls on the stores are accepted.
fn accepted(cases: &[(Vec<Call>, Vec<u8>)], out: &mut [u8]) -> usize {
    let mut accepted = 0;
    for (calls, store) in cases {
        for call in calls {
            let answer = changes::apply(call, store, out);
            accepted += usize::from(answer.number == 0);
        }
    }
    accepted
}

/// As a box makes its tasks: that much stack, and some for its own frames. A signal would end the test at the guard
/// page.
#[test]
fn a_thread_with_so_much_stack_makes_all_calls() {
    const OWN: usize = 16 * 1024;
    let worst = worst::all().into_iter();
    let cases: Vec<_> = worst.map(|worst| (worst.calls(), worst.bytes)).collect();
    let mut out = vec![0; formstore::LONGEST];
    let task = thread::Builder::new().stack_size(bound() + OWN);
    let texts = worst::texts();
    let made = task.spawn(move || {
        let read = texts
            .iter()
            .filter(|(_, text)| raw::read_text(text, &mut out).number == 0);
        (read.count(), accepted(&cases, &mut out))
    });
    let (read, accepted) = made.expect("a thread").join().expect("it ends");
    assert!(accepted > 0, "no change was accepted");
    assert!(read > 0, "no text was read");
}
