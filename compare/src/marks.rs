//! The most stack that each call of the library needed, on the worst stores and on random ones.

use crate::asked::{value_serial, Asked};
use crate::stack::Stack;
use crate::{header, worst};
use formstore::{LONGEST, LONGEST_TEXT};
use second::layout::encode;
use second::print::text_of;
use second::random::damage::damaged;
use second::random::{calls, documents};
use second::rng::Rng;
use second::store::Store;
use second::testing::texts;
use std::collections::BTreeMap;

/// The most stack that a call needed.
#[derive(Clone, Default)]
pub struct Mark {
    pub bytes: usize,
    /// On which store or text.
    pub store: String,
    pub calls: usize,
    pub accepted: usize,
}

/// The marks by the names of the calls.
#[derive(Default)]
pub struct Marks {
    stack: Stack,
    out: Vec<u8>,
    pub marks: BTreeMap<&'static str, Mark>,
}

impl Marks {
    /// Of all calls on the worst stores and texts.
    pub fn of_worst_stores() -> Marks {
        let mut marks = Marks {
            out: vec![0; LONGEST.max(LONGEST_TEXT)],
            ..Marks::default()
        };
        for worst in worst::all() {
            marks.read(&worst.name, &worst.store, &worst.bytes);
            for call in worst.calls() {
                marks.note(&worst.name, &worst.bytes, Asked::Change(call));
            }
        }
        for (name, text) in worst::texts() {
            marks.note(&name, &text, Asked::ReadText);
        }
        marks
    }

    /// Adds those of all calls on so many random stores, sound and damaged, from this seed on.
    pub fn add_random(&mut self, seed: u64, stores: u64) {
        for seed in (0..stores).map(|more| seed.wrapping_add(more)) {
            let rng = &mut Rng::new(seed);
            let store = match rng.below(4) {
                0 => documents::store(rng, 64, 64, 4096),
                1 => documents::crowded_store(rng),
                _ => documents::store(rng, 9, 8, 400),
            };
            let bytes = encode(&store);
            self.read("random", &store, &bytes);
            let text = text_of(&store);
            self.note("random", &text, Asked::ReadText);
            self.note("damaged", &texts::damaged(rng, &text), Asked::ReadText);
            for number in (1..=16).flat_map(|number| [number; 8]) {
                let call = calls::call_of(rng, &store, number);
                self.note("random", &bytes, Asked::Change(call.clone()));
                let worse = damaged(rng, &bytes);
                self.note("damaged", &worse, Asked::Check);
                self.note("damaged", &worse, Asked::Change(call));
            }
        }
    }

    /// The calls that only read, on the store and on the store without its last byte.
    fn read(&mut self, name: &str, store: &Store, bytes: &[u8]) {
        for bytes in [bytes, &bytes[..bytes.len() - 1]] {
            self.note(name, bytes, Asked::Check);
            self.note(name, bytes, Asked::Print);
            for serial in [value_serial(store), store.next_serial] {
                self.note(name, bytes, Asked::LookUp(serial));
            }
        }
    }

    /// On a store, or on the text that is read.
    fn note(&mut self, name: &str, input: &[u8], asked: Asked) {
        let mut number = 0;
        let (out, given) = (&mut self.out, &asked);
        let bytes = self.stack.depth_of(|| number = given.run(input, out));
        let mark = self.marks.entry(asked.name()).or_default();
        mark.calls += 1;
        mark.accepted += usize::from(number == 0);
        if bytes > mark.bytes {
            (mark.bytes, mark.store) = (bytes, name.to_string());
        }
    }

    /// A line for each call; one that needs more than the header says is marked.
    pub fn print(&self) {
        let bound = header::number("FORMSTORE_STACK") as usize;
        println!(
            "{:24}{:>8}{:>8}{:>10}  deepest on",
            "call", "bytes", "calls", "accepted"
        );
        for name in header::calls() {
            let Mark {
                bytes,
                store,
                calls,
                accepted,
            } = self.marks.get(name).cloned().unwrap_or_default();
            let over = if bytes > bound { '!' } else { ' ' };
            println!("{name:24}{bytes:>8}{over}{calls:>7}{accepted:>10}  {store}");
        }
    }

    /// The names of the calls that the header declares and that were not accepted once.
    pub fn missing(&self) -> Vec<&'static str> {
        let accepted = |name: &&str| self.marks.get(name).is_some_and(|mark| mark.accepted > 0);
        let calls = header::calls().into_iter();
        calls.filter(|name| !accepted(name)).collect()
    }

    /// The most that any call needed.
    pub fn most(&self) -> usize {
        let marks = self.marks.values().map(|mark| mark.bytes);
        marks.max().unwrap_or(0)
    }
}
