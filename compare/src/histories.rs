//! Random histories: every call runs on the library and on the second implementation, with good and hostile arguments,
//! into buffers of all lengths, on sound and damaged stores; what an accepted one leaves is held to the book.

use crate::{agreed, check, hostile, texts};
use second::layout::u32_at;
use second::print::text_of;
use second::random::damage::damaged;
use second::random::history::{Counts, Moment, LONGEST};
use second::random::{calls, documents, words};
use second::rng::Rng;
use second::store::{Particle, Store, Term, MAX_ROWS};
use second::{apply, Answer, Call};

pub struct Comparison {
    rng: Rng,
    pub counts: Counts,
    pub compared: usize,
    /// What the buffers hold before a call.
    background: Vec<u8>,
    /// Where the second implementation writes before a buffer's length is chosen.
    scratch: Vec<u8>,
}

impl Default for Comparison {
    fn default() -> Comparison {
        Comparison {
            rng: Rng::new(1),
            counts: Counts::new(),
            compared: 0,
            background: Rng::new(1).bytes(2 * LONGEST),
            scratch: vec![0; LONGEST],
        }
    }
}

impl Comparison {
    /// One history, of which the seed tells all. Most are from built stores, as those are short.
    pub fn history_of(&mut self, seed: u64) {
        self.rng = Rng::new(seed);
        match self.rng.below(100) {
            0..=4 => self.grown(),
            5..=7 => self.full(),
            8..=27 => self.read(),
            _ => self.built(),
        }
    }

    /// From the fresh store, kept small.
    fn grown(&mut self) {
        let mut moment = Moment::fresh();
        for _ in 0..300 {
            let mut call = self.next_call(&moment);
            let documents = &moment.store.documents;
            if moment.store.row_count() > 150 {
                let element = documents[self.rng.below(documents.len())].serial;
                call = Call::DestroyElement { element };
            }
            self.step(&mut moment, &call);
            self.probe(&moment);
        }
        moment.each_serial_made_once();
    }

    /// From a store that none needs to reach: rounds of groups, serials in no order, a next serial near the last,
    /// bodies near their ceilings.
    fn built(&mut self) {
        let mut moment = Moment::at(any_store(&mut self.rng));
        self.short(&mut moment);
    }

    /// From the text of such a store, with the book that the text gives.
    fn read(&mut self) {
        let text = text_of(&any_store(&mut self.rng));
        let read = texts::read(&mut self.rng, &text).expect("a printed text is read");
        let mut moment = Moment::at_text(&text, read);
        self.short(&mut moment);
        moment.each_serial_made_once();
    }

    fn short(&mut self, moment: &mut Moment) {
        for _ in 0..10 {
            let call = self.next_call(moment);
            self.step(moment, &call);
            self.probe(moment);
        }
    }

    /// Single calls on a store without room for more rows or without serials for them, at most for one; those of the
    /// models are the ones that make rows where there are both.
    fn full(&mut self) {
        let rng = &mut self.rng;
        let mut store = words::random_store(rng);
        while !has_optional(&store, true) || !has_optional(&store, false) {
            store = words::random_store(rng);
        }
        let roomy = Moment::at(store.clone());
        if rng.chance(50) {
            store.next_serial = u32::MAX - rng.below(2) as u32;
        } else {
            let rows = MAX_ROWS - rng.below(2);
            documents::add_documents(rng, &mut store, rows);
            documents::number(rng, &mut store);
        }
        let mut calls = words::all_calls(model_of(&store));
        calls.retain(|call| makes_rows(&roomy, call));
        for number in [9, 11, 12, 14] {
            calls.extend((0..4).map(|_| calls::call_of(rng, &store, number)));
        }
        let moment = Moment::at(store);
        for call in calls {
            self.step(&mut moment.clone(), &call);
        }
    }

    /// The call is the next one of the history.
    fn step(&mut self, moment: &mut Moment, call: &Call) {
        let written = self.compare(call, &moment.bytes);
        if let Some(written) = &written {
            assert_eq!(check(written), 0, "{call:?} left a bad store");
        }
        moment.note(call, written);
    }

    /// Any call, now and then a hostile one.
    fn next_call(&mut self, moment: &Moment) -> Call {
        let mut call = moment.random_call(&mut self.rng);
        if self.rng.chance(20) {
            hostile::spoil(&mut self.rng, &moment.store, &mut call);
        }
        call
    }

    /// Compares a good call, the call made hostile, and one of them on the store with damage.
    fn probe(&mut self, moment: &Moment) {
        let (store, bytes) = (&moment.store, &moment.bytes);
        let number = 1 + self.rng.below(16);
        let good = calls::call_of(&mut self.rng, store, number);
        self.compare(&good, bytes);
        let mut bad = good.clone();
        hostile::spoil(&mut self.rng, store, &mut bad);
        self.compare(&bad, bytes);
        let worse = damaged(&mut self.rng, bytes);
        let call = [good, bad][self.rng.below(2)].clone();
        self.compare(&call, &worse);
    }

    /// Compares the call with a buffer that is long enough and one that is not or just so; where it is refused, with
    /// one of any length. Hands back the store that it leaves.
    fn compare(&mut self, call: &Call, store: &[u8]) -> Option<Vec<u8>> {
        let answer = apply(call, store, &mut self.scratch);
        let any = self.rng.below(store.len() + 100);
        if answer.number != 0 {
            let length = [0, any, store.len() + 1000][self.rng.below(3)];
            self.compare_in(call, store, length);
            return None;
        }
        let written = answer.length;
        let longer = written + self.rng.below(100);
        let mut left = self.compare_in(call, store, longer);
        let length = [written, written - 1, 0, any][self.rng.below(4)];
        self.compare_in(call, store, length);
        left.truncate(written);
        Some(left)
    }

    /// Compares the call with a buffer of this length, and hands it back.
    fn compare_in(&mut self, call: &Call, store: &[u8], length: usize) -> Vec<u8> {
        let start = self.rng.below(LONGEST);
        let (answer, out) = agreed(call, store, &self.background[start..start + length]);
        let (number, length) = (answer.number, answer.length);
        self.counts.note(call, Answer { number, length });
        self.compared += 1;
        out
    }
}

fn any_store(rng: &mut Rng) -> Store {
    match rng.below(20) {
        0 => documents::store(rng, 64, 64, 4096),
        1..=3 => documents::crowded_store(rng),
        _ => documents::store(rng, 9, 8, 400),
    }
}

fn model_of(store: &Store) -> &[Particle] {
    &store.form.definitions[words::OWNER].model
}

/// Does a group, or an element, that is optional stand in the top list? Then change 8, or 5, can make rows, most times.
fn has_optional(store: &Store, group: bool) -> bool {
    model_of(store).iter().any(|particle| {
        matches!(particle.term, Term::Group(..)) == group && !particle.quantifier.is_required()
    })
}

fn makes_rows(moment: &Moment, call: &Call) -> bool {
    let (answer, written) = moment.run(call, LONGEST);
    answer.number == 0 && u32_at(&written, 4) > moment.store.next_serial
}
