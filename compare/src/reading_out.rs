//! Check, look-up and printing of random stores, damaged stores and random bytes, and reading of their texts, damaged
//! ones and random bytes too, the library against the second implementation.

use crate::texts;
use second::layout::encode;
use second::print::text_of;
use second::random::damage::damaged;
use second::random::documents;
use second::rng::Rng;
use second::testing::texts::damaged as damaged_text;

pub struct Readings {
    rng: Rng,
    pub calls: usize,
    /// Byte strings that were read.
    pub strings: usize,
    /// Those of them that pass the check.
    pub passing: usize,
    /// Texts that were read.
    pub texts: usize,
}

impl Readings {
    pub fn from(seed: u64) -> Readings {
        Readings {
            rng: Rng::new(seed),
            calls: 0,
            strings: 0,
            passing: 0,
            texts: 0,
        }
    }

    /// Reads a store, the store with damage, and random bytes.
    pub fn round(&mut self) {
        let rng = &mut self.rng;
        let (definitions, attributes, rows) = (1 + rng.below(8), rng.below(6), 1 + rng.below(40));
        let store = documents::store(rng, definitions, attributes, rows);
        self.read_texts(&text_of(&store));
        let store = encode(&store);
        self.compare(&store);
        for _ in 0..8 {
            let worse = damaged(&mut self.rng, &store);
            self.compare(&worse);
        }
        let length = self.rng.below(201);
        let noise = self.rng.bytes(length);
        self.compare(&noise);
        texts::read(&mut self.rng, &noise);
    }

    fn read_texts(&mut self, text: &[u8]) {
        assert!(texts::read(&mut self.rng, text).is_some());
        for _ in 0..4 {
            let worse = damaged_text(&mut self.rng, text);
            texts::read(&mut self.rng, &worse);
        }
        self.texts += 6;
    }

    fn compare(&mut self, store: &[u8]) {
        let number = second::check(store);
        assert_eq!(crate::check(store), number, "check of {store:02x?}");
        self.strings += 1;
        self.passing += usize::from(number == 0);
        self.calls += 1;
        self.compare_look_up(store);
        self.compare_printed(store);
    }

    fn compare_look_up(&mut self, store: &[u8]) {
        let serial = self.rng.below(24) as u32;
        let mut expected = 0;
        let part = second::look_up(store, serial, &mut expected);
        let found = crate::look_up(store, serial);
        let value = &store[found.start..found.start + found.length];
        assert_eq!(
            (found.number, value),
            (expected, part),
            "look-up of {serial} in {store:02x?}"
        );
        self.calls += 1;
    }

    /// Into a buffer that is long enough, just long enough, one byte short or any.
    fn compare_printed(&mut self, store: &[u8]) {
        let mut wanted = vec![0xEE; 20_000];
        let full = second::print(store, &mut wanted).length;
        let any = self.rng.below(300);
        for room in [full, full.saturating_sub(1), full + 7, any] {
            let (mut out, mut other) = (vec![0xEE; room], vec![0xEE; room]);
            let expected = second::print(store, &mut other);
            let answer = crate::print(store, &mut out);
            assert_eq!(
                (answer.number, answer.length),
                (expected.number, expected.length),
                "print of {store:02x?}"
            );
            assert_eq!(out, other, "print of {store:02x?}");
            self.calls += 1;
        }
    }
}
