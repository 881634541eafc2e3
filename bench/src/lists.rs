//! Finish lists of chosen sizes, made by the second implementation.

use crate::LENGTH;
use second::Call;

const RACE: u32 = 0;
const FINISHER: u32 = 1;

/// How much a list leaves below its number of rows.
#[derive(Clone, Copy)]
pub enum Room {
    /// For one more finisher.
    One,
    /// For one more row in each finisher.
    Each,
}

impl Room {
    /// How many finishers of five rows stand in a list of at most so many rows.
    pub fn finishers(self, rows: usize) -> usize {
        match self {
            Room::One => (rows - 11) / 5,
            Room::Each => (rows - 6) / 6,
        }
    }
}

/// A race of so many finishers, the newest first, after changes of the form; the five oldest have their attribute.
pub fn list(finishers: usize, before: &[Call]) -> Vec<u8> {
    let form = before
        .iter()
        .fold(form(), |store, call| changed(&store, call));
    let text = || b"19:04".to_vec();
    let race = Call::AddDocument {
        definition: RACE,
        text: text(),
    };
    let finisher = Call::AddElement {
        parent: 1,
        child: 0,
        definition: FINISHER,
        text: text(),
    };
    let mut store = changed(&form, &race);
    for _ in 0..finishers {
        store = changed(&store, &finisher);
    }
    for element in [2, 7, 12, 17, 22] {
        let (attribute, value) = (0, b"none".to_vec());
        store = changed(
            &store,
            &Call::SetAttribute {
                element,
                attribute,
                value,
            },
        );
    }
    store
}

/// The store after a change.
fn changed(store: &[u8], call: &Call) -> Vec<u8> {
    let mut out = vec![0; formstore::LONGEST];
    let answer = second::apply(call, store, &mut out);
    assert_eq!(answer.number, 0, "{call:?} was refused");
    out.truncate(answer.length);
    out
}

/// race (finisher*), finisher (bib,time) with an IMPLIED attribute, and a definition that nothing uses.
fn form() -> Vec<u8> {
    let mut store = second::fresh();
    for (name, kind) in [
        ("race", 2),
        ("finisher", 2),
        ("bib", 1),
        ("time", 1),
        ("spare", 0),
    ] {
        let name = name.as_bytes().to_vec();
        store = changed(&store, &Call::CreateDefinition { name, kind });
    }
    for (owner, place, definition, quantifier) in [
        (RACE, 0, FINISHER, 2),
        (FINISHER, 0, 2, 0),
        (FINISHER, 1, 3, 0),
    ] {
        let (place, text) = (vec![place], b"-".to_vec());
        store = changed(
            &store,
            &Call::InsertElement {
                owner,
                place,
                definition,
                quantifier,
                text,
            },
        );
    }
    let (owner, name, value) = (FINISHER, b"club".to_vec(), Vec::new());
    changed(
        &store,
        &Call::AddAttribute {
            owner,
            name,
            sort: 0,
            value,
        },
    )
}

/// The printed text.
pub fn printed(store: &[u8]) -> Vec<u8> {
    let mut out = vec![0; LENGTH];
    let length = second::print(store, &mut out).length;
    out.truncate(length);
    out
}

/// The printed text as one document with its DTD.
pub fn document(store: &[u8]) -> Vec<u8> {
    let text = printed(store);
    let start = text.windows(6).position(|part| part == b"<race>");
    let (declared, list) = text.split_at(start.expect("a list"));
    [b"<!DOCTYPE race [\n", declared, b"]>\n", list].concat()
}
