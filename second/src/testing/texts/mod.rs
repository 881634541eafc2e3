//! Texts to be read, and what must come of them by the rules and not by a
//! reader.

pub mod aimed;

use crate::check::passes;
use crate::layout::encode;
use crate::print::text_of;
use crate::random::documents::number_rows;
use crate::rng::Rng;
use crate::rows::{Row, RowSort};
use crate::store::*;
use crate::Book;

/// The store that must come of a text, if any. Two stores of one text differ
/// only in what the rules of reading lay down, and in nothing that the check
/// asks. So a text is printed by some store that passes just where the store
/// that the rules give for it passes and prints it.
pub fn wanted(text: &[u8]) -> Option<Vec<u8>> {
    let book = Book::of_text(text)?;
    let mut rows = &book.rows()[..];
    let mut documents = Vec::new();
    while !rows.is_empty() {
        documents.push(element(&book.form, &mut rows)?);
    }
    let store = Store {
        next_serial: book.next_serial,
        form: book.form,
        documents,
    };
    (passes(&store) && text_of(&store) == text).then(|| encode(&store))
}

/// How many texts gave a store, and how many none.
#[derive(Default)]
pub struct Judged {
    pub read: usize,
    pub refused: usize,
}

impl Judged {
    /// What a reader gave for the text is what must come of it.
    pub fn judge(&mut self, text: &[u8], given: Option<Vec<u8>>) {
        assert!(given == wanted(text), "{}", String::from_utf8_lossy(text));
        match given {
            Some(_) => self.read += 1,
            None => self.refused += 1,
        }
    }

    pub fn print(&self) {
        println!("{} texts read, {} refused", self.read, self.refused);
    }
}

/// Takes the first row, an element's, with all below it.
fn element(form: &Form, rows: &mut &[Row]) -> Option<Element> {
    let (own, rest) = rows.split_first()?;
    *rows = rest;
    let name = own.name.as_ref()?;
    let definition = form
        .definitions
        .iter()
        .position(|known| known.name == *name)?;
    let mut made = Element {
        definition,
        serial: own.serial,
        attributes: Vec::new(),
        content: Vec::new(),
    };
    while let Some(row) = rows.first().filter(|row| row.parent == own.serial) {
        if row.sort == RowSort::Element {
            made.content.push(Node::Element(element(form, rows)?));
            continue;
        }
        *rows = &rows[1..];
        let (serial, value) = (row.serial, row.value.clone()?);
        match &row.name {
            None => made.content.push(Node::Text(Text { serial, value })),
            Some(name) => {
                let own = |known: &Attribute| known.owner == definition && known.name == *name;
                made.attributes.push(AttributeRow {
                    attribute: form.attributes.iter().position(own)?,
                    serial,
                    value,
                });
            }
        }
    }
    Some(made)
}

/// The store that reading the text of this store must give: serials from 1 in
/// document order, the next one after the rows, `-` as the fill of REQUIRED,
/// EMPTY where a COMPLEX has no members, groups of one member as LISTs.
pub fn read_back(store: &Store) -> Store {
    let mut store = store.clone();
    for definition in &mut store.form.definitions {
        if definition.kind == Kind::Complex && definition.model.is_empty() {
            definition.kind = Kind::Empty;
        }
        single_groups_as_lists(&mut definition.model);
    }
    for attribute in &mut store.form.attributes {
        if attribute.sort == AttributeSort::Required {
            attribute.value = b"-".to_vec();
        }
    }
    store.next_serial = 1;
    let mut next = || {
        store.next_serial += 1;
        store.next_serial - 1
    };
    for document in &mut store.documents {
        document.for_each_mut(&mut |element| number_rows(element, &mut next));
    }
    store
}

fn single_groups_as_lists(members: &mut [Particle]) {
    for particle in members {
        if let Term::Group(kind, inner) = &mut particle.term {
            if inner.len() == 1 {
                *kind = GroupKind::List;
            }
            single_groups_as_lists(inner);
        }
    }
}

/// Visits the text with each byte in turn changed: one bit flipped, dropped,
/// doubled, and each of eight others in its place.
pub fn for_each_mutant(rng: &mut Rng, text: &[u8], visit: &mut impl FnMut(&[u8])) {
    for at in 0..text.len() {
        let (front, back) = (&text[..at], &text[at + 1..]);
        let byte = text[at];
        visit(&[front, &[byte ^ 1 << rng.below(8)], back].concat());
        visit(&[front, back].concat());
        visit(&[front, &[byte, byte], back].concat());
        for other in *b"<>\"& \n|," {
            if other != byte {
                visit(&[front, &[other], back].concat());
            }
        }
    }
}

/// The text with one to three damages: lines moved, dropped or doubled, parts of
/// it copied elsewhere or dropped. It may be one that a store prints.
pub fn damaged(rng: &mut Rng, text: &[u8]) -> Vec<u8> {
    let mut text = text.to_vec();
    for _ in 0..1 + rng.below(3) {
        text = match rng.below(2) {
            0 => lines_damaged(rng, &text),
            _ => part_damaged(rng, text),
        };
    }
    text
}

fn lines_damaged(rng: &mut Rng, text: &[u8]) -> Vec<u8> {
    let mut lines: Vec<&[u8]> = text.split_inclusive(|&byte| byte == b'\n').collect();
    if lines.is_empty() {
        return Vec::new();
    }
    let (one, other) = (rng.below(lines.len()), rng.below(lines.len()));
    match rng.below(3) {
        0 => lines.swap(one, other),
        1 => drop(lines.remove(one)),
        _ => lines.insert(one, lines[other]),
    }
    lines.concat()
}

fn part_damaged(rng: &mut Rng, mut text: Vec<u8>) -> Vec<u8> {
    let start = rng.below(text.len() + 1);
    let end = text.len().min(start + rng.below(12));
    let part = text[start..end].to_vec();
    match rng.below(2) {
        0 => drop(text.drain(start..end)),
        _ => {
            let at = rng.below(text.len() + 1);
            text.splice(at..at, part);
        }
    }
    text
}
