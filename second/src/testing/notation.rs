//! Models as paper 01 writes them, `(a?,(b|c)*)`, read into trees.

use crate::store::*;

/// The names that stand for definitions 1 to 4; definition 0 is the owner.
pub const NAMES: [&str; 5] = ["m", "a", "b", "c", "x"];

/// Reads a model; its outermost brackets are the top list's.
pub fn model(text: &str) -> Vec<Particle> {
    let mut rest = text.as_bytes();
    match particle(&mut rest).term {
        Term::Group(GroupKind::List, members) => members,
        _ => panic!("{text} is no list"),
    }
}

fn particle(rest: &mut &[u8]) -> Particle {
    let first = rest[0];
    *rest = &rest[1..];
    let term = if first == b'(' {
        group(rest)
    } else {
        let index = NAMES.iter().position(|name| name.as_bytes() == [first]);
        Term::Element(index.expect("a name"))
    };
    let quantifier = match rest.first() {
        Some(b'?') => Quantifier::Qmark,
        Some(b'*') => Quantifier::Star,
        Some(b'+') => Quantifier::Plus,
        _ => Quantifier::None,
    };
    if quantifier != Quantifier::None {
        *rest = &rest[1..];
    }
    Particle { quantifier, term }
}

fn group(rest: &mut &[u8]) -> Term {
    let mut members = Vec::new();
    let mut kind = GroupKind::List;
    while rest[0] != b')' {
        match rest[0] {
            b',' => *rest = &rest[1..],
            b'|' => {
                kind = GroupKind::Choice;
                *rest = &rest[1..];
            }
            _ => members.push(particle(rest)),
        }
    }
    *rest = &rest[1..];
    Term::Group(kind, members)
}

/// A store in which `m` has the model and a, b, c, x are EMPTY, with a
/// document for each word.
pub fn store(text: &str, words: &[&str]) -> Store {
    let mut store = Store::fresh();
    for name in NAMES {
        store.form.definitions.push(Definition {
            name: name.as_bytes().to_vec(),
            kind: if name == "m" {
                Kind::Complex
            } else {
                Kind::Empty
            },
            model: if name == "m" { model(text) } else { Vec::new() },
        });
    }
    for word in words {
        let mut root = element(0, &mut store.next_serial);
        for name in word.chars() {
            let index = NAMES.iter().position(|other| *other == name.to_string());
            let child = element(index.expect("a name"), &mut store.next_serial);
            root.content.push(Node::Element(child));
        }
        store.documents.push(root);
    }
    store
}

fn element(definition: usize, next_serial: &mut u32) -> Element {
    let serial = *next_serial;
    *next_serial += 1;
    Element {
        definition,
        serial,
        attributes: Vec::new(),
        content: Vec::new(),
    }
}
