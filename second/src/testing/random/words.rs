//! Stores with a document for every short word that a model accepts, and every
//! call of the changes 3 to 8 on them.

use super::{calls, documents, forms};
use crate::check::Judge;
use crate::edit;
use crate::filling::Maker;
use crate::model::depth_of;
use crate::rng::Rng;
use crate::store::*;
use crate::Call;

/// The definition whose model changes.
pub const OWNER: usize = 0;
/// The definitions that may stand in the model.
const LETTERS: std::ops::Range<usize> = 1..5;
/// The definition that change 3 inserts.
const INSERTED: usize = 5;
/// Stands in the models of the COMPLEX ones but the owner's.
const LEAF: usize = 6;
/// EMPTY and without attributes, as the crowding of a store wants it.
const PAD: usize = 7;
const NAMES: [&str; 8] = ["m", "a", "b", "c", "x", "new", "leaf", "pad"];

const MOST_CHILDREN: usize = 4;
/// Enough for all words over four letters, with room for what changes make.
const MOST_ROWS: usize = 2500;

/// The words of up to four children that the owner's model accepts.
pub fn words(form: &Form) -> Vec<Vec<usize>> {
    let judge = Judge::of(form);
    let mut words = vec![Vec::new()];
    let mut start = 0;
    for _ in 0..MOST_CHILDREN {
        let end = words.len();
        for at in start..end {
            for letter in LETTERS {
                words.push([&words[at][..], &[letter]].concat());
            }
        }
        start = end;
    }
    words.retain(|word| judge.accepts(OWNER, word));
    words
}

/// A store of a random model over up to four letters.
pub fn random_store(rng: &mut Rng) -> Store {
    loop {
        let mut letters: Vec<usize> = LETTERS.collect();
        rng.shuffle(&mut letters);
        letters.truncate(1 + rng.below(LETTERS.len()));
        let mut model = forms::members(rng, &letters, 0);
        for _ in 0..rng.below(4) {
            let deeper = deeper(rng, &model);
            if depth_of(&deeper) <= MAX_MODEL_DEPTH {
                model = deeper;
            }
        }
        let store = store_of(rng, model);
        if store.row_count() <= MOST_ROWS {
            return store;
        }
    }
}

/// The model with some members of a list in one more group.
fn deeper(rng: &mut Rng, model: &[Particle]) -> Vec<Particle> {
    let mut form = Form::default();
    edit::create_definition(&mut form, b"m", Kind::Complex);
    form.definitions[0].model = model.to_vec();
    let (gaps, members) = calls::places_of(model);
    let place = &members[rng.below(members.len())];
    let (last, list) = place.split_last().expect("a place has a number");
    let in_list = |gap: &&Vec<u32>| gap.len() == place.len() && gap.starts_with(list);
    let behind = gaps.iter().filter(in_list).count() - *last as usize;
    let kind = [GroupKind::List, GroupKind::Choice][rng.below(2)];
    edit::convert_to_group(&mut form, 0, place, 1 + rng.below(behind), kind);
    let quantifier = Quantifier::ALL[rng.below(4)];
    edit::change_quantifier(&mut form, 0, place, quantifier);
    form.definitions.remove(0).model
}

/// A store in which `m` has the model, with a document for each word.
pub fn store_of(rng: &mut Rng, model: Vec<Particle>) -> Store {
    let mut store = Store::fresh();
    store.form = form_of(rng, model);
    for word in words(&store.form) {
        store.documents.push(instance(&store.form, &word));
    }
    documents::number(rng, &mut store);
    store.next_serial = store.next_serial.min(1_000_000);
    store
}

/// The other definitions have kinds and attributes at random.
fn form_of(rng: &mut Rng, model: Vec<Particle>) -> Form {
    let mut form = Form::default();
    for (index, name) in NAMES.iter().enumerate() {
        let kind = match index {
            OWNER => Kind::Complex,
            LEAF => Kind::Pcdata,
            PAD => Kind::Empty,
            _ => [Kind::Empty, Kind::Pcdata, Kind::Complex][rng.below(3)],
        };
        edit::create_definition(&mut form, name.as_bytes(), kind);
        if kind == Kind::Complex {
            let quantifier = Quantifier::ALL[rng.below(4)];
            let term = Term::Element(LEAF);
            form.definitions[index].model = vec![Particle { quantifier, term }];
        }
        let (sort, value) = match rng.below(4) {
            0 => (AttributeSort::Required, b"fill".to_vec()),
            1 => (AttributeSort::Implied, Vec::new()),
            _ => continue,
        };
        if index != PAD {
            let (owner, name) = (index, b"n".to_vec());
            let attribute = Attribute {
                owner,
                name,
                sort,
                value,
            };
            edit::add_attribute(&mut form, attribute);
        }
    }
    form.definitions[OWNER].model = model;
    form
}

/// An instance of the owner with these children, without serials.
fn instance(form: &Form, word: &[usize]) -> Element {
    let mut bare = form.clone();
    bare.definitions[OWNER].model.clear();
    let mut maker = Maker::new(&bare, 1, b"old");
    let mut filling = |index| maker.element(index).expect("a filling of a few rows");
    let mut owner = filling(OWNER);
    for letter in word {
        owner.content.push(Node::Element(filling(*letter)));
    }
    owner
}

/// Places around those of the members that are absent, or of another sort.
fn other_places(members: &[Vec<u32>]) -> Vec<Vec<u32>> {
    let mut places = vec![vec![], vec![u32::MAX]];
    for member in members {
        places.push([&member[..], &[1]].concat());
        places.push([&member[..], &[1; 6]].concat());
        let (last, list) = member.split_last().expect("a place has a number");
        places.push([list, &[last + 2]].concat());
        places.push([list, &[0, 1]].concat());
        places.push([list, &[last + 256]].concat());
    }
    places
}

/// All calls of the changes 3 to 8 on the model: at its places with every
/// quantifier, sort and count, at others with one of each.
pub fn all_calls(model: &[Particle]) -> Vec<Call> {
    let (mut places, members) = calls::places_of(model);
    let others = other_places(&members);
    // A gap and a member may have the same place.
    places.extend(members);
    places.sort();
    places.dedup();
    let mut calls = Vec::new();
    for place in places {
        for (quantifier, text) in [(0, "new"), (1, ""), (2, ""), (3, "new"), (0, ""), (4, "")] {
            calls.extend(quantifier_calls(&place, INSERTED, quantifier, text));
        }
        for count in 0..=LETTERS.end as u32 {
            calls.extend([1, 2].map(|sort| convert_to_group(&place, count, sort)));
        }
        calls.push(convert_to_group(&place, 1, 0));
        calls.extend(plain_calls(&place));
    }
    for place in others {
        calls.extend(quantifier_calls(&place, INSERTED, 0, "new"));
        calls.push(convert_to_group(&place, 1, 1));
        calls.extend(plain_calls(&place));
    }
    calls
}

/// Changes 3, 5 and 8.
pub fn quantifier_calls(place: &[u32], inserted: usize, quantifier: u32, text: &str) -> [Call; 3] {
    let owner = OWNER as u32;
    let (place, text) = (|| place.to_vec(), || text.as_bytes().to_vec());
    [
        Call::InsertElement {
            owner,
            place: place(),
            definition: inserted as u32,
            quantifier,
            text: text(),
        },
        Call::ChangeQuantifier {
            owner,
            place: place(),
            quantifier,
            text: text(),
        },
        Call::ChangeGroupQuantifier {
            owner,
            place: place(),
            quantifier,
            text: text(),
        },
    ]
}

pub fn convert_to_group(place: &[u32], count: u32, sort: u32) -> Call {
    Call::ConvertToGroup {
        owner: OWNER as u32,
        place: place.to_vec(),
        count,
        sort,
    }
}

/// Changes 4 and 7.
pub fn plain_calls(place: &[u32]) -> [Call; 2] {
    let (owner, place) = (OWNER as u32, place.to_vec());
    [
        Call::RemoveElement {
            owner,
            place: place.clone(),
        },
        Call::FlattenGroup { owner, place },
    ]
}
