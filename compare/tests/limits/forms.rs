//! Changes 3 to 10 at the limits.

use crate::documents::add_document;
use crate::*;
use compare::hostile::Argument;
use second::random::calls::places_of;
use second::random::words::{convert_to_group, plain_calls, quantifier_calls};

/// The definition `x` of `notation`, which change 3 inserts.
const INSERTED: usize = 4;

/// Codes, good and bad, and what a byte or two would cut to good ones.
pub const CODES: [u32; 11] = [0, 1, 2, 3, 4, 255, 256, 257, 65_536, 1 << 31, u32::MAX];

pub fn add_attribute(name: &[u8], sort: u32, value: &[u8]) -> Call {
    Call::AddAttribute {
        owner: 0,
        name: name.to_vec(),
        sort,
        value: value.to_vec(),
    }
}

/// Changes 3 to 8 at a place; those of them that take a quantifier make it QMARK.
fn calls_at(place: &[u32]) -> Vec<Call> {
    let mut calls = quantifier_calls(place, INSERTED, 1, "new").to_vec();
    calls.push(convert_to_group(place, 1, 1));
    calls.extend(plain_calls(place));
    calls
}

/// The numbers that changes 3, 5 and 8 answer.
fn quantified(place: &[u32], quantifier: u32, text: &str, store: &[u8]) -> [u32; 3] {
    quantifier_calls(place, INSERTED, quantifier, text).map(|call| number(&call, store))
}

/// All of up to five numbers, in a model as deep as they go.
#[test]
fn places() {
    let store = notation::store("(a,(b,(((c)))))", &["abc"]);
    let bytes = encode(&store);
    let (gaps, members) = places_of(&store.form.definitions[0].model);
    for length in 0..=5 {
        for code in 0..1 << (2 * length) {
            let place: Vec<u32> = (0..length).map(|at| code >> (2 * at) & 3).collect();
            for call in calls_at(&place) {
                let answer = number(&call, &bytes);
                match call.number() {
                    3 => assert_eq!(answer == 0, gaps.contains(&place), "{call:?}"),
                    6 => assert_eq!(answer != 8, members.contains(&place), "{call:?}"),
                    _ => assert!(answer == 8 || members.contains(&place), "{call:?}"),
                }
            }
        }
    }
    for place in [[2, 2, 1, 1, 1, 0], [2, 2, 1, 1, 1, 1], [1; 6]] {
        for call in calls_at(&place) {
            assert_eq!(number(&call, &bytes), 8, "{call:?}");
        }
    }
}

/// Numbers that a byte or two would cut to good ones, and places that are as long.
#[test]
fn places_of_huge_numbers() {
    let store = notation::store("(a,(b,(((c)))))", &[]);
    let bytes = encode(&store);
    let (gaps, members) = places_of(&store.form.definitions[0].model);
    for place in gaps.into_iter().chain(members) {
        for high in [256, 65_536, 1 << 31] {
            for at in 0..place.len() {
                let mut other = place.clone();
                other[at] += high;
                for call in calls_at(&other) {
                    assert_eq!(number(&call, &bytes), 8, "{call:?}");
                }
            }
        }
        let mut longer = place.clone();
        longer.resize(256 + place.len(), 1);
        for call in calls_at(&longer) {
            assert_eq!(number(&call, &bytes), 8, "{call:?}");
        }
    }
}

#[test]
fn counts_of_members() {
    let bytes = encode(&notation::store("(a,(b|c),x?)", &["ab"]));
    for (place, sort, room) in [(vec![1], 1, 3), (vec![3], 1, 1), (vec![2, 1], 2, 2)] {
        for count in CODES.into_iter().chain([5, 258, 65_537, (1 << 31) + 1]) {
            let wanted = if (1..=room).contains(&count) { 0 } else { 8 };
            let call = convert_to_group(&place, count, sort);
            assert_eq!(number(&call, &bytes), wanted, "{call:?}");
        }
    }
}

#[test]
fn codes_and_indices() {
    let store = with_attribute(notation::store("(a,(b),c)", &[]));
    let bytes = encode(&store);
    let good = |good: bool, bad: u32| if good { 0 } else { bad };
    for code in CODES {
        let [insert, element, _] = quantified(&[1], code, "new", &bytes);
        let [_, _, group] = quantified(&[2], code, "new", &bytes);
        assert_eq!([insert, element, group], [good(code <= 3, 4); 3]);
        let convert = convert_to_group(&[1], 1, code);
        assert_eq!(number(&convert, &bytes), good(matches!(code, 1 | 2), 4));
        let value: &[u8] = if code == 0 { b"" } else { b"fill" };
        let add = add_attribute(b"new", code, value);
        assert_eq!(number(&add, &bytes), good(code <= 2, 4));
        let destroy = Call::DestroyAttribute { attribute: code };
        assert_eq!(number(&destroy, &bytes), good(code == 0, 6));
        for mut call in calls_at(&[1]) {
            for lent in compare::changes::arguments(&mut call) {
                if let Argument::Definition(index) = lent {
                    *index = code.max(5);
                }
            }
            assert_eq!(number(&call, &bytes), 6, "{call:?}");
        }
    }
}

#[test]
fn values() {
    let bytes = encode(&notation::store("(a,(b),c)", &[]));
    judge_values(&bytes, |value| {
        let [insert, _, group] = quantifier_calls(&[2], INSERTED, 1, "");
        let [_, element, _] = quantifier_calls(&[1], INSERTED, 1, "");
        let mut calls = vec![insert, element, group, add_attribute(b"new", 2, b"")];
        for call in &mut calls {
            for lent in compare::changes::arguments(call) {
                if let Argument::Value(own) = lent {
                    *own = value.to_vec();
                }
            }
        }
        calls
    });
}

/// All in one model, so that its count passes a byte: 51 elements in four groups each, and one more.
#[test]
fn particles_at_the_ceiling_and_one_more() {
    let mut store = nested_form(54, 0);
    let model = (1..=51).map(|index| group(group(group(group(member(index))))));
    store.form.definitions[0].model = model.collect();
    let [insert, ..] = quantifier_calls(&[51], 52, 0, "new");
    let (answer, full) = change(&insert, &encode(&store));
    assert_eq!(answer, 0);
    let [insert, ..] = quantifier_calls(&[0], 53, 0, "new");
    assert_eq!(number(&insert, &full), 16);
    assert_eq!(number(&convert_to_group(&[52], 1, 1), &full), 16);
    let [remove, _] = plain_calls(&[52]);
    assert_eq!(number(&remove, &full), 0);
    let [_, flatten] = plain_calls(&[1]);
    assert_eq!(number(&flatten, &full), 0);
}

#[test]
fn depth_at_the_ceiling_and_one_more() {
    let bytes = encode(&notation::store("(a,(b,((c,(x)))))", &[]));
    for (place, wanted) in [
        (vec![1], 0),
        (vec![2, 1], 0),
        (vec![2, 2, 1, 1], 0),
        (vec![2, 2, 1, 2, 1], 16),
        (vec![2, 2, 1, 2], 16),
        (vec![2, 2], 16),
        (vec![2], 16),
    ] {
        let call = convert_to_group(&place, 1, 1);
        assert_eq!(number(&call, &bytes), wanted, "{call:?}");
    }
}

#[test]
fn attributes_at_the_ceiling_and_one_more() {
    for (count, wanted) in [(63, 0), (64, 16)] {
        let mut store = notation::store("(a)", &["a"]);
        add_required(&mut store, 1, count);
        store.documents.clear();
        let bytes = encode(&store);
        for (sort, value) in [(0, ""), (1, "fill"), (2, "")] {
            let call = add_attribute(b"new", sort, value.as_bytes());
            assert_eq!(number(&call, &bytes), wanted, "{call:?}");
        }
        let last = Call::DestroyAttribute {
            attribute: count as u32 - 1,
        };
        assert_eq!(number(&last, &bytes), 0);
    }
}

/// So many documents `m` without children; changes 3, 5, 8 and 9 make a row in each.
fn makers(documents: usize, next_serial: u32) -> [u32; 4] {
    let bytes = childless("(a?,(b)?)", documents, next_serial);
    let [insert, element, _] = quantified(&[1], 0, "new", &bytes);
    let [_, _, group] = quantified(&[2], 3, "new", &bytes);
    let attribute = number(&add_attribute(b"new", 1, b"fill"), &bytes);
    [insert, element, group, attribute]
}

#[test]
fn rows_at_the_ceiling_and_one_more() {
    assert_eq!(makers(2048, 4097), [0; 4]);
    assert_eq!(makers(2049, 4097), [16; 4]);
    assert_eq!(makers(4096, u32::MAX), [16; 4]);
}

#[test]
fn next_serials_at_the_end() {
    assert_eq!(makers(7, u32::MAX - 7), [0; 4]);
    assert_eq!(makers(7, u32::MAX - 6), [17; 4]);
    assert_eq!(makers(7, u32::MAX), [17; 4]);
}

/// The rows that are left count: STAR to NONE takes and makes.
#[test]
fn cut_and_gain_of_a_full_store() {
    for (first, wanted) in [("aa", 0), ("aaaa", 0), ("", 16)] {
        let mut words = vec![first, ""];
        let rest = 4096 - (first.len() + 2);
        words.resize(2 + rest / 2, "a");
        words.resize(2 + rest / 2 + rest % 2, "");
        let store = notation::store("(a*)", &words);
        assert_eq!(store.row_count(), 4096);
        let [_, element, _] = quantified(&[1], 0, "new", &encode(&store));
        assert_eq!(element, wanted, "{first}");
    }
}

/// Of over 2^56 rows, where an instance exists; the element and the group are QMARK before.
#[test]
fn fillings_too_large_to_make() {
    let mut store = nested_form(64, 4);
    assert!(filling_rows(&store.form)[0] >> 56 > 0);
    let models = [vec![], vec![member(1)], vec![group(member(1))]];
    for (at, model) in models.into_iter().enumerate() {
        let place = [model.len() as u32];
        store.form.definitions[0].model = model;
        for particle in &mut store.form.definitions[0].model {
            particle.quantifier = Quantifier::Qmark;
        }
        let call = quantifier_calls(&place, 1, 0, "new")[at].clone();
        assert_eq!(number(&call, &encode(&store)), 0, "{call:?}");
        let root = add_document(0, b"");
        let (answer, bytes) = change(&root, &encode(&store));
        assert_eq!(answer, 0);
        refused_at_once(&call, &bytes);
    }
}
