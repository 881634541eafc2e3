//! Changes 1, 2 and 11 to 16 at the limits.

use crate::forms::{add_attribute, CODES};
use crate::*;
use second::testing::notation::NAMES;

fn create_definition(name: &[u8], kind: u32) -> Call {
    let name = name.to_vec();
    Call::CreateDefinition { name, kind }
}

pub fn add_document(definition: u32, text: &[u8]) -> Call {
    let text = text.to_vec();
    Call::AddDocument { definition, text }
}

fn add_element(parent: u32, child: u32, definition: u32, text: &[u8]) -> Call {
    Call::AddElement {
        parent,
        child,
        definition,
        text: text.to_vec(),
    }
}

fn destroy_element(element: u32) -> Call {
    Call::DestroyElement { element }
}

fn set_attribute(element: u32, attribute: u32, value: &[u8]) -> Call {
    Call::SetAttribute {
        element,
        attribute,
        value: value.to_vec(),
    }
}

fn destroy_attribute_row(element: u32, attribute: u32) -> Call {
    Call::DestroyAttributeRow { element, attribute }
}

fn set_text(element: u32, text: &[u8]) -> Call {
    let text = text.to_vec();
    Call::SetText { element, text }
}

/// Documents `m` without children; a call that makes a row, in each of the three ways.
fn makers(documents: usize, next_serial: u32) -> [u32; 3] {
    let bytes = childless("(a?)", documents, next_serial);
    [
        number(&add_document(0, b""), &bytes),
        number(&add_element(1, 0, 1, b""), &bytes),
        number(&set_attribute(1, 0, b""), &bytes),
    ]
}

#[test]
fn rows_at_the_ceiling_and_one_more() {
    assert_eq!(makers(4095, 4096), [0; 3]);
    assert_eq!(makers(4096, 4097), [16; 3]);
    assert_eq!(makers(4096, u32::MAX), [16; 3]);
}

/// At 4,096 rows, what makes none is accepted, and makes room.
#[test]
fn changes_of_a_full_store() {
    let mut store = with_attribute(notation::store("(a*)", &[&"a".repeat(4094)]));
    store.documents[0].attributes.push(AttributeRow {
        attribute: 0,
        serial: store.next_serial,
        value: Vec::new(),
    });
    store.next_serial += 1;
    let bytes = encode(&store);
    assert_eq!(store.row_count(), 4096);
    assert_eq!(number(&create_definition(b"more", 2), &bytes), 0);
    let unused = Call::DestroyDefinition { definition: 2 };
    assert_eq!(number(&unused, &bytes), 0);
    assert_eq!(number(&set_attribute(1, 0, &[b'v'; 32]), &bytes), 0);
    assert_eq!(number(&destroy_attribute_row(1, 0), &bytes), 0);
    assert_eq!(number(&destroy_element(1), &bytes), 0);
    for serial in [2, 2000, 4095] {
        let (answer, shorter) = change(&destroy_element(serial), &bytes);
        assert_eq!(answer, 0);
        for child in [0, 1000, 4093] {
            assert_eq!(number(&add_element(1, child, 1, b""), &bytes), 16);
            assert_eq!(number(&add_element(1, child, 1, b""), &shorter), 0);
        }
        assert_eq!(number(&add_element(1, 4094, 1, b""), &shorter), 8);
    }
}

#[test]
fn next_serials_at_the_end() {
    assert_eq!(makers(1, u32::MAX - 1), [0; 3]);
    assert_eq!(makers(1, u32::MAX), [17; 3]);
    // A filling of three rows.
    for (next_serial, wanted) in
        [(3, 0), (2, 17), (1, 17), (0, 17)].map(|(below, wanted)| (u32::MAX - below, wanted))
    {
        let mut store = notation::store("(a,b)", &[]);
        store.next_serial = next_serial;
        assert_eq!(number(&add_document(0, b""), &encode(&store)), wanted);
    }
    // What makes no row is accepted at the last serial.
    let mut store = notation::store("(a?)", &["a"]);
    store.next_serial = u32::MAX;
    let bytes = encode(&store);
    assert_eq!(number(&create_definition(b"more", 0), &bytes), 0);
    assert_eq!(number(&destroy_element(2), &bytes), 0);
    assert_eq!(number(&destroy_element(u32::MAX), &bytes), 7);
}

#[test]
fn filling_of_all_rows_and_one_more() {
    let mut store = nested_form(13, 12);
    assert_eq!(filling_rows(&store.form)[0], 4096);
    let (answer, full) = change(&add_document(0, b""), &encode(&store));
    assert_eq!(answer, 0);
    assert_eq!(number(&add_document(12, b""), &full), 16);
    let (_, one) = change(&add_document(12, b""), &encode(&store));
    assert_eq!(number(&add_document(0, b""), &one), 16);
    add_required(&mut store, 0, 1);
    assert_eq!(number(&add_document(0, b""), &encode(&store)), 16);
}

/// The deepest rows that there are: 64 elements in each other, and a text.
#[test]
fn deepest_filling() {
    let mut store = nested_form(64, 1);
    store.form.definitions[63].kind = Kind::Pcdata;
    let (answer, bytes) = change(&add_document(0, b"deep"), &encode(&store));
    assert_eq!(answer, 0);
    assert_eq!(number(&set_text(64, b"deeper"), &bytes), 0);
    assert_eq!(number(&set_text(65, b""), &bytes), 7);
    assert_eq!(number(&destroy_element(64), &bytes), 15);
    assert_eq!(number(&destroy_element(1), &bytes), 0);
    assert_eq!(number(&create_definition(b"more", 0), &bytes), 16);
}

/// Of over 2^60 rows, and of more than a number of 64 bits counts.
#[test]
fn fillings_too_large_to_make() {
    for (attributes, bits) in [(1, 60), (64, 64)] {
        let mut store = nested_form(64, 4);
        add_required(&mut store, 63, attributes);
        assert!(filling_rows(&store.form)[0] >> bits > 0);
        refused_at_once(&add_document(0, b""), &encode(&store));
        store.form.definitions[0].model.truncate(1);
        store.form.definitions[0].model[0].quantifier = Quantifier::Star;
        let (_, bytes) = change(&add_document(0, b""), &encode(&store));
        refused_at_once(&add_element(1, 0, 1, b""), &bytes);
    }
}

/// All bytes at the start and at the end of a name, and all lengths up to one more than a byte counts.
#[test]
fn names() {
    let store = encode(&notation::store("(a)", &[]));
    let letter = |byte: u8| byte.is_ascii_alphabetic() || byte == b'_';
    let check = |name: &[u8], good: bool| {
        for call in [create_definition(name, 0), add_attribute(name, 0, b"")] {
            let wanted = if good { 0 } else { 2 };
            assert_eq!(number(&call, &store), wanted, "{call:?}");
        }
    };
    for byte in 0..=255u8 {
        let later = letter(byte) || byte.is_ascii_digit() || byte == b'-' || byte == b'.';
        check(&[byte, b'z'], letter(byte));
        check(&[b'z', byte], later);
    }
    for length in 0..=257 {
        check(&vec![b'z'; length], (1..=16).contains(&length));
    }
    for reserved in ["xml", "XML", "xMl", "XmL9", "xmlTime", "xML-a.b_c0123456"] {
        check(reserved.as_bytes(), false);
    }
    for free in [
        "xm", "XM", "xmk", "xmK", "ymL", "xnl", "axml", "_xml", "x-ml", "mxl",
    ] {
        check(free.as_bytes(), true);
    }
    for (name, wanted) in [(b"a", 5), (b"m", 5), (b"A", 0)] {
        assert_eq!(number(&create_definition(name, 0), &store), wanted);
    }
}

#[test]
fn kinds() {
    let store = encode(&notation::store("(a)", &[]));
    for kind in CODES {
        let wanted = if kind <= 2 { 0 } else { 4 };
        assert_eq!(number(&create_definition(b"z", kind), &store), wanted);
    }
}

#[test]
fn values() {
    let mut store = with_attribute(notation::store("(a*)", &["a"]));
    store.form.definitions[1].kind = Kind::Pcdata;
    store.documents[0].content.clear();
    let (_, bytes) = change(&add_element(1, 0, 1, b"old"), &encode(&store));
    let serial = store.next_serial;
    judge_values(&bytes, |value| {
        vec![
            add_document(1, value),
            add_element(1, 1, 1, value),
            set_attribute(1, 0, value),
            set_text(serial, value),
        ]
    });
}

/// Every call of the documents with all small arguments, on words that no history grows.
#[test]
fn rounds_of_groups() {
    for (model, words) in [
        ("((a,b)*)", vec!["abab", "", "ababab"]),
        ("((a,b)+)", vec!["abab", "ab"]),
        ("((a?,b*)*,c)", vec!["bbabac", "aaac", "c"]),
        ("((a|b)*,c?)", vec!["abbac", "c", "bb"]),
        ("((a,(b|c)+)*)", vec!["abcbab", "acc"]),
        ("(((a?)*)*,x)", vec!["aax", "x"]),
    ] {
        let store = with_attribute(notation::store(model, &words));
        let bytes = encode(&store);
        for element in 0..=store.next_serial {
            number(&destroy_element(element), &bytes);
            number(&set_text(element, b"new"), &bytes);
            for attribute in 0..2 {
                number(&set_attribute(element, attribute, b"new"), &bytes);
                number(&destroy_attribute_row(element, attribute), &bytes);
            }
            for definition in 0..=NAMES.len() as u32 {
                for child in 0..8 {
                    number(&add_element(element, child, definition, b""), &bytes);
                }
            }
        }
    }
}
