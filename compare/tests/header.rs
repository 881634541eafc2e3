//! The header and the Rust crate say the same, and no store or text is longer than they say.

use compare::header;
use compare::worst::longest;
use formstore::{AttributeSort, Code, GroupSort, Kind, Quantifier, Refusal};
use second::layout::encode;
use second::store::MAX_ROWS;

fn named(name: &str) -> usize {
    header::number(&format!("FORMSTORE_{name}")) as usize
}

#[test]
fn sizes() {
    for (name, value) in [
        ("MAX_DEFINITIONS", formstore::MAX_DEFINITIONS),
        ("MAX_PARTICLES", formstore::MAX_PARTICLES),
        ("MAX_ATTRIBUTES", formstore::MAX_ATTRIBUTES),
        ("MAX_ROWS", formstore::MAX_ROWS),
        ("MAX_MODEL_DEPTH", formstore::MAX_MODEL_DEPTH),
        ("MAX_PLACE", formstore::MAX_PLACE),
        ("MAX_NAME", formstore::MAX_NAME),
        ("MAX_VALUE", formstore::MAX_VALUE),
        ("LONGEST", formstore::LONGEST),
        ("LONGEST_TEXT", formstore::LONGEST_TEXT),
        ("STACK", formstore::STACK),
        ("FRESH_LENGTH", formstore::FRESH.len()),
    ] {
        assert_eq!(named(name), value, "{name}");
    }
}

fn cases<C: Code>(sort: &str) {
    for case in C::ALL {
        let name = format!("{sort}{}", case.word().to_uppercase());
        assert_eq!(named(&name) as u32, (*case).into(), "{name}");
    }
}

#[test]
fn codes_and_refusals() {
    cases::<Kind>("KIND_");
    cases::<Quantifier>("QUANTIFIER_");
    cases::<GroupSort>("GROUP_");
    cases::<AttributeSort>("ATTRIBUTE_");
    for refusal in Refusal::ALL {
        let name = refusal.word().to_uppercase().replace(' ', "_");
        assert_eq!(named(&name) as u32, refusal.number(), "{name}");
    }
}

/// With commas between the thousands.
fn grouped(number: usize) -> String {
    match number {
        0..1000 => number.to_string(),
        _ => format!("{},{:03}", grouped(number / 1000), number % 1000),
    }
}

/// The figures of the documents are the header's.
#[test]
fn documents() {
    let readme = include_str!("../../README.md");
    let audit = include_str!("../../docs/AUDIT.md");
    for (document, name) in [
        (readme, "LONGEST"),
        (readme, "LONGEST_TEXT"),
        (readme, "STACK"),
        (audit, "STACK"),
    ] {
        let figure = grouped(named(name));
        assert!(document.contains(&figure), "{name} is {figure}");
    }
}

/// Twenty: the check, the look-up, printing, reading a text and the sixteen changes.
#[test]
fn calls() {
    let calls = header::calls();
    assert_eq!(calls.len(), 20, "{calls:?}");
}

/// The store at all ceilings is as long as a store gets, and its text nearly as long as the bound, which counts each
/// record as if it were of the longest sort.
#[test]
fn longest_store_and_text() {
    let bytes = encode(&longest(MAX_ROWS));
    assert_eq!(compare::check(&bytes), 0);
    assert_eq!(bytes.len(), formstore::LONGEST);
    let mut text = vec![0; formstore::LONGEST_TEXT];
    let answer = compare::print(&bytes, &mut text);
    assert_eq!(answer.number, 0);
    println!(
        "{} bytes of text; the bound is {}",
        answer.length,
        text.len()
    );
    assert!(answer.length > formstore::LONGEST_TEXT / 100 * 98);
    let (shorter, _) = text.split_at_mut(answer.length - 1);
    assert_eq!(compare::print(&bytes, shorter).number, 18);
}
