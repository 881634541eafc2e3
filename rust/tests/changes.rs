//! A story of all sixteen changes with the text after each.

use formstore::{AttributeSort, GroupSort, Kind, Quantifier, Refusal, Store};

fn text(store: &Store) -> String {
    String::from_utf8(store.print().expect("it passes")).expect("the text is ASCII")
}

#[test]
fn bytes_that_are_no_store_are_refused() {
    let mut bytes = Store::fresh().into_bytes();
    bytes.pop();
    assert_eq!(Store::from_bytes(bytes), Err(Refusal::BadStore));
    assert_eq!(Store::from_bytes(Vec::new()), Err(Refusal::BadStore));
}

/// The line that begins so, and the lines of documents.
fn lines(store: &Store, start: &str) -> String {
    let text = text(store);
    let wanted = |line: &&str| line.starts_with(start) || !line.starts_with("<!");
    text.lines().filter(wanted).collect::<Vec<_>>().join(" ")
}

type Change = fn(&mut Store) -> Result<(), Refusal>;

/// Each change with the model and the lists after it. Definition 0 is the relay, 1 to 3 its parts, 4 is the one that
/// goes.
const STORY: [(Change, &str); 18] = [
    (
        |s| s.insert_element(0, &[0], 1, Quantifier::None, b"a"),
        "<!ELEMENT relay (leg)>",
    ),
    (
        |s| s.add_document(0, b"7:10"),
        "<!ELEMENT relay (leg)> <relay><leg>7:10</leg></relay>",
    ),
    (
        |s| s.insert_element(0, &[1], 2, Quantifier::Plus, b"b"),
        "<!ELEMENT relay (leg,team+)> <relay><leg>7:10</leg><team>b</team></relay>",
    ),
    (
        |s| s.change_quantifier(0, &[1], Quantifier::Star, b""),
        "<!ELEMENT relay (leg*,team+)> <relay><leg>7:10</leg><team>b</team></relay>",
    ),
    (
        |s| s.add_element(1, 1, 1, b"7:20"),
        "<!ELEMENT relay (leg*,team+)> <relay><leg>7:10</leg><leg>7:20</leg><team>b</team></relay>",
    ),
    (
        |s| s.destroy_element(2),
        "<!ELEMENT relay (leg*,team+)> <relay><leg>7:20</leg><team>b</team></relay>",
    ),
    (
        |s| s.remove_element(0, &[2]),
        "<!ELEMENT relay (leg*)> <relay><leg>7:20</leg></relay>",
    ),
    (
        |s| s.insert_element(0, &[1], 3, Quantifier::Qmark, b""),
        "<!ELEMENT relay (leg*,note?)> <relay><leg>7:20</leg></relay>",
    ),
    (
        |s| s.convert_to_group(0, &[2], 1, GroupSort::Choice),
        "<!ELEMENT relay (leg*,(note?))> <relay><leg>7:20</leg></relay>",
    ),
    (
        |s| s.flatten_group(0, &[2]),
        "<!ELEMENT relay (leg*,note?)> <relay><leg>7:20</leg></relay>",
    ),
    (
        |s| s.convert_to_group(0, &[1], 2, GroupSort::List),
        "<!ELEMENT relay ((leg*,note?))> <relay><leg>7:20</leg></relay>",
    ),
    (
        |s| s.change_group_quantifier(0, &[1], Quantifier::Plus, b"c"),
        "<!ELEMENT relay ((leg*,note?)+)> <relay><leg>7:20</leg></relay>",
    ),
    (
        |s| s.add_attribute(1, b"runner", AttributeSort::Required, b"Ann"),
        "<!ELEMENT relay ((leg*,note?)+)> <relay><leg runner=\"Ann\">7:20</leg></relay>",
    ),
    (
        |s| s.add_attribute(1, b"sex", AttributeSort::Implied, b""),
        "<!ELEMENT relay ((leg*,note?)+)> <relay><leg runner=\"Ann\">7:20</leg></relay>",
    ),
    (
        |s| s.set_attribute(6, 1, b"f"),
        "<!ELEMENT relay ((leg*,note?)+)> <relay><leg runner=\"Ann\" sex=\"f\">7:20</leg></relay>",
    ),
    (
        |s| s.destroy_attribute_row(6, 1),
        "<!ELEMENT relay ((leg*,note?)+)> <relay><leg runner=\"Ann\">7:20</leg></relay>",
    ),
    (
        |s| s.destroy_attribute(0),
        "<!ELEMENT relay ((leg*,note?)+)> <relay><leg>7:20</leg></relay>",
    ),
    (
        |s| s.set_text(6, b"7:21"),
        "<!ELEMENT relay ((leg*,note?)+)> <relay><leg>7:21</leg></relay>",
    ),
];

#[test]
fn all_sixteen_changes() {
    let mut store = Store::fresh();
    for (name, kind) in [
        ("relay", Kind::Complex),
        ("leg", Kind::Pcdata),
        ("team", Kind::Pcdata),
        ("note", Kind::Pcdata),
        ("spare", Kind::Empty),
    ] {
        assert_eq!(store.create_definition(name.as_bytes(), kind), Ok(()));
    }
    assert_eq!(store.destroy_definition(4), Ok(()));
    for (number, (change, wanted)) in STORY.iter().enumerate() {
        assert_eq!(change(&mut store), Ok(()), "step {number}");
        assert_eq!(lines(&store, "<!ELEMENT relay"), *wanted, "step {number}");
    }
}

/// The change adds more than the room that is tried first.
#[test]
fn a_long_filling_finds_room() {
    let mut store = Store::fresh();
    assert_eq!(store.create_definition(b"all", Kind::Complex), Ok(()));
    for index in 1..40 {
        let name = format!("part{index}");
        assert_eq!(
            store.create_definition(name.as_bytes(), Kind::Pcdata),
            Ok(())
        );
        assert_eq!(
            store.insert_element(0, &[0], index, Quantifier::None, b"-"),
            Ok(())
        );
    }
    for _ in 0..50 {
        assert_eq!(store.add_document(0, &[b'"'; 32]), Ok(()));
    }
    assert_eq!(store.reader().rows().count(), 50 * 79);
    assert!(text(&store).len() > store.as_bytes().len() * 2);
}
