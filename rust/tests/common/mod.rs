//! What tests share.

use formstore::{Kind, Quantifier, Store};

/// A finish list of one finisher: race (finisher*), finisher (bib,club,time?). The race has serial 1, the finisher 2,
/// then come bib, club and time, each with its text.
pub fn finish_list() -> Store {
    let mut store = Store::fresh();
    for (name, kind) in [
        ("race", Kind::Complex),
        ("finisher", Kind::Complex),
        ("bib", Kind::Pcdata),
        ("time", Kind::Pcdata),
        ("club", Kind::Pcdata),
    ] {
        assert_eq!(store.create_definition(name.as_bytes(), kind), Ok(()));
    }
    for (owner, place, definition, quantifier) in [
        (0, 0, 1, Quantifier::Star),
        (1, 0, 2, Quantifier::None),
        (1, 1, 4, Quantifier::None),
        (1, 2, 3, Quantifier::Qmark),
    ] {
        let inserted = store.insert_element(owner, &[place], definition, quantifier, b"-");
        assert_eq!(inserted, Ok(()));
    }
    assert_eq!(store.add_document(0, b""), Ok(()));
    assert_eq!(store.add_element(1, 0, 1, b"7"), Ok(()));
    assert_eq!(store.add_element(2, 2, 3, b"19:04"), Ok(()));
    store
}
