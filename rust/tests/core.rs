//! What needs no allocation, as a box without `std` would use it: two buffers in turn, the functions and the reader. It
//! is run with and without `std`.

use formstore::*;

/// What an accepted call writes into `out`.
fn changed(out: &mut [u8], call: impl FnOnce(&mut [u8]) -> Result<usize, Refusal>) -> &[u8] {
    let length = call(out).expect("no change is refused");
    &out[..length]
}

#[test]
fn two_buffers_in_turn() {
    let (mut one, mut two) = ([0; 512], [0; 512]);
    let race = changed(&mut one, |out| {
        create_definition(&FRESH, b"race", Kind::Complex.into(), out)
    });
    let time = changed(&mut two, |out| {
        create_definition(race, b"time", Kind::Pcdata.into(), out)
    });
    let form = changed(&mut one, |out| {
        insert_element(time, 0, &[0], 1, Quantifier::Plus.into(), b"-", out)
    });
    let list = changed(&mut two, |out| add_document(form, 0, b"19:04", out));
    assert_eq!(check(list), Ok(()));
    assert_eq!(look_up(list, 3), Ok(&b"19:04"[..]));
    let reader = Reader::new(list).expect("it passes");
    let document = reader.documents().next().expect("a race");
    assert_eq!(
        document.children().next().and_then(|time| time.text()),
        Some("19:04")
    );
    let text = changed(&mut one, |out| print(list, out));
    assert!(text.starts_with(b"<!ELEMENT race (time+)>\n"));
    let mut back = [0; 512];
    assert_eq!(changed(&mut back, |out| read_text(text, out)), list);
    assert_eq!(
        destroy_element(list, 2, &mut [0; 512]),
        Err(Refusal::NoMatch)
    );
}
