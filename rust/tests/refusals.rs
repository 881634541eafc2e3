//! Each refusal, met through the functions of the crate: it has its number, and the output buffer keeps its bytes.

mod common;

use common::finish_list;
use formstore::*;

type Call = fn(&[u8], &mut [u8]) -> Result<usize, Refusal>;

/// On the finish list.
const REFUSED: [(Call, Refusal); 15] = [
    (|_, out| destroy_definition(b"", 0, out), Refusal::BadStore),
    (
        |store, out| create_definition(store, b"9", 0, out),
        Refusal::BadName,
    ),
    (
        |store, out| set_text(store, 3, &[b'v'; 33], out),
        Refusal::BadValue,
    ),
    (
        |store, out| create_definition(store, b"team", 3, out),
        Refusal::BadCode,
    ),
    (
        |store, out| create_definition(store, b"club", 0, out),
        Refusal::Taken,
    ),
    (
        |store, out| add_attribute(store, 5, b"sex", 0, b"", out),
        Refusal::Unknown,
    ),
    (|store, out| destroy_element(store, 4, out), Refusal::NoRow),
    (
        |store, out| remove_element(store, 1, &[4], out),
        Refusal::NoPlace,
    ),
    (
        |store, out| insert_element(store, 2, &[0], 3, 1, b"", out),
        Refusal::WrongKind,
    ),
    (
        |store, out| destroy_definition(store, 2, out),
        Refusal::InUse,
    ),
    (
        |store, out| insert_element(store, 1, &[0], 0, 1, b"", out),
        Refusal::Round,
    ),
    (
        |store, out| change_quantifier(store, 1, &[3], 0, b"", out),
        Refusal::Default,
    ),
    (
        |store, out| convert_to_group(store, 1, &[1], 2, 2, out),
        Refusal::Grouping,
    ),
    (
        |store, out| destroy_element(store, 3, out),
        Refusal::NoMatch,
    ),
    (
        |store, _| set_text(store, 3, b"8", &mut []),
        Refusal::Buffer,
    ),
];

/// Runs the call and sees that its buffer is as it was.
fn refused(store: &[u8], call: Call) -> Result<usize, Refusal> {
    let mut out = vec![0xEE; LONGEST];
    let answer = call(store, &mut out);
    assert!(
        out.iter().all(|&byte| byte == 0xEE),
        "{answer:?} changed the buffer"
    );
    answer
}

#[test]
fn each_has_its_number_and_leaves_the_buffer() {
    let store = finish_list();
    for (call, wanted) in REFUSED {
        assert_eq!(refused(store.as_bytes(), call), Err(wanted));
    }
}

/// In a CHOICE of one member the place is off the spine.
#[test]
fn off_the_spine() {
    let mut store = finish_list();
    assert_eq!(
        store.convert_to_group(1, &[3], 1, GroupSort::Choice),
        Ok(())
    );
    let call: Call = |store, out| change_quantifier(store, 1, &[3, 1], 0, b"-", out);
    assert_eq!(refused(store.as_bytes(), call), Err(Refusal::OffSpine));
}

#[test]
fn ceiling() {
    let mut store = Store::fresh();
    for index in 0..64 {
        assert_eq!(
            store.create_definition(format!("d{index}").as_bytes(), Kind::Empty),
            Ok(())
        );
    }
    let call: Call = |store, out| create_definition(store, b"more", 0, out);
    assert_eq!(refused(store.as_bytes(), call), Err(Refusal::Ceiling));
}

#[test]
fn serials() {
    let mut bytes = finish_list().into_bytes();
    bytes[4..8].copy_from_slice(&u32::MAX.to_le_bytes());
    let call: Call = |store, out| add_document(store, 0, b"", out);
    assert_eq!(refused(&bytes, call), Err(Refusal::Serials));
}

#[test]
fn reading_out() {
    let store = finish_list();
    let mut out = [0xEE; 100];
    assert_eq!(print(store.as_bytes(), &mut out), Err(Refusal::Buffer));
    assert_eq!(print(&[], &mut out), Err(Refusal::BadStore));
    assert_eq!(out, [0xEE; 100]);
    assert_eq!(look_up(&[], 1), Err(Refusal::BadStore));
    assert_eq!(look_up(store.as_bytes(), 9), Err(Refusal::NoRow));
    assert_eq!(Reader::new(&[]).map(|_| ()), Err(Refusal::BadStore));
}

/// The text is judged before the buffer.
#[test]
fn texts() {
    let text = finish_list().print().expect("it passes");
    let mut out = [0xEE; 100];
    assert_eq!(read_text(&text, &mut out), Err(Refusal::Buffer));
    assert_eq!(read_text(&text[1..], &mut out), Err(Refusal::BadText));
    assert_eq!(read_text(&text[1..], &mut []), Err(Refusal::BadText));
    assert_eq!(out, [0xEE; 100]);
}

#[test]
fn numbers_and_words() {
    for (index, refusal) in Refusal::ALL.into_iter().enumerate() {
        assert_eq!(refusal.number() as usize, index + 1);
    }
    let shown = Refusal::OffSpine.to_string();
    assert!(
        shown.starts_with("refused (13, off spine): an instance exists"),
        "{shown}"
    );
}

#[test]
fn answers_of_no_table_do_not_panic() {
    let answer = raw::Answer {
        number: 20,
        length: 0,
    };
    assert_eq!(answer.result(), Err(Refusal::BadStore));
    let (start, length) = (usize::MAX, usize::MAX);
    assert_eq!(
        raw::Found {
            number: 0,
            start,
            length
        }
        .part(b"store"),
        Ok(&b""[..])
    );
}
