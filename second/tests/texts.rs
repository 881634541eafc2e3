//! Texts that are read back in.

use second::layout::encode;
use second::print::text_of;
use second::random::history::{seed, Counts, Moment, Named, LONGEST};
use second::random::{documents, words};
use second::rng::Rng;
use second::store::Store;
use second::testing::play::clubform;
use second::testing::texts::{aimed, damaged, for_each_mutant, read_back, wanted, Judged};
use second::{check, fresh, print, read_text};

/// Reads the text into a buffer that is long enough: `<a></a>`, the shortest
/// part that gives two rows, has seven bytes.
fn read(text: &[u8]) -> Option<Vec<u8>> {
    let mut out = vec![0x5a; LONGEST.min(64 + 13 * text.len())];
    let answer = read_text(text, &mut out);
    let kept = &out[answer.length..];
    assert!(
        kept.iter().all(|&byte| byte == 0x5a),
        "it wrote past its length"
    );
    assert!([0, 19].contains(&answer.number), "{answer:?}");
    assert!(answer.number == 0 || answer.length == 0, "{answer:?}");
    out.truncate(answer.length);
    (answer.number == 0).then_some(out)
}

fn any_store(rng: &mut Rng) -> Store {
    match rng.below(40) {
        0 => documents::store(rng, 64, 64, 4096),
        1 => documents::crowded_store(rng),
        2 => words::random_store(rng),
        _ => documents::store(rng, 9, 8, 400),
    }
}

/// What was printed is read, and prints again; the store is the one that the
/// rules give, by the store that was printed and by the text.
#[test]
fn printed_texts() {
    let mut rng = Rng::new(seed());
    let (mut rows, mut same) = (0, 0);
    for _ in 0..3000 {
        let store = any_store(&mut rng);
        let text = text_of(&store);
        let bytes = read(&text).expect("a printed text is read");
        let back = read_back(&store);
        assert!(bytes == encode(&back));
        assert!(Some(&bytes) == wanted(&text).as_ref());
        assert_eq!(check(&bytes), 0);
        let mut out = vec![0; text.len()];
        assert_eq!(print(&bytes, &mut out).length, text.len());
        assert!(out == text, "it prints something else");
        assert!(read_back(&back) == back);
        rows += store.row_count();
        same += usize::from(back == store);
    }
    println!("{rows} rows, {same} stores as they were");
    assert!(rows > 20_000 && same > 0);
}

/// Every byte of small texts changed in eleven ways.
#[test]
fn one_byte_changed() {
    let mut rng = Rng::new(seed());
    let mut judged = Judged::default();
    for _ in 0..200 {
        let text = text_of(&documents::store(&mut rng, 5, 4, 24));
        for_each_mutant(&mut rng, &text, &mut |text| judged.judge(text, read(text)));
    }
    judged.print();
    assert!(judged.read > 5000 && judged.refused > 100_000);
}

/// Lines and parts of texts moved, dropped and doubled.
#[test]
fn damaged_texts() {
    let mut rng = Rng::new(seed());
    let mut judged = Judged::default();
    for _ in 0..20_000 {
        let text = text_of(&documents::store(&mut rng, 5, 4, 40));
        let worse = damaged(&mut rng, &text);
        judged.judge(&worse, read(&worse));
    }
    judged.print();
    assert!(judged.read > 500 && judged.refused > 10_000);
}

#[test]
fn ceilings() {
    for (what, at, over) in aimed::ceilings() {
        let mut judged = Judged::default();
        for text in [at.as_bytes(), over.as_bytes()] {
            judged.judge(text, read(text));
        }
        assert_eq!((judged.read, judged.refused), (1, 1), "{what}");
    }
}

#[test]
fn texts_that_no_store_prints() {
    let (good, refused) = aimed::refused();
    assert!(read(good.as_bytes()).is_some());
    for text in refused {
        assert_eq!(read(text.as_bytes()), None, "{text}");
        assert_eq!(wanted(text.as_bytes()), None, "{text}");
    }
    for text in aimed::hostile() {
        assert_eq!(read(&text), None, "{:?}..", &text[..40]);
    }
}

/// 19 stands before 18, and no refusal writes.
#[test]
fn buffers() {
    let text = clubform().text().into_bytes();
    let bytes = read(&text).expect("it was printed");
    for room in 0..bytes.len() {
        let mut out = vec![0x5a; room];
        assert_eq!(read_text(&text, &mut out).number, 18);
        assert_eq!(read_text(&text[1..], &mut out).number, 19);
        assert!(out.iter().all(|&byte| byte == 0x5a), "a refusal wrote");
    }
    let mut out = vec![0x5a; bytes.len()];
    assert_eq!(read_text(&text, &mut out).length, bytes.len());
    assert!(out == bytes);
}

/// The start of a text, up to any line, is a text of the lists so far.
#[test]
fn clubform_and_the_empty_text() {
    assert_eq!(read(b""), Some(fresh()));
    let play = clubform();
    let text = play.text();
    // The serials of clubform's rows are not in document order, but nothing else differs.
    let read_store = read(text.as_bytes()).expect("it was printed");
    assert_eq!(read_store.len(), play.bytes.len());
    assert_ne!(read_store, play.bytes);
    assert_eq!(read_store[4], 9);
    for end in 0..text.len() {
        let start = &text.as_bytes()[..end];
        assert_eq!(read(start), wanted(start), "{end} bytes");
    }
}

/// Histories that start at a text, with the book that the text gives.
#[test]
fn histories_from_texts() {
    let seed = seed();
    let mut counts = Counts::new();
    for number in 0..1000 {
        let seed = seed.wrapping_add(number);
        let _named = Named(seed);
        let mut rng = Rng::new(seed);
        let text = text_of(&any_store(&mut rng));
        let bytes = read(&text).expect("a printed text is read");
        let mut moment = Moment::at_text(&text, bytes);
        for _ in 0..12 {
            let call = moment.random_call(&mut rng);
            let answer = moment.step(&mut rng, &call);
            counts.note(&call, answer);
        }
        moment.each_serial_made_once();
    }
    counts.print();
    for change in 1..=16 {
        assert!(counts.accepted(change) >= 20, "change {change}");
    }
}
