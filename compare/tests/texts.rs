//! Texts read back in by the library: what was printed, what is near it, and what is made to cost much.

use compare::texts::read;
use second::layout::encode;
use second::print::text_of;
use second::random::documents;
use second::random::history::{seed, LONGEST};
use second::rng::Rng;
use second::testing::play::clubform;
use second::testing::texts::{aimed, damaged, for_each_mutant, read_back, Judged};
use std::time::{Duration, Instant};

fn printed(store: &[u8]) -> Vec<u8> {
    let mut text = vec![0; formstore::LONGEST_TEXT];
    let answer = compare::print(store, &mut text);
    assert_eq!(answer.number, 0);
    text.truncate(answer.length);
    text
}

/// What the library prints it reads, and then prints again; the store is what the rules make of the one that was
/// printed.
#[test]
fn printed_texts() {
    let mut rng = Rng::new(seed());
    for number in 0..1500 {
        let store = match number % 40 {
            0 => documents::store(&mut rng, 64, 64, 4096),
            1 => documents::crowded_store(&mut rng),
            _ => documents::store(&mut rng, 9, 8, 400),
        };
        let text = printed(&encode(&store));
        let back = read(&mut rng, &text).expect("a printed text is read");
        assert!(back == encode(&read_back(&store)));
        assert_eq!(compare::check(&back), 0);
        assert!(printed(&back) == text, "it prints something else");
    }
}

/// Every byte of small texts changed in eleven ways; lines and parts moved, dropped and doubled.
#[test]
fn texts_near_printed_ones() {
    let rng = &mut Rng::new(seed());
    let mut judged = Judged::default();
    for _ in 0..60 {
        let text = text_of(&documents::store(rng, 5, 4, 24));
        for_each_mutant(&mut rng.clone(), &text, &mut |text| {
            judged.judge(text, read(rng, text))
        });
        for _ in 0..100 {
            let worse = damaged(rng, &text);
            judged.judge(&worse, read(rng, &worse));
        }
    }
    judged.print();
    assert!(judged.read > 1000 && judged.refused > 30_000);
}

#[test]
fn ceilings_and_one_more() {
    let rng = &mut Rng::new(1);
    for (what, at, over) in aimed::ceilings() {
        assert!(read(rng, at.as_bytes()).is_some(), "{what}");
        assert!(read(rng, over.as_bytes()).is_none(), "{what}");
    }
}

#[test]
fn texts_that_no_store_prints() {
    let rng = &mut Rng::new(1);
    let (good, refused) = aimed::refused();
    assert!(read(rng, good.as_bytes()).is_some());
    for text in refused {
        assert!(read(rng, text.as_bytes()).is_none(), "{text}");
    }
}

/// Lists of every length up to forty finishers, and lists of forty with a fault in each of them in turn: the library
/// judges rows in batches, and no row may be passed over or judged twice where one ends.
#[test]
fn a_fault_at_every_finisher() {
    const FINISHER: &str = "<finisher><bib>7</bib><time>19:04</time></finisher>";
    const FAULTS: [&str; 5] = [
        "<finisher><time>19:04</time></finisher>",
        "<finisher><bib>7</bib><bib>7</bib></finisher>",
        "<finisher><bib>7</bib><time>19:04</time>",
        "<finisher><bib>7</bib><time>19:04</bib></finisher>",
        "<race></race>",
    ];
    let declared = "<!ELEMENT race (finisher*)>\n<!ELEMENT finisher (bib,time?)>\n<!ELEMENT bib (#PCDATA)>\n<!ELEMENT time (#PCDATA)>\n";
    let list = |finishers: &[&str]| format!("{declared}<race>{}</race>\n", finishers.concat());
    let rng = &mut Rng::new(1);
    for count in 0..=40 {
        let text = list(&vec![FINISHER; count]);
        let store = read(rng, text.as_bytes()).expect("a list is read");
        assert_eq!(store.len(), 40 + 4 * 20 + 3 * 4 + (1 + 5 * count) * 44);
        assert!(printed(&store) == text.as_bytes());
    }
    for place in 0..40 {
        for fault in FAULTS {
            let mut finishers = [FINISHER; 40];
            finishers[place] = fault;
            let text = list(&finishers);
            assert!(read(rng, text.as_bytes()).is_none(), "{fault} at {place}");
        }
    }
}

/// The library alone answers within a second.
#[test]
fn hostile_texts() {
    let mut out = vec![0xEE; LONGEST];
    for text in aimed::hostile() {
        let start = Instant::now();
        let answer = compare::read_text(&text, &mut out);
        let time = start.elapsed();
        let shown = String::from_utf8_lossy(&text[..60]);
        assert!(time < Duration::from_secs(1), "{shown}.. takes {time:?}");
        assert_eq!((answer.number, answer.length), (19, 0), "{shown}..");
        assert!(out.iter().all(|&byte| byte == 0xEE), "{shown}.. is written");
    }
}

/// The start of a text up to every byte, into buffers of every length.
#[test]
fn starts_and_buffers() {
    let rng = &mut Rng::new(1);
    let text = clubform().text().into_bytes();
    let mut judged = Judged::default();
    for end in 0..=text.len() {
        judged.judge(&text[..end], read(rng, &text[..end]));
    }
    // The empty text, the whole form and the whole text: the first model has a name of the second line, and so on.
    assert_eq!(judged.read, 3);
    let length = clubform().bytes.len();
    for room in 0..length + 3 {
        let (answer, _) = compare::agreed_text(&text, &vec![0xEE; room]);
        let number = if room < length { 18 } else { 0 };
        assert_eq!(answer.number, number, "into {room} bytes");
    }
}
