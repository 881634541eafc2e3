//! Paper 01's examples: P1 to P12, the program clubform, the list to run, the
//! list of what is plausible and false, and the source's own examples.

use second::layout::encode;
use second::model::Language;
use second::store::{
    Attribute, AttributeSort, Definition, Kind, Particle, Quantifier, Store, Term,
};
use second::testing::notation::{model, store};
use second::testing::play::{self, Play};
use second::*;

const A: usize = 1;
const B: usize = 2;
const C: usize = 3;
const X: u32 = 4;
const NONE: u32 = 0;
const QMARK: u32 = 1;
const STAR: u32 = 2;
const PLUS: u32 = 3;
const LIST: u32 = 1;
const CHOICE: u32 = 2;

fn built(model: &str, words: &[&str]) -> Play {
    let bytes = encode(&store(model, words));
    assert_eq!(check(&bytes), 0);
    Play { bytes }
}

fn fresh_play() -> Play {
    Play { bytes: fresh() }
}

#[test]
fn p1_p2_language() {
    let language = Language::of(&model("(a?,(b|c)*)"));
    assert!(language.accepts(&[A, B, C]));
    assert!(language.accepts(&[]));
    assert!(!language.accepts(&[B, A]));
}

#[test]
fn p3_filling() {
    let mut play = built("((a|b),c?)", &[]);
    play.accept(|s, o| add_document(s, 0, b"", o));
    assert_eq!(play.line("<m>"), "<m><a></a></m>");
}

#[test]
fn p4_p5_star_to_none() {
    let mut play = built("(a*)", &["aaa"]);
    play.accept(|s, o| change_quantifier(s, 0, &[1], NONE, b"-", o));
    assert_eq!(play.line("<m>"), "<m><a></a></m>");
    let rows = rows(&play.bytes).expect("it passes");
    assert_eq!(rows[1].serial, 2, "the first of the three stays");
    let mut play = built("(a*)", &[""]);
    play.accept(|s, o| change_quantifier(s, 0, &[1], NONE, b"-", o));
    assert_eq!(play.line("<m>"), "<m><a></a></m>");
}

#[test]
fn p6_off_spine() {
    let mut play = built("((a*,b)*)", &["aab"]);
    let number = play.call(|s, o| change_quantifier(s, 0, &[1, 1], QMARK, b"-", o));
    assert_eq!(number, 13);
}

#[test]
fn p7_round() {
    let mut play = fresh_play();
    play.accept(|s, o| create_definition(s, b"race", 2, o));
    play.accept(|s, o| create_definition(s, b"finisher", 2, o));
    play.accept(|s, o| create_definition(s, b"between", 2, o));
    play.accept(|s, o| insert_element(s, 0, &[0], 2, STAR, b"", o));
    play.accept(|s, o| insert_element(s, 2, &[0], 1, STAR, b"", o));
    let number = play.call(|s, o| insert_element(s, 1, &[0], 0, STAR, b"", o));
    assert_eq!(number, 11, "the circle has two steps");
}

#[test]
fn p8_p9_conversion() {
    let mut play = built("(a,b)", &["ab"]);
    let number = play.call(|s, o| convert_to_group(s, 0, &[1], 2, CHOICE, o));
    assert_eq!(number, 14);
    play.accept(|s, o| convert_to_group(s, 0, &[1], 1, CHOICE, o));
    assert_eq!(play.line("<!ELEMENT m"), "<!ELEMENT m ((a),b)>");
}

#[test]
fn p10_p11_p12_places() {
    let inserted = |place: &[u32]| {
        let mut play = built("(a,(b,c))", &[]);
        let number = play.call(|s, o| insert_element(s, 0, place, X, NONE, b"-", o));
        (number, play.line("<!ELEMENT m"))
    };
    assert_eq!(inserted(&[2, 0]), (0, "<!ELEMENT m (a,(x,b,c))>".into()));
    assert_eq!(inserted(&[2]), (0, "<!ELEMENT m (a,(b,c),x)>".into()));
    assert_eq!(inserted(&[2, 3]).0, 8);
    assert_eq!(inserted(&[]).0, 8);
    assert_eq!(inserted(&[1, 0]).0, 8);
    assert_eq!(inserted(&[2, 0, 0, 0, 0, 0]).0, 8);
}

#[test]
fn clubform() {
    let play = play::clubform();
    assert_eq!(play.bytes.len(), 508);
    assert_eq!(second::layout::u32_at(&play.bytes, 4), 9);
    let text = "<!ELEMENT race (finisher*)>
<!ELEMENT finisher (bib,club,time?)>
<!ELEMENT bib (#PCDATA)>
<!ELEMENT time (#PCDATA)>
<!ELEMENT club (#PCDATA)>
<race><finisher><bib>7</bib><club>none</club><time>19:04</time></finisher></race>
";
    assert_eq!(play.text(), text);
    let mut number = 99;
    assert_eq!(look_up(&play.bytes, 6, &mut number), b"19:04");
    assert_eq!(number, 0);
    assert_eq!(look_up(&play.bytes, 5, &mut number), b"");
    assert_eq!(number, 7);
}

#[test]
fn names_and_values_at_their_limits() {
    let mut play = fresh_play();
    play.accept(|s, o| create_definition(s, b"sixteen-letters_", 1, o));
    let number = play.call(|s, o| create_definition(s, b"seventeen-letters", 1, o));
    assert_eq!(number, 2);
    play.accept(|s, o| add_document(s, 0, &[b'v'; 32], o));
    assert_eq!(play.call(|s, o| add_document(s, 0, &[b'v'; 33], o)), 3);
    play.accept(|s, o| add_attribute(s, 0, b"sixteen-letters_", 2, &[b'~'; 32], o));
    let number = play.call(|s, o| add_attribute(s, 0, b"b", 2, &[b'~'; 33], o));
    assert_eq!(number, 3);
    assert_eq!(play.call(|s, o| set_text(s, 1, b"\x7f", o)), 3);
    play.accept(|s, o| set_text(s, 1, b"\x20\x7e", o));
}

#[test]
fn rows_at_the_ceiling() {
    let words = vec![""; 4095];
    let mut play = built("(a?)", &words);
    play.accept(|s, o| add_document(s, 1, b"", o));
    assert_eq!(play.call(|s, o| add_document(s, 1, b"", o)), 16);
    assert_eq!(play.call(|s, o| add_element(s, 1, 0, 1, b"", o)), 16);
    assert_eq!(play.call(|s, o| add_attribute(s, 0, b"n", 1, b"1", o)), 16);
    play.accept(|s, o| destroy_element(s, 4095, o));
    play.accept(|s, o| add_element(s, 1, 0, 1, b"", o));
    assert_eq!(rows(&play.bytes).expect("it passes").len(), 4096);
}

/// A change that takes and makes is judged on what it leaves.
#[test]
fn ceiling_after_a_cut() {
    let full = "a".repeat(4096 - 3);
    let mut play = built("(a*)", &["", "", &full]);
    assert_eq!(rows(&play.bytes).expect("it passes").len(), 4096);
    play.accept(|s, o| change_quantifier(s, 0, &[1], NONE, b"-", o));
    assert_eq!(rows(&play.bytes).expect("it passes").len(), 6);
}

#[test]
fn tables_at_the_ceiling() {
    let mut play = fresh_play();
    for number in 0..64 {
        let name = format!("n{number}");
        play.accept(|s, o| create_definition(s, name.as_bytes(), 2, o));
        play.accept(|s, o| add_attribute(s, number, b"a", 0, b"", o));
    }
    assert_eq!(play.call(|s, o| create_definition(s, b"more", 0, o)), 16);
    assert_eq!(play.call(|s, o| add_attribute(s, 0, b"b", 0, b"", o)), 16);
    for number in 0..256 {
        let (owner, member) = (number / 32, 32 + number % 32);
        play.accept(|s, o| insert_element(s, owner, &[0], member, STAR, b"", o));
    }
    let number = play.call(|s, o| insert_element(s, 10, &[0], 40, STAR, b"", o));
    assert_eq!(number, 16);
    let number = play.call(|s, o| convert_to_group(s, 0, &[1], 1, LIST, o));
    assert_eq!(number, 16);
}

#[test]
fn model_depth_at_the_ceiling() {
    let mut play = built("((((a))))", &[]);
    play.accept(|s, o| convert_to_group(s, 0, &[1], 1, LIST, o));
    assert_eq!(play.line("<!ELEMENT m"), "<!ELEMENT m (((((a)))))>");
    let number = play.call(|s, o| convert_to_group(s, 0, &[1, 1, 1, 1, 1], 1, LIST, o));
    assert_eq!(number, 16);
    play.accept(|s, o| change_quantifier(s, 0, &[1, 1, 1, 1, 1], PLUS, b"", o));
    assert_eq!(check(&encode(&store("((((((a))))))", &[]))), 1);
}

#[test]
fn serials_at_the_end() {
    let mut late = store("(a?)", &[""]);
    late.next_serial = u32::MAX - 1;
    let mut play = Play {
        bytes: encode(&late),
    };
    play.accept(|s, o| add_element(s, 1, 0, 1, b"", o));
    assert_eq!(play.call(|s, o| add_document(s, 1, b"", o)), 17);
    play.accept(|s, o| remove_element(s, 0, &[1], o));
    assert_eq!(second::layout::u32_at(&play.bytes, 4), u32::MAX);
}

/// The answers of the seven changes that make rows, on a store of documents
/// `m` without children.
fn answers_of_makers(words: &[&str], next_serial: u32) -> [u32; 7] {
    let mut built = store("(a?,(b)?)", words);
    built.next_serial = next_serial;
    built.form.attributes.push(Attribute {
        owner: 0,
        name: b"n".to_vec(),
        sort: AttributeSort::Implied,
        value: Vec::new(),
    });
    let play = || Play {
        bytes: encode(&built),
    };
    [
        play().call(|s, o| insert_element(s, 0, &[0], X, PLUS, b"-", o)),
        play().call(|s, o| change_quantifier(s, 0, &[1], PLUS, b"-", o)),
        play().call(|s, o| change_group_quantifier(s, 0, &[2], NONE, b"-", o)),
        play().call(|s, o| add_attribute(s, 0, b"r", 1, b"-", o)),
        play().call(|s, o| add_document(s, 0, b"", o)),
        play().call(|s, o| add_element(s, 1, 0, A as u32, b"", o)),
        play().call(|s, o| set_attribute(s, 1, 0, b"", o)),
    ]
}

#[test]
fn ceilings_and_serials_of_all_makers() {
    assert_eq!(answers_of_makers(&[""], 2), [0; 7]);
    assert_eq!(answers_of_makers(&[""], u32::MAX - 1), [0; 7]);
    assert_eq!(answers_of_makers(&[""], u32::MAX), [17; 7]);
    let full = vec![""; 4096];
    assert_eq!(answers_of_makers(&full, 5000), [16; 7]);
    assert_eq!(answers_of_makers(&full, u32::MAX), [16; 7]);
    let half = vec![""; 2048];
    assert_eq!(answers_of_makers(&half, 5000), [0; 7]);
    let over_half = vec![""; 2049];
    let wanted = [16, 16, 16, 16, 0, 0, 0];
    assert_eq!(answers_of_makers(&over_half, 5000), wanted);
}

#[test]
fn short_and_long_strings() {
    assert_eq!(fresh().len(), 40);
    assert_eq!(check(&fresh()), 0);
    assert_eq!(check(&fresh()[..39]), 1);
    assert_eq!(check(&[]), 1);
    assert_eq!(check(&[fresh(), vec![0]].concat()), 1);
    let mut number = 99;
    assert_eq!(look_up(&fresh()[..39], 1, &mut number), b"");
    assert_eq!(number, 1);
}

/// Each definition has the four behind it in its model, so the filling of the
/// first has over 2^50 rows. It must be refused, and at once.
#[test]
fn enormous_filling() {
    let mut store = Store::fresh();
    for index in 0..64usize {
        let members = index + 1..64.min(index + 5);
        let particle = |index| Particle {
            quantifier: Quantifier::None,
            term: Term::Element(index),
        };
        store.form.definitions.push(Definition {
            name: format!("n{index}").into_bytes(),
            kind: Kind::Complex,
            model: members.map(particle).collect(),
        });
    }
    let mut play = Play {
        bytes: encode(&store),
    };
    assert_eq!(check(&play.bytes), 0);
    assert_eq!(play.call(|s, o| add_document(s, 0, b"", o)), 16);
    play.accept(|s, o| add_document(s, 55, b"", o));
}

#[test]
fn lowest_refusal_in_forms() {
    let mut play = built("((a|b)*)", &["a"]);
    play.accept(|s, o| add_attribute(s, 1, b"n", 0, b"", o));
    // Change 3: a place in an EMPTY owner; texts that are not used; row 12 in a CHOICE.
    assert_eq!(
        play.call(|s, o| insert_element(s, 1, &[1], X, NONE, b"", o)),
        8
    );
    assert_eq!(
        play.call(|s, o| insert_element(s, 1, &[0], X, NONE, b"", o)),
        9
    );
    assert_eq!(
        play.call(|s, o| insert_element(s, 0, &[0], X, STAR, b"\n", o)),
        3
    );
    assert_eq!(
        play.call(|s, o| insert_element(s, 0, &[1, 0], X, NONE, b"", o)),
        12
    );
    assert_eq!(
        play.call(|s, o| insert_element(s, 0, &[1, 0], X, 4, b"", o)),
        4
    );
    // Change 9: the name is asked before the owner, but no owner has no names.
    assert_eq!(play.call(|s, o| add_attribute(s, 1, b"n", 0, b"v", o)), 5);
    assert_eq!(play.call(|s, o| add_attribute(s, 5, b"n", 0, b"v", o)), 6);
    assert_eq!(play.call(|s, o| add_attribute(s, 1, b"i", 0, b"v", o)), 12);
    assert_eq!(play.call(|s, o| add_attribute(s, 1, b"f", 2, b"", o)), 0);
}

#[test]
fn lowest_refusal_in_documents() {
    let mut play = built("((a|b)*)", &["a"]);
    play.accept(|s, o| add_attribute(s, 1, b"n", 0, b"", o));
    play.accept(|s, o| add_attribute(s, 1, b"f", 2, b"", o));
    // Change 12: the definition before the row, the row before the number.
    assert_eq!(play.call(|s, o| add_element(s, 9, 9, 5, b"", o)), 6);
    assert_eq!(play.call(|s, o| add_element(s, 9, 9, 2, b"", o)), 7);
    assert_eq!(play.call(|s, o| add_element(s, 2, 1, 2, b"", o)), 8);
    assert_eq!(play.call(|s, o| add_element(s, 2, 0, 2, b"", o)), 15);
    // Changes 14 and 15.
    assert_eq!(play.call(|s, o| set_attribute(s, 9, 2, b"", o)), 6);
    assert_eq!(play.call(|s, o| set_attribute(s, 9, 0, b"", o)), 7);
    assert_eq!(play.call(|s, o| set_attribute(s, 1, 0, b"", o)), 6);
    assert_eq!(play.call(|s, o| set_attribute(s, 2, 1, b"v", o)), 15);
    assert_eq!(play.call(|s, o| destroy_attribute_row(s, 2, 1, o)), 7);
}

#[test]
fn plausible_and_false() {
    // Inserting club after bib where bib is absent: it is child 0.
    let mut play = built("(a?,b)", &["b"]);
    play.accept(|s, o| insert_element(s, 0, &[1], X, NONE, b"-", o));
    assert_eq!(play.line("<m>"), "<m><x></x><b></b></m>");
    // Tree indices move after change 2.
    let mut play = built("(b,c)", &["bc"]);
    play.accept(|s, o| destroy_definition(s, A as u32, o));
    assert_eq!(play.line("<m>"), "<m><b></b><c></c></m>");
    // Dropping b from (a|b) while an instance has b.
    let mut play = built("((a|b))", &["b"]);
    assert_eq!(play.call(|s, o| remove_element(s, 0, &[1, 2], o)), 15);
    let mut play = built("((a|b)?)", &["b"]);
    play.accept(|s, o| remove_element(s, 0, &[1, 2], o));
    assert_eq!(play.line("<m>"), "<m></m>");
}
