//! One store that passes, and for each rule of the check a change that breaks
//! it, and as far as possible no other.

use second::layout::{encode, ATTRIBUTE, DEFINITION, HEADER, PARTICLE, ROW};
use second::store::*;
use second::{check, fresh};

const M: usize = 0;
const A: usize = 1;
const B: usize = 2;
const C: usize = 3;

/// The bodies of the store below: 4 definitions, 6 particles, 4 attributes.
const PARTICLES: usize = HEADER + 4 * DEFINITION;
const ATTRIBUTES: usize = PARTICLES + 6 * PARTICLE;
const ROWS: usize = ATTRIBUTES + 4 * ATTRIBUTE;

fn particle(quantifier: Quantifier, term: Term) -> Particle {
    Particle { quantifier, term }
}

fn attribute(owner: usize, name: &str, sort: AttributeSort, value: &str) -> Attribute {
    let (name, value) = (name.as_bytes().to_vec(), value.as_bytes().to_vec());
    Attribute {
        owner,
        name,
        sort,
        value,
    }
}

fn element(definition: usize, serial: u32, content: Vec<Node>) -> Element {
    Element {
        definition,
        serial,
        attributes: Vec::new(),
        content,
    }
}

fn row(attribute: usize, serial: u32, value: &str) -> AttributeRow {
    let value = value.as_bytes().to_vec();
    AttributeRow {
        attribute,
        serial,
        value,
    }
}

fn text(serial: u32, value: &str) -> Node {
    let value = value.as_bytes().to_vec();
    Node::Text(Text { serial, value })
}

/// m (a,((b)|c)*), a (#PCDATA) with three attributes, b EMPTY with one, c (b?).
fn form() -> Form {
    let once = |index| particle(Quantifier::None, Term::Element(index));
    let inner = particle(
        Quantifier::None,
        Term::Group(GroupKind::List, vec![once(B)]),
    );
    let choice = Term::Group(GroupKind::Choice, vec![inner, once(C)]);
    let definition = |name: &str, kind, model| Definition {
        name: name.as_bytes().to_vec(),
        kind,
        model,
    };
    let model = vec![once(A), particle(Quantifier::Star, choice)];
    let optional = particle(Quantifier::Qmark, Term::Element(B));
    Form {
        definitions: vec![
            definition("m", Kind::Complex, model),
            definition("a", Kind::Pcdata, Vec::new()),
            definition("b", Kind::Empty, Vec::new()),
            definition("c", Kind::Complex, vec![optional]),
        ],
        attributes: vec![
            attribute(A, "i", AttributeSort::Implied, ""),
            attribute(A, "r", AttributeSort::Required, "fill"),
            attribute(A, "f", AttributeSort::Fixed, "same"),
            attribute(B, "i", AttributeSort::Implied, ""),
        ],
    }
}

fn good() -> Store {
    let mut a = element(A, 2, vec![text(6, "text")]);
    a.attributes = vec![row(0, 3, ""), row(1, 4, "v"), row(2, 5, "same")];
    let b = element(B, 7, Vec::new());
    let c = element(C, 8, vec![Node::Element(element(B, 9, Vec::new()))]);
    let nodes = [a, b, c].map(Node::Element);
    Store {
        next_serial: 20,
        form: form(),
        documents: vec![element(M, 1, nodes.to_vec())],
    }
}

/// The child of the document's root with this number.
fn child(store: &mut Store, number: usize) -> &mut Element {
    match &mut store.documents[0].content[number] {
        Node::Element(child) => child,
        Node::Text(_) => panic!("no element"),
    }
}

#[test]
fn good_stores_pass() {
    assert_eq!(check(&fresh()), 0);
    assert_eq!(check(&encode(&good())), 0);
    let mut store = good();
    store.next_serial = u32::MAX;
    assert_eq!(check(&encode(&store)), 0);
    child(&mut store, 0).attributes[1].value.clear();
    child(&mut store, 0).attributes.swap_remove(0);
    child(&mut store, 0).attributes.swap(0, 1);
    assert_eq!(check(&encode(&store)), 0);
}

/// The name of a rule, and a change of the trees that breaks it.
type Break = (&'static str, fn(&mut Store));

/// Each change of the trees leaves a store that does not pass.
fn all_fail(breaks: &[Break]) {
    for (rule, break_it) in breaks {
        let mut store = good();
        break_it(&mut store);
        assert_eq!(check(&encode(&store)), 1, "{rule}");
    }
}

#[test]
fn forms_not_well_formed() {
    all_fail(&[
        ("empty name", |s| s.form.definitions[A].name.clear()),
        ("digit first", |s| {
            s.form.definitions[A].name = b"1a".to_vec()
        }),
        ("colon", |s| s.form.definitions[A].name = b"a:b".to_vec()),
        ("name taken", |s| s.form.definitions[A].name = b"b".to_vec()),
        ("name twice", |s| {
            let again = s.form.definitions[M].model[0].clone();
            s.form.definitions[M].model.push(again);
        }),
        ("circle of one", |s| {
            let own = particle(Quantifier::Star, Term::Element(C));
            s.form.definitions[C].model.push(own);
        }),
        ("circle of two", |s| {
            let above = particle(Quantifier::Star, Term::Element(M));
            s.form.definitions[C].model.push(above);
        }),
        ("unused circle", |s| {
            let own = particle(Quantifier::Star, Term::Element(M));
            s.form.definitions[M].model.push(own);
            s.documents.clear();
        }),
        ("index past the table", |s| {
            let unknown = particle(Quantifier::Star, Term::Element(4));
            s.form.definitions[C].model.push(unknown);
        }),
        ("empty group", |s| {
            let group = Term::Group(GroupKind::List, Vec::new());
            s.form.definitions[C]
                .model
                .push(particle(Quantifier::Star, group));
        }),
        ("particles of EMPTY", |s| {
            s.form.definitions[B].model = vec![particle(Quantifier::Star, Term::Element(C))];
            s.form.definitions[C].model.clear();
            s.documents.clear();
        }),
    ]);
}

#[test]
fn attributes_not_well_formed() {
    all_fail(&[
        ("owner past the table", |s| s.form.attributes[3].owner = 4),
        ("not by owner", |s| {
            s.form.attributes.swap(2, 3);
            s.documents.clear();
        }),
        ("name taken", |s| s.form.attributes[2].name = b"i".to_vec()),
        ("bad name", |s| s.form.attributes[2].name = b"-".to_vec()),
        ("empty fill", |s| s.form.attributes[1].value.clear()),
        ("IMPLIED value", |s| {
            s.form.attributes[3].value = b"v".to_vec()
        }),
        ("bad byte", |s| {
            s.form.attributes[1].value = b"\x1f".to_vec()
        }),
    ]);
}

#[test]
fn documents_not_conforming() {
    all_fail(&[
        ("no first child", |s| drop(s.documents[0].content.remove(0))),
        ("wrong order", |s| s.documents[0].content.swap(0, 1)),
        ("text in COMPLEX", |s| child(s, 2).content[0] = text(9, "t")),
        ("blank in COMPLEX", |s| {
            child(s, 2).content[0] = text(9, " ")
        }),
        ("text in EMPTY", |s| child(s, 1).content.push(text(10, ""))),
        ("no text", |s| child(s, 0).content.clear()),
        ("two texts", |s| {
            child(s, 0).content.push(text(10, ""));
        }),
        ("element in PCDATA", |s| {
            let b = Node::Element(element(B, 10, Vec::new()));
            child(s, 0).content.push(b);
        }),
        ("REQUIRED absent", |s| {
            drop(child(s, 0).attributes.remove(1))
        }),
        ("FIXED differs", |s| {
            child(s, 0).attributes[2].value = b"x".to_vec()
        }),
        ("attribute twice", |s| {
            child(s, 0).attributes[2] = row(1, 5, "v")
        }),
        ("attribute order", |s| child(s, 0).attributes.swap(0, 1)),
        ("another's", |s| child(s, 1).attributes.push(row(0, 10, ""))),
        ("attribute unknown", |s| {
            child(s, 1).attributes.push(row(4, 10, ""))
        }),
        ("definition unknown", |s| child(s, 1).definition = 4),
        ("bad text", |s| child(s, 0).content[0] = text(6, "\x7f")),
        ("bad value", |s| {
            child(s, 0).attributes[0].value = b"\t".to_vec()
        }),
    ]);
}

#[test]
fn serials_wrong() {
    all_fail(&[
        ("twice", |s| child(s, 1).serial = 1),
        ("twice, an attribute's", |s| {
            child(s, 0).attributes[0].serial = 9
        }),
        ("twice, a text's", |s| child(s, 0).content[0] = text(3, "")),
        ("zero", |s| child(s, 1).serial = 0),
        ("not below the next", |s| s.next_serial = 9),
        ("next is zero", |s| {
            s.next_serial = 0;
            s.documents.clear();
        }),
    ]);
}

#[test]
fn layout_wrong() {
    let bytes = encode(&good());
    assert_eq!(bytes.len(), ROWS + 9 * ROW);
    let text_row = ROWS + 5 * ROW;
    let broken: [(usize, u8); 29] = [
        (0, 2),                  // version
        (8, 41),                 // first offset
        (12, 3),                 // number of definitions
        (36, 8),                 // number of rows
        (HEADER, 0),             // name length
        (HEADER, 17),            // name longer than its field
        (HEADER + 16, 1),        // fill of a name
        (HEADER + 17, 3),        // kind
        (HEADER + 18, 4),        // particles of a definition
        (HEADER + 19, 1),        // the same, high byte
        (PARTICLES, 3),          // sort of a particle
        (PARTICLES + 1, 4),      // quantifier
        (PARTICLES + 3, 1),      // depth of a particle
        (PARTICLES + 6, 0),      // members of a group
        (PARTICLES + 6, 3),      // a group over the end of its model
        (PARTICLES + 11, 0),     // depth of a member
        (ATTRIBUTES + 17, 1),    // fill of a name
        (ATTRIBUTES + 18, 3),    // sort of an attribute
        (ATTRIBUTES + 19, 33),   // value longer than its field
        (ATTRIBUTES + 51, b'v'), // fill of a value
        (ROWS, 0),               // sort of a row
        (ROWS + 1, 1),           // depth of the first row
        (ROWS + ROW + 1, 2),     // a row two deeper
        (ROWS + 8, 1),           // value length of an element
        (ROWS + 9, 1),           // zero byte
        (ROWS + 10, b'v'),       // value of an element
        (ROWS + 43, 1),          // zero byte
        (text_row + 2, 1),       // index of a text
        (text_row + 14, b'v'),   // fill of a value
    ];
    for (at, byte) in broken {
        let mut bytes = bytes.clone();
        bytes[at] = byte;
        assert_eq!(check(&bytes), 1, "byte {at} set to {byte}");
    }
    assert_eq!(check(&bytes[..bytes.len() - 1]), 1);
    assert_eq!(check(&[&bytes[..], &[0]].concat()), 1);
}

/// An attribute row behind a child, which no tree can show.
#[test]
fn attribute_row_behind_the_text() {
    let mut bytes = encode(&good());
    let (attribute_row, text_row) = (ROWS + 4 * ROW, ROWS + 5 * ROW);
    for byte in 0..ROW {
        bytes.swap(attribute_row + byte, text_row + byte);
    }
    assert_eq!(check(&bytes), 1);
}
