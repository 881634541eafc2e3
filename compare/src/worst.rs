//! Stores at the ceilings, made by hand: the deepest, the fullest and the longest that there are, and calls on them.

mod calls;

use second::filling::Maker;
use second::layout::{encode, particle_count, u32_at, PARTICLE, ROW};
use second::print::text_of;
use second::store::*;
use second::testing::texts::aimed;

/// A store and what it is the worst of.
pub struct Worst {
    pub name: String,
    pub store: Store,
    /// As a box has it.
    pub bytes: Vec<u8>,
}

impl Worst {
    fn new(name: &str, store: Store) -> Worst {
        let bytes = encode(&store);
        assert_eq!(second::check(&bytes), 0, "{name}");
        Worst {
            name: name.to_string(),
            store,
            bytes,
        }
    }

    /// A body of its bytes is spoiled, record by record, so that it does not pass; the table of contents has the body's offset there.
    fn spoiled(self, name: &str, body: usize, size: usize, spoil: impl Fn(u8, &mut [u8])) -> Worst {
        let mut bytes = self.bytes;
        let start = u32_at(&bytes, body) as usize;
        let count = u32_at(&bytes, body + 4) as usize;
        let records = bytes[start..start + count * size].chunks_mut(size);
        for (number, record) in records.enumerate() {
            spoil(number.min(255) as u8, record);
        }
        assert_eq!(second::check(&bytes), 1, "{name}");
        let name = name.to_string();
        Worst {
            name,
            bytes,
            ..self
        }
    }
}

/// Particle of an element, NONE.
pub fn member(index: usize) -> Particle {
    Particle {
        quantifier: Quantifier::None,
        term: Term::Element(index),
    }
}

/// The particle, QMARK.
pub fn optional(mut particle: Particle) -> Particle {
    particle.quantifier = Quantifier::Qmark;
    particle
}

/// Alone in a LIST.
pub fn group(particle: Particle) -> Particle {
    Particle {
        quantifier: Quantifier::None,
        term: Term::Group(GroupKind::List, vec![particle]),
    }
}

/// A form in which each definition has so many of those behind it in its model, all NONE.
pub fn nested_form(definitions: usize, members: usize) -> Store {
    let mut store = Store::fresh();
    for index in 0..definitions {
        let behind = index + 1..definitions.min(index + 1 + members);
        store.form.definitions.push(Definition {
            name: format!("n{index}").into_bytes(),
            kind: Kind::Complex,
            model: behind.map(member).collect(),
        });
    }
    store
}

/// Gives a definition so many REQUIRED attributes; the definitions behind it have none.
pub fn add_required(store: &mut Store, owner: usize, count: usize) {
    for number in 0..count {
        store.form.attributes.push(Attribute {
            owner,
            name: format!("r{number}").into_bytes(),
            sort: AttributeSort::Required,
            value: b"fill".to_vec(),
        });
    }
}

/// How many rows the filling of each definition of a nested form has.
pub fn filling_rows(form: &Form) -> Vec<u128> {
    let mut rows = vec![0; form.definitions.len()];
    for index in (0..rows.len()).rev() {
        let own = form.attributes.iter().filter(|own| own.owner == index);
        rows[index] = 1 + own.count() as u128;
        for particle in &form.definitions[index].model {
            if let Term::Element(member) = particle.term {
                rows[index] += rows[member];
            }
        }
    }
    rows
}

/// What fills up models without rows in a filling.
#[derive(Clone, Copy, Debug)]
pub enum Padding {
    /// Groups around the members, up to four.
    Lists,
    Choices,
    /// Optional elements before the members, up to four.
    Siblings,
}

/// Pads the models behind the first until the form has so many particles.
fn pad(form: &mut Form, padding: Padding, particles: usize) {
    let counts = form
        .definitions
        .iter()
        .map(|own| particle_count(&own.model));
    let mut left = particles - counts.sum::<usize>();
    for (index, definition) in form.definitions.iter_mut().enumerate().skip(1) {
        let model = &mut definition.model;
        let before = particle_count(model);
        match padding {
            Padding::Lists => add_groups(model, GroupKind::List, left),
            Padding::Choices => add_groups(model, GroupKind::Choice, left),
            Padding::Siblings => add_siblings(model, index + 2, left),
        }
        left -= particle_count(model) - before;
    }
}

/// Puts up to four groups around each member, the last first, and so many at most in all.
pub fn add_groups(model: &mut [Particle], kind: GroupKind, most: usize) {
    let mut left = most;
    for particle in model.iter_mut().rev() {
        for _ in 0..MAX_MODEL_DEPTH.min(left) {
            *particle = Particle {
                quantifier: Quantifier::None,
                term: Term::Group(kind, vec![particle.clone()]),
            };
            left -= 1;
        }
    }
}

/// Four before the member, of definitions from this one on.
fn add_siblings(model: &mut Vec<Particle>, first: usize, most: usize) {
    let last = MAX_DEFINITIONS.min(first + 4.min(most));
    for index in first..last {
        model.insert(0, optional(member(index)));
    }
}

/// The filling of a definition, if it has at most so many rows.
fn filling(store: &mut Store, definition: usize, room: usize) -> Option<Element> {
    let mut maker = Maker::new(&store.form, store.next_serial, b"19:04");
    let filling = maker.element(definition).ok();
    let made = maker.made;
    let filling = filling.filter(|_| made <= room)?;
    store.next_serial += made as u32;
    Some(filling)
}

/// Adds documents until there are so many rows: as many of the first definition as there is room for, then of those behind it.
pub fn fill(mut store: Store, rows: usize) -> Store {
    let mut left = rows;
    for definition in 0..store.form.definitions.len() {
        while let Some(document) = filling(&mut store, definition, left) {
            left -= document.row_count();
            store.documents.push(document);
        }
    }
    assert_eq!(left, 0, "the last definition has one row");
    store
}

/// All 64 definitions in each other, a REQUIRED attribute for each but the last, which is of this kind, and as many particles as there can be; one less where
/// the first model is empty, so that there is room for a member.
pub fn deepest_form(first: Vec<Particle>, padding: Padding, last: Kind) -> Store {
    let mut store = nested_form(MAX_DEFINITIONS, 1);
    store.form.definitions[0].model = first;
    store.form.definitions[MAX_DEFINITIONS - 1].kind = last;
    for owner in 0..MAX_DEFINITIONS - 1 {
        add_required(&mut store, owner, 1);
    }
    let room = usize::from(store.form.definitions[0].model.is_empty());
    pad(&mut store.form, padding, MAX_PARTICLES - room);
    store
}

/// So, with 30 documents. By what stands in the first model, changes 3, 5, 8, 11 and 12 can make the deepest filling.
fn deepest(padding: Padding) -> Vec<Worst> {
    let in_groups = |particle| (0..MAX_MODEL_DEPTH).fold(particle, |inner, _| group(inner));
    let firsts = [
        ("in the first", vec![member(1)]),
        ("to insert", Vec::new()),
        (
            "in an optional element",
            vec![in_groups(optional(member(1)))],
        ),
        ("in an optional group", vec![optional(in_groups(member(1)))]),
    ];
    firsts
        .map(|(name, first)| {
            let form = deepest_form(first, padding, Kind::Complex);
            let name = format!("nested definitions {name}, {padding:?}");
            Worst::new(&name, with_documents(form, 30))
        })
        .into()
}

/// With a document of a definition.
pub fn with_document(mut store: Store, definition: usize) -> Store {
    let document = filling(&mut store, definition, MAX_ROWS).expect("there is room for it");
    store.documents.push(document);
    store
}

/// With so many documents of the first definition.
pub fn with_documents(store: Store, count: usize) -> Store {
    (0..count).fold(store, |store, _| with_document(store, 0))
}

/// With children of these definitions, filled, below the root of the last document.
pub fn with_children(mut store: Store, children: impl Iterator<Item = usize>) -> Store {
    let mut root = store.documents.pop().expect("a document");
    for definition in children {
        let child = filling(&mut store, definition, MAX_ROWS).expect("there is room for it");
        root.content.push(Node::Element(child));
    }
    store.documents.push(root);
    store
}

/// One definition has all attributes, REQUIRED.
pub fn many_attributes(count: usize) -> Store {
    let mut store = nested_form(2, 1);
    add_required(&mut store, 0, count);
    store
}

/// One model has all but so many of the definitions behind it, in groups four deep as far as so many particles allow.
fn longest_model(spare: usize, particles: usize) -> Store {
    let mut store = nested_form(MAX_DEFINITIONS, 0);
    let model = &mut store.form.definitions[0].model;
    *model = (1..MAX_DEFINITIONS - spare).map(member).collect();
    let groups = particles - model.len();
    add_groups(model, GroupKind::List, groups);
    store
}

/// A form in which the first definition has any number of the second.
pub fn list_form(definitions: usize) -> Store {
    let mut store = nested_form(definitions, 0);
    let mut child = member(1);
    child.quantifier = Quantifier::Star;
    store.form.definitions[0].model.push(child);
    store
}

/// All of one document's rows are children of its root.
fn widest() -> Store {
    with_children(with_document(list_form(2), 0), (1..MAX_ROWS).map(|_| 1))
}

/// A name of 16 bytes.
fn long_name(letter: char, number: usize) -> Vec<u8> {
    format!("{letter}{number:015}").into_bytes()
}

/// Of 4,096 rows: all ceilings at once, and no known store prints more. All names have 16 bytes, all values 32 that are escaped. The 256 particles are
/// elements in as few models as they go, since `(#PCDATA)` is longer than a pair of brackets; all attributes are FIXED and of one definition, so that no
/// element row is needed but for each 64 attribute rows, and one that is left over.
pub fn longest(rows: usize) -> Store {
    let mut store = nested_form(MAX_DEFINITIONS, MAX_DEFINITIONS);
    let mut left = MAX_PARTICLES;
    for (index, definition) in store.form.definitions.iter_mut().enumerate() {
        definition.name = long_name('n', index);
        definition.model.truncate(left);
        left -= definition.model.len();
        if definition.model.is_empty() {
            definition.kind = Kind::Pcdata;
        }
        for particle in &mut definition.model {
            particle.quantifier = Quantifier::Star;
        }
    }
    let value = vec![b'"'; 32];
    store.form.attributes = (0..MAX_ATTRIBUTES)
        .map(|number| Attribute {
            owner: 0,
            name: long_name('a', number),
            sort: AttributeSort::Fixed,
            value: value.clone(),
        })
        .collect();
    for left in (1..=rows).rev().step_by(MAX_ATTRIBUTES + 1) {
        add_with_attributes(&mut store, MAX_ATTRIBUTES.min(left - 1));
    }
    store
}

/// A document of the first definition with rows for the first so many attributes.
fn add_with_attributes(store: &mut Store, count: usize) {
    let mut document = filling(store, 0, MAX_ROWS).expect("there is room for it");
    for (attribute, declared) in store.form.attributes.iter().enumerate().take(count) {
        document.attributes.push(AttributeRow {
            attribute,
            serial: store.next_serial,
            value: declared.value.clone(),
        });
        store.next_serial += 1;
    }
    store.documents.push(document);
}

/// Texts, each with what it is the worst of: those of the stores, with and without their last byte, those at the
/// ceilings and past them, and those that are made to cost much.
pub fn texts() -> Vec<(String, Vec<u8>)> {
    let mut texts = Vec::new();
    for worst in all() {
        let text = text_of(&worst.store);
        texts.push((
            format!("{}, cut", worst.name),
            text[..text.len() - 1].to_vec(),
        ));
        texts.push((worst.name, text));
    }
    for (what, at, over) in aimed::ceilings() {
        texts.push((what.to_string(), at.into_bytes()));
        texts.push((format!("{what}, one more"), over.into_bytes()));
    }
    let hostile = aimed::hostile().into_iter();
    texts.extend(hostile.map(|text| ("hostile".to_string(), text)));
    texts
}

/// All of them.
pub fn all() -> Vec<Worst> {
    let nested = |last| deepest_form(vec![member(1)], Padding::Lists, last);
    let others = [
        (
            "nested definitions, full",
            fill(nested(Kind::Empty), MAX_ROWS),
        ),
        (
            "nested definitions with a text",
            with_documents(nested(Kind::Pcdata), 30),
        ),
        ("63 attributes", with_documents(many_attributes(63), 62)),
        ("64 attributes, full", fill(many_attributes(64), MAX_ROWS)),
        // A row's check takes the square of its model's length, so these have few.
        (
            "254 particles in a model",
            with_documents(longest_model(1, 254), 3),
        ),
        (
            "256 particles in a model",
            with_documents(longest_model(0, 256), 3),
        ),
        ("4,095 children", widest()),
        ("all ceilings", longest(MAX_ROWS)),
    ];
    let others = others.map(|(name, store)| Worst::new(name, store));
    let paddings = [Padding::Lists, Padding::Choices, Padding::Siblings];
    let deepest = paddings.into_iter().flat_map(deepest);
    deepest.chain(others).chain(spoiled()).collect()
}

/// Stores that do not pass, of which each record of a body says that it stands deeper than the one before it.
fn spoiled() -> [Worst; 2] {
    let particles = Worst::new("", longest_model(0, 256));
    let rows = Worst::new("", widest());
    [
        particles.spoiled("particles ever deeper", 16, PARTICLE, |number, record| {
            record.copy_from_slice(&[1, 0, 1, number]);
        }),
        rows.spoiled("rows ever deeper", 32, ROW, |number, record| {
            record[1] = number;
        }),
    ]
}
