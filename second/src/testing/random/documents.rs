//! Random documents that conform to a form, built and not grown, and the
//! spoiling of them.

use super::forms;
use crate::edit;
use crate::layout::particle_count;
use crate::rng::Rng;
use crate::store::*;

/// Past so many rows a document takes the shortest way to its end.
const SOON: usize = 40;

struct Builder<'a> {
    rng: &'a mut Rng,
    form: &'a Form,
    rows: usize,
    limit: usize,
}

/// A random conforming document without serials; none where it would pass
/// `limit` rows.
pub fn document(rng: &mut Rng, form: &Form, root: usize, limit: usize) -> Option<Element> {
    let rows = 0;
    Builder {
        rng,
        form,
        rows,
        limit,
    }
    .element(root)
}

impl Builder<'_> {
    fn count_row(&mut self) -> Option<u32> {
        self.rows += 1;
        (self.rows <= self.limit).then_some(0)
    }

    fn element(&mut self, definition: usize) -> Option<Element> {
        let form = self.form;
        let mut element = Element {
            definition,
            serial: self.count_row()?,
            attributes: Vec::new(),
            content: Vec::new(),
        };
        for (index, attribute) in form.attributes.iter().enumerate() {
            let required = attribute.sort == AttributeSort::Required;
            if attribute.owner == definition && (required || self.rng.chance(50)) {
                let value = match attribute.sort {
                    AttributeSort::Fixed => attribute.value.clone(),
                    _ => forms::value(self.rng),
                };
                element.attributes.push(AttributeRow {
                    attribute: index,
                    serial: self.count_row()?,
                    value,
                });
            }
        }
        if form.definitions[definition].kind == Kind::Pcdata {
            element.content.push(Node::Text(Text {
                serial: self.count_row()?,
                value: forms::value(self.rng),
            }));
        }
        for particle in &form.definitions[definition].model {
            self.particle(particle, &mut element.content)?;
        }
        Some(element)
    }

    fn particle(&mut self, particle: &Particle, rows: &mut Vec<Node>) -> Option<()> {
        let least = usize::from(particle.quantifier.is_required());
        let most = if particle.quantifier.is_repeated() {
            3
        } else {
            1
        };
        let rounds = match self.rows < SOON {
            true => least + self.rng.below(most - least + 1),
            false => least,
        };
        for _ in 0..rounds {
            match &particle.term {
                Term::Element(index) => rows.push(Node::Element(self.element(*index)?)),
                Term::Group(GroupKind::List, members) => {
                    for member in members {
                        self.particle(member, rows)?;
                    }
                }
                Term::Group(GroupKind::Choice, members) => {
                    let number = self.rng.below(members.len());
                    self.particle(&members[number], rows)?;
                }
            }
        }
        Some(())
    }
}

/// Gives all rows distinct serials in no order, and the store a next serial
/// above them, sometimes the highest there is.
pub fn number(rng: &mut Rng, store: &mut Store) {
    let count = store.row_count();
    let mut serials: Vec<u32> = (1..=2 * count as u32).collect();
    if rng.chance(50) {
        rng.shuffle(&mut serials);
    }
    let mut serials = serials.into_iter();
    let mut highest = 0;
    let mut next = || {
        let serial = serials.next().unwrap_or(0);
        highest = highest.max(serial);
        serial
    };
    for document in &mut store.documents {
        document.for_each_mut(&mut |element| number_rows(element, &mut next));
    }
    store.next_serial = match rng.below(8) {
        0 => u32::MAX - rng.below(12) as u32,
        1 => highest + 1 + rng.below(1000) as u32,
        _ => highest + 1,
    };
}

/// Numbers the element's own rows; those of its children are not among them.
pub fn number_rows(element: &mut Element, next: &mut impl FnMut() -> u32) {
    element.serial = next();
    for row in &mut element.attributes {
        row.serial = next();
    }
    for node in &mut element.content {
        if let Node::Text(text) = node {
            text.serial = next();
        }
    }
}

/// A random store that passes.
pub fn store(rng: &mut Rng, definitions: usize, attributes: usize, limit: usize) -> Store {
    let form = forms::form(rng, definitions, attributes);
    let mut store = store_of(rng, form, limit);
    number(rng, &mut store);
    store
}

/// A store of up to three documents, without serials.
fn store_of(rng: &mut Rng, form: Form, limit: usize) -> Store {
    let mut store = Store {
        form,
        ..Store::fresh()
    };
    for _ in 0..rng.below(4) {
        let root = rng.below(store.form.definitions.len());
        if let Some(document) = document(rng, &store.form, root, limit / 3) {
            store.documents.push(document);
        }
    }
    store
}

/// A random store near one of the ceilings or at it.
pub fn crowded_store(rng: &mut Rng) -> Store {
    let mut form = forms::form(rng, 12, 12);
    let (ceiling, missing) = (rng.below(4), rng.below(4));
    match ceiling {
        0 => add_definitions(&mut form, MAX_DEFINITIONS - missing),
        1 => add_particles(&mut form, MAX_PARTICLES - missing),
        2 => add_attributes(rng, &mut form, MAX_ATTRIBUTES - missing),
        _ => add_definitions(&mut form, 13),
    }
    let mut store = store_of(rng, form, 200);
    if ceiling == 3 {
        add_documents(rng, &mut store, MAX_ROWS - missing);
    }
    number(rng, &mut store);
    store
}

fn add_definitions(form: &mut Form, count: usize) {
    for number in form.definitions.len()..count {
        let name = format!("more-{number}");
        edit::create_definition(form, name.as_bytes(), Kind::Empty);
    }
}

/// Puts the particles into models of new definitions.
fn add_particles(form: &mut Form, count: usize) {
    add_definitions(form, 12);
    let known = form.definitions.len();
    let mut left = count;
    for definition in &form.definitions {
        left -= particle_count(&definition.model);
    }
    for number in 0.. {
        let elements: Vec<usize> = (0..known.min(left)).collect();
        if elements.is_empty() {
            break;
        }
        left -= elements.len();
        let particle = |index| Particle {
            quantifier: Quantifier::Star,
            term: Term::Element(index),
        };
        form.definitions.push(Definition {
            name: format!("list-{number}").into_bytes(),
            kind: Kind::Complex,
            model: elements.into_iter().map(particle).collect(),
        });
    }
}

fn add_attributes(rng: &mut Rng, form: &mut Form, count: usize) {
    for number in form.attributes.len()..count {
        let attribute = Attribute {
            owner: rng.below(form.definitions.len()),
            name: format!("more-{number}").into_bytes(),
            sort: AttributeSort::Implied,
            value: Vec::new(),
        };
        edit::add_attribute(form, attribute);
    }
}

/// Copies documents as long as there is room, then adds single rows: the last
/// definition is EMPTY and has no attributes. The copies have no own serials.
pub fn add_documents(rng: &mut Rng, store: &mut Store, count: usize) {
    let mut rows = store.row_count();
    while rows < count {
        let copy = rng.pick(&store.documents).cloned();
        let room = count - rows;
        let document = copy
            .filter(|document| document.row_count() <= room)
            .unwrap_or(Element {
                definition: store.form.definitions.len() - 1,
                serial: 0,
                attributes: Vec::new(),
                content: Vec::new(),
            });
        rows += document.row_count();
        store.documents.push(document);
    }
}

/// Changes one element of the document in a way that XML text shows; the
/// document may conform all the same.
pub fn spoil(rng: &mut Rng, form: &Form, document: &mut Element) {
    let mut count = 0;
    document.for_each(&mut |_| count += 1);
    let chosen = rng.below(count);
    let mut number = 0;
    document.for_each_mut(&mut |element| {
        if number == chosen {
            spoil_element(rng, form, element);
        }
        number += 1;
    });
}

fn spoil_element(rng: &mut Rng, form: &Form, element: &mut Element) {
    let kind = form.definitions[element.definition].kind;
    let count = element.content.len();
    match rng.below(7) {
        0 if kind == Kind::Complex && count > 0 => {
            element.content.remove(rng.below(count));
        }
        1 if kind == Kind::Complex && count > 0 => {
            let copy = element.content[rng.below(count)].clone();
            element.content.insert(rng.below(count + 1), copy);
        }
        2 if kind == Kind::Complex && count > 1 => {
            element.content.swap(rng.below(count), rng.below(count));
        }
        3 | 4 => {
            let other = rng.below(form.definitions.len());
            if let Some(child) = document(rng, form, other, 100) {
                let at = rng.below(count + 1);
                element.content.insert(at, Node::Element(child));
            }
        }
        5 if kind != Kind::Pcdata => {
            let (serial, value) = (0, b"text".to_vec());
            element.content.push(Node::Text(Text { serial, value }));
        }
        _ => spoil_attributes(rng, form, element),
    }
}

/// Drops, sets or adds an attribute row; one of another owner only if its name
/// tells it apart.
fn spoil_attributes(rng: &mut Rng, form: &Form, element: &mut Element) {
    let count = element.attributes.len();
    if count > 0 && rng.chance(60) {
        let at = rng.below(count);
        if rng.chance(50) {
            element.attributes.remove(at);
        } else {
            element.attributes[at].value = forms::value(rng);
        }
        return;
    }
    if form.attributes.is_empty() {
        return;
    }
    let attribute = rng.below(form.attributes.len());
    let Attribute { owner, name, .. } = &form.attributes[attribute];
    let owned = |other: &Attribute| other.owner == element.definition && other.name == *name;
    if *owner == element.definition || !form.attributes.iter().any(owned) {
        let (serial, value) = (0, forms::value(rng));
        let rows = &mut element.attributes;
        let at = rows.iter().filter(|row| row.attribute < attribute).count();
        let row = AttributeRow {
            attribute,
            serial,
            value,
        };
        rows.insert(at, row);
    }
}
