//! Stores of about so many rows that make the calls work the most. They pass the check.

use compare::worst::*;
use second::store::*;
use std::ops::RangeInclusive;

const LAST: usize = MAX_DEFINITIONS - 1;

/// With a document of the first definition, and so many children of one definition in it.
fn with_list(store: Store, count: usize, definition: usize) -> Store {
    let children = (0..count).map(|_| definition);
    with_children(with_document(store, 0), children)
}

/// Makes the attributes that are not wanted REQUIRED IMPLIED and FIXED in turn. The rows that there are keep their value, the fill.
fn mix_sorts(store: &mut Store, is_required: impl Fn(usize) -> bool) {
    for (number, attribute) in store.form.attributes.iter_mut().enumerate() {
        match number % 2 {
            _ if is_required(number) => {}
            0 => {
                attribute.sort = AttributeSort::Implied;
                attribute.value.clear();
            }
            _ => attribute.sort = AttributeSort::Fixed,
        }
    }
}

/// A root with PCDATA children, each with an attribute.
pub fn texts(rows: usize) -> Store {
    let mut store = list_form(2);
    store.form.definitions[1].kind = Kind::Pcdata;
    add_required(&mut store, 1, 1);
    let mut store = with_list(store, (rows - 1) / 3, 1);
    mix_sorts(&mut store, |_| false);
    store
}

/// With serials that stand so far apart, from 1 on.
fn apart(mut store: Store, by: u32) -> Store {
    let far = |serial: &mut u32| *serial = 1 + (*serial - 1) * by;
    let mut visit = |element: &mut Element| {
        far(&mut element.serial);
        let rows = element.attributes.iter_mut();
        rows.for_each(|row| far(&mut row.serial));
        for node in &mut element.content {
            if let Node::Text(text) = node {
                far(&mut text.serial);
            }
        }
    };
    let documents = store.documents.iter_mut();
    documents.for_each(|document| document.for_each_mut(&mut visit));
    store.next_serial = 2 + (store.next_serial - 2) * by;
    store
}

pub fn alike(rows: usize) -> Store {
    apart(texts(rows), 1 << 12)
}

/// In as many bits as 4,096 serials can be.
pub fn most_alike(rows: usize) -> Store {
    apart(texts(rows), 1 << 20)
}

/// A group of these elements, each in three groups; the last so many are NONE, the others QMARK.
fn packed(elements: RangeInclusive<usize>, needed: usize, quantifier: Quantifier) -> Particle {
    let optionals = elements.end() - needed;
    let members = elements.map(|index| match member(index) {
        own if index <= optionals => group(group(group(optional(own)))),
        own => group(group(group(own))),
    });
    Particle {
        quantifier,
        term: Term::Group(GroupKind::List, members.collect()),
    }
}

/// A model of 253 particles, at depth 4.
fn packed_form() -> Store {
    let mut store = nested_form(MAX_DEFINITIONS, 0);
    store.form.definitions[0].model = vec![packed(1..=LAST, 0, Quantifier::Star)];
    store
}

pub fn long_model_once(rows: usize) -> Store {
    let children = (1..rows).map(|number| 1 + number % LAST);
    with_children(with_document(packed_form(), 0), children)
}

pub fn long_model_often(rows: usize) -> Store {
    (0..rows / 2).fold(packed_form(), |store, _| with_list(store, 1, LAST))
}

/// All 64 rows below each element.
pub fn all_attributes(rows: usize) -> Store {
    let mut store = fill(many_attributes(MAX_ATTRIBUTES), rows);
    mix_sorts(&mut store, |number| number % 3 == 0);
    store
}

/// The last alone is REQUIRED, and there.
fn last_of(attributes: usize, rows: usize) -> Store {
    let mut store = nested_form(1, 0);
    add_required(&mut store, 0, attributes);
    mix_sorts(&mut store, |number| number + 1 == attributes);
    with_documents(store, rows / 2)
}

pub fn last_attribute(rows: usize) -> Store {
    last_of(MAX_ATTRIBUTES, rows)
}

/// There is room for one more, and rows of it.
pub fn attribute_missing(rows: usize) -> Store {
    last_of(MAX_ATTRIBUTES - 1, rows * 2 / 3)
}

/// 64 definitions in each other, 63 of them with an attribute.
pub fn nested(rows: usize) -> Store {
    let mut store = nested_form(MAX_DEFINITIONS, 1);
    (0..LAST).for_each(|owner| add_required(&mut store, owner, 1));
    fill(store, rows)
}

/// The like in groups, and nothing below the documents yet: each gets 125 rows.
pub fn nested_missing(rows: usize) -> Store {
    let form = deepest_form(Vec::new(), Padding::Lists, Kind::Empty);
    with_documents(form, rows / 128)
}

/// A root with any number of the definitions behind it, in any order.
fn choice_of(root: usize, rows: usize) -> Store {
    let mut store = nested_form(MAX_DEFINITIONS, 0);
    let members: Vec<_> = (root + 1..MAX_DEFINITIONS).map(member).collect();
    let count = members.len();
    store.form.definitions[root].model.push(Particle {
        quantifier: Quantifier::Star,
        term: Term::Group(GroupKind::Choice, members),
    });
    let children = (1..rows).map(|number| root + 1 + number % count);
    with_children(with_document(store, root), children)
}

pub fn choice(rows: usize) -> Store {
    choice_of(0, rows)
}

/// A definition before all others that nothing uses, and 64 attributes of the last.
pub fn spare(rows: usize) -> Store {
    let mut store = choice_of(1, rows);
    add_required(&mut store, LAST, MAX_ATTRIBUTES);
    mix_sorts(&mut store, |_| false);
    store
}

/// Instances with an optional group whose filling has so many rows.
fn groups_missing(instances: usize, needed: usize) -> Store {
    let mut store = list_form(MAX_DEFINITIONS);
    store.form.definitions[1].model = vec![packed(2..=LAST, needed, Quantifier::Qmark)];
    with_list(store, instances, 1)
}

pub fn group_of_none(rows: usize) -> Store {
    groups_missing(rows - 1, 0)
}

pub fn group_of_one(rows: usize) -> Store {
    groups_missing((rows - 1) / 2, 1)
}

/// As many as can be, and a few of them have the group: the most that may come is over the ceiling, what comes is not.
pub fn group_of_one_there(rows: usize) -> Store {
    let mut store = groups_missing(rows / 2 - 1, 1);
    let root = store.documents.last_mut().expect("a document");
    for node in root.content.iter_mut().take(rows / 100) {
        if let Node::Element(instance) = node {
            instance.content.push(Node::Element(Element {
                serial: store.next_serial,
                definition: LAST,
                attributes: Vec::new(),
                content: Vec::new(),
            }));
            store.next_serial += 1;
        }
    }
    store
}

pub fn group_of_three(rows: usize) -> Store {
    groups_missing((rows - 1) / 4, 3)
}

/// Instances with `((n2?)?,n3?)`, all serials alike.
pub fn empty_missing(rows: usize) -> Store {
    let mut store = list_form(5);
    let inner = group(optional(member(2)));
    store.form.definitions[1].model = vec![optional(inner), optional(member(3))];
    apart(with_list(store, rows - 1, 1), 1 << 20)
}

/// Instances with a model of 250 particles: 50 optional elements, each in four groups of the spine.
pub fn deep_missing(rows: usize) -> Store {
    let mut store = list_form(MAX_DEFINITIONS);
    let model = &mut store.form.definitions[1].model;
    *model = (2..52).map(|index| optional(member(index))).collect();
    add_groups(model, GroupKind::List, 200);
    with_list(store, (rows - 1) / 2, 1)
}

/// Instances, and a definition with a model of 245 particles that accepts nothing.
pub fn long_model_missing(rows: usize) -> Store {
    let mut store = list_form(MAX_DEFINITIONS);
    store.form.definitions[2].model = vec![packed(3..=LAST, 0, Quantifier::None)];
    with_list(store, (rows - 1) / 2, 1)
}

/// Documents with `(n1?,(n2)?)`; n1, n2 and n3 would fill with over 2^60 rows each.
pub fn exploding(rows: usize) -> Store {
    let mut store = nested_form(MAX_DEFINITIONS, 4);
    add_required(&mut store, LAST, 16);
    let filled = filling_rows(&store.form);
    assert!(filled[1..4].iter().all(|rows| rows >> 60 > 0));
    let model = vec![optional(member(1)), optional(group(member(2)))];
    store.form.definitions[0].model = model;
    with_documents(store, rows)
}

/// A definition with the next two below it, each with the next two, so many times; below each of these an element with a long model, of whose members so
/// many are needed.
fn doubling(levels: usize, needed: usize, rows: usize) -> Store {
    let long = 2 * levels;
    let mut store = nested_form(MAX_DEFINITIONS, 0);
    for index in 1..long {
        let next = 2 * (index / 2) + 2;
        let below = [next, next + 1].into_iter().filter(|&next| next < long);
        let model = below.chain([long]).map(member).collect();
        store.form.definitions[index].model = model;
    }
    let model = packed(long + 1..=LAST, needed, Quantifier::None);
    store.form.definitions[long].model = vec![model];
    with_documents(store, rows)
}

pub fn doubling_of_none(rows: usize) -> Store {
    doubling(11, 0, rows)
}

pub fn doubling_of_one(rows: usize) -> Store {
    doubling(10, 1, rows)
}
