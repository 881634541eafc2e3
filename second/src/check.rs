//! The check: *well-formed* forms and *conforming* documents.

use crate::layout;
use crate::model::{depth_of, for_each_element, reached_from, Language};
use crate::store::*;
use std::collections::HashSet;

/// 0 if the store passes, 1 if it does not.
pub fn check(store: &[u8]) -> u32 {
    match read(store) {
        Some(_) => 0,
        None => 1,
    }
}

/// The trees of a store that passes.
pub fn read(bytes: &[u8]) -> Option<Store> {
    let store = layout::decode(bytes)?;
    passes(&store).then_some(store)
}

/// Are the trees those of a store that passes?
pub fn passes(store: &Store) -> bool {
    within_ceilings(store) && well_formed(&store.form) && conforming(store) && serials_right(store)
}

pub fn name_ok(name: &[u8]) -> bool {
    let Some(&first) = name.first() else {
        return false;
    };
    let later = |byte: &u8| byte.is_ascii_alphanumeric() || b"_-.".contains(byte);
    name.len() <= MAX_NAME
        && (first.is_ascii_alphabetic() || first == b'_')
        && name.iter().all(later)
}

/// XML 1.0 keeps names that begin with x, m, l, in either case, for itself.
pub fn reserved(name: &[u8]) -> bool {
    name.get(..3)
        .is_some_and(|start| start.eq_ignore_ascii_case(b"xml"))
}

pub fn value_ok(value: &[u8]) -> bool {
    value.len() <= MAX_VALUE && value.iter().all(|byte| (0x20..=0x7e).contains(byte))
}

/// None of the ceilings is passed.
pub fn within_ceilings(store: &Store) -> bool {
    let definitions = &store.form.definitions;
    let particles: usize = definitions
        .iter()
        .map(|definition| layout::particle_count(&definition.model))
        .sum();
    definitions.len() <= MAX_DEFINITIONS
        && particles <= MAX_PARTICLES
        && store.form.attributes.len() <= MAX_ATTRIBUTES
        && store.row_count() <= MAX_ROWS
        && definitions
            .iter()
            .all(|definition| depth_of(&definition.model) <= MAX_MODEL_DEPTH)
}

pub fn well_formed(form: &Form) -> bool {
    let mut names = HashSet::new();
    let count = form.definitions.len();
    let definitions_right = form.definitions.iter().all(|definition| {
        name_ok(&definition.name)
            && names.insert(&definition.name)
            && (definition.kind == Kind::Complex || definition.model.is_empty())
            && model_well_formed(&definition.model, count)
    });
    definitions_right
        && (0..count).all(|index| reached_from(form, index) >> index & 1 == 0)
        && attributes_well_formed(form)
}

/// Indices in range, no name twice, inner groups not empty.
fn model_well_formed(model: &[Particle], definitions: usize) -> bool {
    let mut seen = HashSet::new();
    let mut right = groups_not_empty(model);
    for_each_element(model, &mut |index| {
        right &= index < definitions && seen.insert(index);
    });
    right
}

fn groups_not_empty(members: &[Particle]) -> bool {
    members.iter().all(|particle| match &particle.term {
        Term::Element(_) => true,
        Term::Group(_, inner) => !inner.is_empty() && groups_not_empty(inner),
    })
}

fn attributes_well_formed(form: &Form) -> bool {
    let mut names = HashSet::new();
    let each_right = form.attributes.iter().all(|attribute| {
        attribute.owner < form.definitions.len()
            && name_ok(&attribute.name)
            && names.insert((attribute.owner, &attribute.name))
            && value_ok(&attribute.value)
            && match attribute.sort {
                AttributeSort::Implied => attribute.value.is_empty(),
                AttributeSort::Required => !attribute.value.is_empty(),
                AttributeSort::Fixed => true,
            }
    });
    let by_owner = |pair: &[Attribute]| pair[0].owner <= pair[1].owner;
    each_right && form.attributes.windows(2).all(by_owner)
}

/// Are all documents *conforming*? The form is well-formed.
pub fn conforming(store: &Store) -> bool {
    let judge = Judge::of(&store.form);
    store
        .documents
        .iter()
        .all(|document| judge.conforms(document))
}

/// A form with the languages of its models.
pub struct Judge<'a> {
    form: &'a Form,
    languages: Vec<Language>,
}

impl<'a> Judge<'a> {
    pub fn of(form: &'a Form) -> Judge<'a> {
        let definitions = form.definitions.iter();
        Judge {
            form,
            languages: definitions
                .map(|definition| Language::of(&definition.model))
                .collect(),
        }
    }

    /// The element and all below it conform.
    pub fn conforms(&self, element: &Element) -> bool {
        element.definition < self.form.definitions.len()
            && self.attributes_conform(element)
            && self.content_conforms(element)
            && element.children().all(|child| self.conforms(child))
    }

    fn attributes_conform(&self, element: &Element) -> bool {
        let form = self.form;
        let rising = |pair: &[AttributeRow]| pair[0].attribute < pair[1].attribute;
        let each_right = element.attributes.iter().all(|row| {
            let Some(attribute) = form.attributes.get(row.attribute) else {
                return false;
            };
            attribute.owner == element.definition
                && value_ok(&row.value)
                && (attribute.sort != AttributeSort::Fixed || attribute.value == row.value)
        });
        let required_present = form
            .attributes
            .iter()
            .enumerate()
            .all(|(index, attribute)| {
                attribute.owner != element.definition
                    || attribute.sort != AttributeSort::Required
                    || element.attributes.iter().any(|row| row.attribute == index)
            });
        each_right && required_present && element.attributes.windows(2).all(rising)
    }

    fn content_conforms(&self, element: &Element) -> bool {
        match self.form.definitions[element.definition].kind {
            Kind::Empty => element.content.is_empty(),
            Kind::Pcdata => match &element.content[..] {
                [Node::Text(text)] => value_ok(&text.value),
                _ => false,
            },
            Kind::Complex => {
                let word: Vec<usize> = element.children().map(|child| child.definition).collect();
                word.len() == element.content.len()
                    && word.iter().all(|&index| index < self.languages.len())
                    && self.accepts(element.definition, &word)
            }
        }
    }

    /// Is the sequence of definitions in the language of the owner's content?
    pub fn accepts(&self, owner: usize, word: &[usize]) -> bool {
        match self.form.definitions[owner].kind {
            Kind::Complex => self.languages[owner].accepts(word),
            Kind::Empty | Kind::Pcdata => word.is_empty(),
        }
    }
}

/// Serials are distinct, from 1, below the next serial.
fn serials_right(store: &Store) -> bool {
    let mut seen = HashSet::new();
    let mut right = store.next_serial >= 1;
    let mut note = |serial: u32| {
        right &= serial >= 1 && serial < store.next_serial && seen.insert(serial);
    };
    store.for_each_element(&mut |element| {
        note(element.serial);
        for row in &element.attributes {
            note(row.serial);
        }
        for node in &element.content {
            if let Node::Text(text) = node {
                note(text.serial);
            }
        }
    });
    right
}
