//! The form part of the changes: what definitions, models and attributes
//! become. The arguments are those of an accepted call.

use crate::model::list_mut;
use crate::store::*;

/// Change 1. Create definition (appended).
pub fn create_definition(form: &mut Form, name: &[u8], kind: Kind) {
    form.definitions.push(Definition {
        name: name.to_vec(),
        kind,
        model: Vec::new(),
    });
}

/// Change 2. Destroy definition, with its model and attributes.
pub fn destroy_definition(form: &mut Form, index: usize) {
    form.definitions.remove(index);
    form.attributes.retain(|attribute| attribute.owner != index);
    for attribute in &mut form.attributes {
        attribute.owner = without(index, attribute.owner);
    }
    for definition in &mut form.definitions {
        renumber(&mut definition.model, index);
    }
}

/// What an index becomes when the record at `gone` is taken out of its table.
pub fn without(gone: usize, index: usize) -> usize {
    if index > gone {
        index - 1
    } else {
        index
    }
}

fn renumber(members: &mut [Particle], gone: usize) {
    for particle in members {
        match &mut particle.term {
            Term::Element(index) => *index = without(gone, *index),
            Term::Group(_, inner) => renumber(inner, gone),
        }
    }
}

/// The list of a place in the owner's model, and its last number.
fn list_at<'a>(form: &'a mut Form, owner: usize, place: &[u32]) -> (&'a mut Vec<Particle>, usize) {
    let list = list_mut(&mut form.definitions[owner].model, place);
    list.expect("an accepted call has a place")
}

/// Change 3. Insert element.
pub fn insert_element(
    form: &mut Form,
    owner: usize,
    place: &[u32],
    definition: usize,
    quantifier: Quantifier,
) {
    let (members, gap) = list_at(form, owner, place);
    let term = Term::Element(definition);
    members.insert(gap, Particle { quantifier, term });
}

/// Change 4. Remove element.
pub fn remove_element(form: &mut Form, owner: usize, place: &[u32]) {
    let (members, number) = list_at(form, owner, place);
    members.remove(number - 1);
}

/// Changes 5 and 8. Change the quantifier of an element or of a group.
pub fn change_quantifier(form: &mut Form, owner: usize, place: &[u32], quantifier: Quantifier) {
    let (members, number) = list_at(form, owner, place);
    members[number - 1].quantifier = quantifier;
}

/// Change 6. Convert `count` members into an unquantified group.
pub fn convert_to_group(
    form: &mut Form,
    owner: usize,
    place: &[u32],
    count: usize,
    kind: GroupKind,
) {
    let (members, number) = list_at(form, owner, place);
    let start = number - 1;
    let inner: Vec<Particle> = members.drain(start..start + count).collect();
    let group = Particle {
        quantifier: Quantifier::None,
        term: Term::Group(kind, inner),
    };
    members.insert(start, group);
}

/// Change 7. Flatten a group into its list.
pub fn flatten_group(form: &mut Form, owner: usize, place: &[u32]) {
    let (members, number) = list_at(form, owner, place);
    if let Term::Group(_, inner) = members.remove(number - 1).term {
        members.splice(number - 1..number - 1, inner);
    }
}

/// Change 9. Add attribute, as its owner's last. Gives its index.
pub fn add_attribute(form: &mut Form, attribute: Attribute) -> usize {
    let later = |other: &Attribute| other.owner > attribute.owner;
    let first_later = form.attributes.iter().position(later);
    let index = first_later.unwrap_or(form.attributes.len());
    form.attributes.insert(index, attribute);
    index
}

/// Change 10. Destroy attribute.
pub fn destroy_attribute(form: &mut Form, index: usize) {
    form.attributes.remove(index);
}
