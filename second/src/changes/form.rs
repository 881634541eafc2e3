//! Definitions and attributes: changes 1, 2, 9 and 10.

use super::{coded, for_each_instance, good_value, known, run};
use crate::check::{name_ok, reserved};
use crate::edit;
use crate::filling::Maker;
use crate::model::elements_of;
use crate::outcome::{refuse_if, Answer, Refusal};
use crate::store::*;

/// Change 1. Create definition.
pub fn create_definition(store: &[u8], name: &[u8], kind: u32, out: &mut [u8]) -> Answer {
    run(store, out, |store| {
        refuse_if(!name_ok(name) || reserved(name), Refusal::BadName)?;
        let kind = coded(kind)?;
        let mut definitions = store.form.definitions.iter();
        let exists = definitions.any(|definition| definition.name == name);
        refuse_if(exists, Refusal::Taken)?;
        edit::create_definition(&mut store.form, name, kind);
        Ok(0)
    })
}

/// Change 2. Destroy definition, with its model and attributes.
pub fn destroy_definition(store: &[u8], definition: u32, out: &mut [u8]) -> Answer {
    run(store, out, |store| {
        let form = &store.form;
        let index = known(definition, form.definitions.len())?;
        let stands_in = |other: &Definition| elements_of(&other.model) >> index & 1 == 1;
        let in_model = form.definitions.iter().any(stands_in);
        let is_root = store.documents.iter().any(|root| root.definition == index);
        refuse_if(in_model || is_root, Refusal::InUse)?;
        // Its attributes stand together; the indices behind them move down.
        let before = |attribute: &&Attribute| attribute.owner < index;
        let start = form.attributes.iter().filter(before).count();
        let own = |attribute: &&Attribute| attribute.owner == index;
        let count = form.attributes.iter().filter(own).count();
        edit::destroy_definition(&mut store.form, index);
        for document in &mut store.documents {
            document.for_each_mut(&mut |element| {
                element.definition = edit::without(index, element.definition);
                for row in &mut element.attributes {
                    if row.attribute >= start {
                        row.attribute -= count;
                    }
                }
            });
        }
        Ok(0)
    })
}

/// Change 9. Add attribute: REQUIRED adds a row to each instance.
pub fn add_attribute(
    store: &[u8],
    owner: u32,
    name: &[u8],
    sort: u32,
    value: &[u8],
    out: &mut [u8],
) -> Answer {
    run(store, out, |store| {
        refuse_if(!name_ok(name) || reserved(name), Refusal::BadName)?;
        good_value(value)?;
        let sort: AttributeSort = coded(sort)?;
        let same = |other: &Attribute| other.owner as u64 == u64::from(owner) && other.name == name;
        refuse_if(store.form.attributes.iter().any(same), Refusal::Taken)?;
        let owner = known(owner, store.form.definitions.len())?;
        let wrong_default = match sort {
            AttributeSort::Implied => !value.is_empty(),
            AttributeSort::Required => value.is_empty(),
            AttributeSort::Fixed => false,
        };
        refuse_if(wrong_default, Refusal::Default)?;
        let attribute = Attribute {
            owner,
            name: name.to_vec(),
            sort,
            value: value.to_vec(),
        };
        let index = edit::add_attribute(&mut store.form, attribute);
        for document in &mut store.documents {
            document.for_each_mut(&mut |element| make_room(element, index));
        }
        if sort == AttributeSort::Required {
            return add_rows(store, owner, index);
        }
        Ok(0)
    })
}

/// Moves the attribute indices from `index` on up by one.
fn make_room(element: &mut Element, index: usize) {
    for row in &mut element.attributes {
        if row.attribute >= index {
            row.attribute += 1;
        }
    }
}

fn add_rows(store: &mut Store, owner: usize, attribute: usize) -> Result<usize, Refusal> {
    let mut maker = Maker::new(&store.form, store.next_serial, &[]);
    let fill = &store.form.attributes[attribute].value;
    for_each_instance(&mut store.documents, owner, &mut |instance| {
        instance.attributes.push(AttributeRow {
            attribute,
            serial: maker.serial()?,
            value: fill.clone(),
        });
        Ok(())
    })?;
    Ok(maker.made)
}

/// Change 10. Destroy attribute, rows too.
pub fn destroy_attribute(store: &[u8], attribute: u32, out: &mut [u8]) -> Answer {
    run(store, out, |store| {
        let index = known(attribute, store.form.attributes.len())?;
        edit::destroy_attribute(&mut store.form, index);
        for document in &mut store.documents {
            document.for_each_mut(&mut |element| {
                element.attributes.retain(|row| row.attribute != index);
                for row in &mut element.attributes {
                    row.attribute = edit::without(index, row.attribute);
                }
            });
        }
        Ok(0)
    })
}
