//! Documents: changes 11 to 16.

use super::{good_value, known, run};
use crate::check::Judge;
use crate::filling::Maker;
use crate::outcome::{refuse_if, Answer, Refusal};
use crate::store::*;

/// Change 11. New last document, a filling.
pub fn add_document(store: &[u8], definition: u32, text: &[u8], out: &mut [u8]) -> Answer {
    run(store, out, |store| {
        good_value(text)?;
        let index = known(definition, store.form.definitions.len())?;
        let mut maker = Maker::new(&store.form, store.next_serial, text);
        store.documents.push(maker.element(index)?);
        Ok(maker.made)
    })
}

/// The definitions of an element's children, in order.
fn word_of(element: &Element) -> Vec<usize> {
    element.children().map(|child| child.definition).collect()
}

/// Change 12. Add a filling as child number `child` of the row `parent`.
pub fn add_element(
    store: &[u8],
    parent: u32,
    child: u32,
    definition: u32,
    text: &[u8],
    out: &mut [u8],
) -> Answer {
    run(store, out, |store| {
        good_value(text)?;
        let index = known(definition, store.form.definitions.len())?;
        let element = store.element(parent).ok_or(Refusal::NoRow)?;
        let mut word = word_of(element);
        let position = child as usize;
        refuse_if(position > word.len(), Refusal::NoPlace)?;
        word.insert(position, index);
        let matches = Judge::of(&store.form).accepts(element.definition, &word);
        refuse_if(!matches, Refusal::NoMatch)?;
        let mut maker = Maker::new(&store.form, store.next_serial, text);
        let filling = maker.element(index)?;
        let made = maker.made;
        let element = store.element_mut(parent).ok_or(Refusal::NoRow)?;
        element.content.insert(position, Node::Element(filling));
        Ok(made)
    })
}

/// Change 13. Destroy element or whole document.
pub fn destroy_element(store: &[u8], element: u32, out: &mut [u8]) -> Answer {
    run(store, out, |store| {
        refuse_if(store.element(element).is_none(), Refusal::NoRow)?;
        let is_it = |node: &Node| matches!(node, Node::Element(child) if child.serial == element);
        let mut parent = None;
        store.for_each_element(&mut |other| {
            if other.content.iter().any(is_it) {
                parent = Some((other.serial, other.definition));
            }
        });
        let Some((parent, owner)) = parent else {
            store.documents.retain(|root| root.serial != element);
            return Ok(0);
        };
        let row = store.element_mut(parent).ok_or(Refusal::NoRow)?;
        row.content.retain(|node| !is_it(node));
        let word = word_of(row);
        let matches = Judge::of(&store.form).accepts(owner, &word);
        refuse_if(!matches, Refusal::NoMatch)?;
        Ok(0)
    })
}

/// The refusals 6 and 7 of 14 and 15: the attribute's index, the element, and
/// whether the attribute is the element's.
fn attribute_of(store: &Store, element: u32, attribute: u32) -> Result<usize, Refusal> {
    let index = known(attribute, store.form.attributes.len())?;
    let row = store.element(element).ok_or(Refusal::NoRow)?;
    let owner = store.form.attributes[index].owner;
    refuse_if(owner != row.definition, Refusal::Unknown)?;
    Ok(index)
}

/// Change 14. Set attribute, keeping the serial if present.
pub fn set_attribute(
    store: &[u8],
    element: u32,
    attribute: u32,
    value: &[u8],
    out: &mut [u8],
) -> Answer {
    run(store, out, |store| {
        good_value(value)?;
        let index = attribute_of(store, element, attribute)?;
        let declared = &store.form.attributes[index];
        let other_value = declared.sort == AttributeSort::Fixed && declared.value != value;
        refuse_if(other_value, Refusal::NoMatch)?;
        let serial = store.next_serial;
        let rows = &mut store.element_mut(element).ok_or(Refusal::NoRow)?.attributes;
        if let Some(row) = rows.iter_mut().find(|row| row.attribute == index) {
            row.value = value.to_vec();
            return Ok(0);
        }
        let position = rows.iter().filter(|row| row.attribute < index).count();
        let row = AttributeRow {
            attribute: index,
            serial,
            value: value.to_vec(),
        };
        rows.insert(position, row);
        Ok(1)
    })
}

/// Change 15. Destroy attribute row.
pub fn destroy_attribute_row(store: &[u8], element: u32, attribute: u32, out: &mut [u8]) -> Answer {
    run(store, out, |store| {
        let index = attribute_of(store, element, attribute)?;
        let required = store.form.attributes[index].sort == AttributeSort::Required;
        let rows = &mut store.element_mut(element).ok_or(Refusal::NoRow)?.attributes;
        let present = rows.iter().any(|row| row.attribute == index);
        refuse_if(!present, Refusal::NoRow)?;
        refuse_if(required, Refusal::NoMatch)?;
        rows.retain(|row| row.attribute != index);
        Ok(0)
    })
}

/// Change 16. Set a PCDATA element's text.
pub fn set_text(store: &[u8], element: u32, text: &[u8], out: &mut [u8]) -> Answer {
    run(store, out, |store| {
        good_value(text)?;
        let definition = store.element(element).ok_or(Refusal::NoRow)?.definition;
        let pcdata = store.form.definitions[definition].kind == Kind::Pcdata;
        refuse_if(!pcdata, Refusal::WrongKind)?;
        let row = store.element_mut(element).ok_or(Refusal::NoRow)?;
        if let Some(Node::Text(own)) = row.content.first_mut() {
            own.value = text.to_vec();
        }
        Ok(0)
    })
}
