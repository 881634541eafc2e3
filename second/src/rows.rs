//! A store's rows as the book's lines have them: names and parents' serials,
//! no indices and no depth.

use crate::check;
use crate::store::*;

#[derive(Clone, Copy, Debug, PartialEq, Eq)]
pub enum RowSort {
    Element,
    Attribute,
    Text,
}

#[derive(Clone, Debug, PartialEq, Eq)]
pub struct Row {
    pub serial: u32,
    pub sort: RowSort,
    /// None for a text.
    pub name: Option<Vec<u8>>,
    /// The serial of the element that holds it; 0 for a document's root.
    pub parent: u32,
    /// None for an element.
    pub value: Option<Vec<u8>>,
}

/// The rows of a store in document order; none if the store does not pass.
pub fn rows(store: &[u8]) -> Option<Vec<Row>> {
    let store = check::read(store)?;
    let mut rows = Vec::new();
    for document in &store.documents {
        push_rows(&store.form, document, 0, &mut rows);
    }
    Some(rows)
}

fn push_rows(form: &Form, element: &Element, parent: u32, rows: &mut Vec<Row>) {
    rows.push(Row {
        serial: element.serial,
        sort: RowSort::Element,
        name: Some(form.definitions[element.definition].name.clone()),
        parent,
        value: None,
    });
    for row in &element.attributes {
        rows.push(Row {
            serial: row.serial,
            sort: RowSort::Attribute,
            name: Some(form.attributes[row.attribute].name.clone()),
            parent: element.serial,
            value: Some(row.value.clone()),
        });
    }
    for node in &element.content {
        match node {
            Node::Element(child) => push_rows(form, child, element.serial, rows),
            Node::Text(text) => rows.push(Row {
                serial: text.serial,
                sort: RowSort::Text,
                name: None,
                parent: element.serial,
                value: Some(text.value.clone()),
            }),
        }
    }
}
