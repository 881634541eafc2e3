//! Any of the sixteen changes with its arguments.

use crate::changes::{documents, form, models};
use crate::outcome::Answer;

type Bytes = Vec<u8>;
type Place = Vec<u32>;

#[derive(Clone, Debug, PartialEq, Eq)]
pub enum Call {
    CreateDefinition {
        name: Bytes,
        kind: u32,
    },
    DestroyDefinition {
        definition: u32,
    },
    InsertElement {
        owner: u32,
        place: Place,
        definition: u32,
        quantifier: u32,
        text: Bytes,
    },
    RemoveElement {
        owner: u32,
        place: Place,
    },
    ChangeQuantifier {
        owner: u32,
        place: Place,
        quantifier: u32,
        text: Bytes,
    },
    ConvertToGroup {
        owner: u32,
        place: Place,
        count: u32,
        sort: u32,
    },
    FlattenGroup {
        owner: u32,
        place: Place,
    },
    ChangeGroupQuantifier {
        owner: u32,
        place: Place,
        quantifier: u32,
        text: Bytes,
    },
    AddAttribute {
        owner: u32,
        name: Bytes,
        sort: u32,
        value: Bytes,
    },
    DestroyAttribute {
        attribute: u32,
    },
    AddDocument {
        definition: u32,
        text: Bytes,
    },
    AddElement {
        parent: u32,
        child: u32,
        definition: u32,
        text: Bytes,
    },
    DestroyElement {
        element: u32,
    },
    SetAttribute {
        element: u32,
        attribute: u32,
        value: Bytes,
    },
    DestroyAttributeRow {
        element: u32,
        attribute: u32,
    },
    SetText {
        element: u32,
        text: Bytes,
    },
}

impl Call {
    /// The number of the change, 1 to 16.
    pub fn number(&self) -> usize {
        match self {
            Call::CreateDefinition { .. } => 1,
            Call::DestroyDefinition { .. } => 2,
            Call::InsertElement { .. } => 3,
            Call::RemoveElement { .. } => 4,
            Call::ChangeQuantifier { .. } => 5,
            Call::ConvertToGroup { .. } => 6,
            Call::FlattenGroup { .. } => 7,
            Call::ChangeGroupQuantifier { .. } => 8,
            Call::AddAttribute { .. } => 9,
            Call::DestroyAttribute { .. } => 10,
            Call::AddDocument { .. } => 11,
            Call::AddElement { .. } => 12,
            Call::DestroyElement { .. } => 13,
            Call::SetAttribute { .. } => 14,
            Call::DestroyAttributeRow { .. } => 15,
            Call::SetText { .. } => 16,
        }
    }
}

/// Runs the call on a store and a buffer.
pub fn apply(call: &Call, store: &[u8], out: &mut [u8]) -> Answer {
    match call {
        Call::CreateDefinition { name, kind } => form::create_definition(store, name, *kind, out),
        Call::DestroyDefinition { definition } => form::destroy_definition(store, *definition, out),
        Call::InsertElement {
            owner,
            place,
            definition,
            quantifier,
            text,
        } => models::insert_element(store, *owner, place, *definition, *quantifier, text, out),
        Call::RemoveElement { owner, place } => models::remove_element(store, *owner, place, out),
        Call::ChangeQuantifier {
            owner,
            place,
            quantifier,
            text,
        } => models::change_quantifier(store, *owner, place, *quantifier, text, out),
        Call::ConvertToGroup {
            owner,
            place,
            count,
            sort,
        } => models::convert_to_group(store, *owner, place, *count, *sort, out),
        Call::FlattenGroup { owner, place } => models::flatten_group(store, *owner, place, out),
        Call::ChangeGroupQuantifier {
            owner,
            place,
            quantifier,
            text,
        } => models::change_group_quantifier(store, *owner, place, *quantifier, text, out),
        Call::AddAttribute {
            owner,
            name,
            sort,
            value,
        } => form::add_attribute(store, *owner, name, *sort, value, out),
        Call::DestroyAttribute { attribute } => form::destroy_attribute(store, *attribute, out),
        Call::AddDocument { definition, text } => {
            documents::add_document(store, *definition, text, out)
        }
        Call::AddElement {
            parent,
            child,
            definition,
            text,
        } => documents::add_element(store, *parent, *child, *definition, text, out),
        Call::DestroyElement { element } => documents::destroy_element(store, *element, out),
        Call::SetAttribute {
            element,
            attribute,
            value,
        } => documents::set_attribute(store, *element, *attribute, value, out),
        Call::DestroyAttributeRow { element, attribute } => {
            documents::destroy_attribute_row(store, *element, *attribute, out)
        }
        Call::SetText { element, text } => documents::set_text(store, *element, text, out),
    }
}
