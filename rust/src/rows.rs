//! The rows of documents, read from a store, flat and as trees.

use crate::fields::{number, split_first_tree, text};

pub(crate) const ROW: usize = 44;
const DEPTH: usize = 1;
const ELEMENT: u32 = 1;
const ATTRIBUTE: u32 = 2;

/// A row of a document.
#[derive(Clone, Copy, Debug, PartialEq, Eq)]
pub struct Row<'a> {
    /// The serial.
    pub serial: u32,
    /// The elements around it; 0 starts a document.
    pub depth: u32,
    /// What it is.
    pub content: Content<'a>,
}

/// What a row is.
#[derive(Clone, Copy, Debug, PartialEq, Eq)]
pub enum Content<'a> {
    /// An element of the definition with this index.
    Element {
        /// The index of its definition.
        definition: u32,
    },
    /// An attribute of the element whose row came before.
    Attribute {
        /// The index of its attribute.
        attribute: u32,
        /// The value.
        value: &'a str,
    },
    /// The text of the element whose row came before.
    Text {
        /// The value.
        value: &'a str,
    },
}

/// An element of a document, with all that is below it.
///
/// ```
/// use formstore::{Kind, Quantifier, Refusal, Store};
///
/// let mut store = Store::fresh();
/// store.create_definition(b"race", Kind::Complex)?;
/// store.create_definition(b"time", Kind::Pcdata)?;
/// store.insert_element(0, &[0], 1, Quantifier::None, b"-")?;
/// store.add_document(0, b"19:04")?;
/// let race = store.reader().documents().next().expect("a document");
/// let time = race.children().next().expect("a child");
/// assert_eq!((time.serial, time.text()), (2, Some("19:04")));
/// assert_eq!(race.rows().count(), 3);
/// # Ok::<(), Refusal>(())
/// ```
#[derive(Clone, Copy, Debug, PartialEq, Eq)]
pub struct Element<'a> {
    /// The serial.
    pub serial: u32,
    /// The index of its definition.
    pub definition: u32,
    /// The elements around it.
    pub depth: u32,
    /// The records of its own row and of those below it.
    rows: &'a [u8],
}

/// Elements that stand beside each other: the documents, or the children of one element.
#[derive(Clone, Debug)]
pub struct Elements<'a> {
    pub(crate) rows: &'a [u8],
}

impl<'a> Element<'a> {
    /// Its own row and all rows below it, in document order.
    pub fn rows(&self) -> impl Iterator<Item = Row<'a>> {
        rows(self.rows)
    }

    /// The rows of its attributes, in the order of their indices.
    pub fn attributes(&self) -> impl Iterator<Item = Row<'a>> {
        let behind = self.rows().skip(1);
        behind.take_while(|row| matches!(row.content, Content::Attribute { .. }))
    }

    /// Its text, where it is an element with a text.
    pub fn text(&self) -> Option<&'a str> {
        let mut behind = self.rows().skip(1);
        let own = behind.find(|row| !matches!(row.content, Content::Attribute { .. }))?;
        match own.content {
            Content::Text { value } => Some(value),
            _ => None,
        }
    }

    /// The elements right below it.
    pub fn children(&self) -> Elements<'a> {
        let rows = self.rows.get(ROW..).unwrap_or_default();
        Elements { rows }
    }
}

impl<'a> Iterator for Elements<'a> {
    type Item = Element<'a>;

    fn next(&mut self) -> Option<Element<'a>> {
        loop {
            let all = self.rows;
            let (record, _, rest) = split_first_tree(all, ROW, DEPTH)?;
            self.rows = rest;
            if is_element(record) {
                let length = all.len().saturating_sub(rest.len());
                return Some(Element {
                    serial: number(record, 4, 4),
                    definition: number(record, 2, 2),
                    depth: number(record, DEPTH, 1),
                    rows: all.get(..length)?,
                });
            }
        }
    }
}

/// The element with this serial.
pub(crate) fn element(records: &[u8], serial: u32) -> Option<Element<'_>> {
    let wanted = |record: &[u8]| is_element(record) && number(record, 4, 4) == serial;
    let at = records.chunks_exact(ROW).position(wanted)?;
    let rows = records.get(at.saturating_mul(ROW)..)?;
    Elements { rows }.next()
}

/// The rows of these records.
pub(crate) fn rows(records: &[u8]) -> impl Iterator<Item = Row<'_>> {
    records.chunks_exact(ROW).map(|record| Row {
        serial: number(record, 4, 4),
        depth: number(record, DEPTH, 1),
        content: content(record),
    })
}

fn is_element(record: &[u8]) -> bool {
    number(record, 0, 1) == ELEMENT
}

fn content(record: &[u8]) -> Content<'_> {
    let index = number(record, 2, 2);
    let value = text(record, 10, number(record, 8, 1));
    match number(record, 0, 1) {
        ELEMENT => Content::Element { definition: index },
        ATTRIBUTE => Content::Attribute {
            attribute: index,
            value,
        },
        _ => Content::Text { value },
    }
}
