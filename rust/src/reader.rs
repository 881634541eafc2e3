//! Reads what a store holds that passes the check.

use crate::fields::{number, text};
use crate::model::PARTICLE;
use crate::rows::{self, ROW};
use crate::{AttributeSort, Code, Element, Elements, Kind, Model, Refusal, Row};

const DEFINITION: usize = 20;
const ATTRIBUTE: usize = 52;

/// What a store holds.
///
/// ```
/// use formstore::{Content, Kind, Refusal, Store};
///
/// let mut store = Store::fresh();
/// store.create_definition(b"bib", Kind::Pcdata)?;
/// store.add_document(0, b"7")?;
/// let reader = store.reader();
/// assert_eq!(reader.next_serial(), 3);
/// assert_eq!(reader.definition_named("bib").map(|bib| bib.index), Some(0));
/// let text = reader.rows().find(|row| row.serial == 2).map(|row| row.content);
/// assert_eq!(text, Some(Content::Text { value: "7" }));
/// # Ok::<(), Refusal>(())
/// ```
#[derive(Clone, Copy, Debug)]
pub struct Reader<'a> {
    store: &'a [u8],
}

/// A definition.
#[derive(Clone, Copy, Debug, PartialEq, Eq)]
pub struct Definition<'a> {
    /// The index by which the calls take it.
    pub index: u32,
    /// The name.
    pub name: &'a str,
    /// What its elements hold.
    pub kind: Kind,
}

/// An attribute.
#[derive(Clone, Copy, Debug, PartialEq, Eq)]
pub struct Attribute<'a> {
    /// The index by which the calls take it.
    pub index: u32,
    /// The index of the definition that has it.
    pub owner: u32,
    /// The name.
    pub name: &'a str,
    /// The sort.
    pub sort: AttributeSort,
    /// REQUIRED: the fill for created rows; FIXED: the value; IMPLIED: empty.
    pub value: &'a str,
}

impl<'a> TryFrom<&'a [u8]> for Reader<'a> {
    type Error = Refusal;

    fn try_from(store: &'a [u8]) -> Result<Reader<'a>, Refusal> {
        Reader::new(store)
    }
}

impl<'a> Reader<'a> {
    /// Reads a store. Refuses with `BadStore` where it does not pass the check.
    pub fn new(store: &'a [u8]) -> Result<Reader<'a>, Refusal> {
        crate::check(store)?;
        Ok(Reader { store })
    }

    /// Reads a store that is known to pass.
    #[cfg(feature = "std")]
    pub(crate) fn of_checked(store: &'a [u8]) -> Reader<'a> {
        Reader { store }
    }

    /// The serial that the next row gets.
    pub fn next_serial(&self) -> u32 {
        number(self.store, 4, 4)
    }

    /// The definitions, in the order of their indices.
    pub fn definitions(&self) -> impl Iterator<Item = Definition<'a>> {
        let records = self.body(8, DEFINITION).chunks_exact(DEFINITION);
        (0..).zip(records).map(|(index, record)| Definition {
            index,
            name: text(record, 1, number(record, 0, 1)),
            kind: Kind::from_code(number(record, 17, 1)).unwrap_or(Kind::Empty),
        })
    }

    /// The definition with this index.
    pub fn definition(&self, index: u32) -> Option<Definition<'a>> {
        self.definitions().nth(index as usize)
    }

    /// The definition with this name.
    pub fn definition_named(&self, name: &str) -> Option<Definition<'a>> {
        self.definitions()
            .find(|definition| definition.name == name)
    }

    /// The name of the definition with this index; empty where there is none.
    pub(crate) fn name(&self, index: u32) -> &'a str {
        self.definition(index)
            .map_or("", |definition| definition.name)
    }

    /// The model of the definition with this index; that of an EMPTY or PCDATA one has no members.
    pub fn model(&self, index: u32) -> Option<Model<'a>> {
        let kind = self.definition(index)?.kind;
        let mut counts = self
            .body(8, DEFINITION)
            .chunks_exact(DEFINITION)
            .map(|record| (number(record, 18, 2) as usize).saturating_mul(PARTICLE));
        let before = counts.by_ref().take(index as usize).sum();
        let particles = self.body(16, PARTICLE).get(before..).unwrap_or_default();
        Some(Model {
            reader: *self,
            kind,
            particles: particles.get(..counts.next()?).unwrap_or_default(),
        })
    }

    /// The attributes, in the order of their indices.
    pub fn attributes(&self) -> impl Iterator<Item = Attribute<'a>> {
        let records = self.body(24, ATTRIBUTE).chunks_exact(ATTRIBUTE);
        (0..).zip(records).map(|(index, record)| Attribute {
            index,
            owner: number(record, 0, 1),
            name: text(record, 2, number(record, 1, 1)),
            sort: AttributeSort::from_code(number(record, 18, 1)).unwrap_or(AttributeSort::Implied),
            value: text(record, 20, number(record, 19, 1)),
        })
    }

    /// The attribute with this index.
    pub fn attribute(&self, index: u32) -> Option<Attribute<'a>> {
        self.attributes().nth(index as usize)
    }

    /// The attributes of the definition with this index.
    pub fn attributes_of(&self, owner: u32) -> impl Iterator<Item = Attribute<'a>> {
        self.attributes()
            .filter(move |attribute| attribute.owner == owner)
    }

    /// The attribute with this name of the definition with this index.
    pub fn attribute_named(&self, owner: u32, name: &str) -> Option<Attribute<'a>> {
        self.attributes_of(owner)
            .find(|attribute| attribute.name == name)
    }

    /// The rows of all documents, in document order.
    pub fn rows(&self) -> impl Iterator<Item = Row<'a>> {
        rows::rows(self.row_body())
    }

    /// The documents.
    pub fn documents(&self) -> Elements<'a> {
        let rows = self.row_body();
        Elements { rows }
    }

    /// The element with this serial.
    pub fn element(&self, serial: u32) -> Option<Element<'a>> {
        rows::element(self.row_body(), serial)
    }

    fn row_body(&self) -> &'a [u8] {
        self.body(32, ROW)
    }

    /// The records of the body whose offset and count stand there in the table of contents.
    fn body(&self, entry: usize, size: usize) -> &'a [u8] {
        let start = number(self.store, entry, 4) as usize;
        let count = number(self.store, entry.saturating_add(4), 4) as usize;
        let body = self.store.get(start..).unwrap_or_default();
        body.get(..count.saturating_mul(size)).unwrap_or_default()
    }
}
