//! The lists of a store: its rows, each with the element that it stands in.

use formstore::{Content, Row, Store};

/// A row, and where it stands.
#[derive(Clone, Copy)]
pub struct Line<'a> {
    pub row: Row<'a>,
    /// The serial of the element around it; 0 at the root of a document.
    pub parent: u32,
    /// Its document, from 1.
    pub document: usize,
    /// Its number among the element children of its parent, from 0; for an element that has a parent.
    pub child: Option<u32>,
}

pub struct Lists<'a> {
    pub lines: Vec<Line<'a>>,
}

/// An element that is open while the rows are read.
struct Open {
    serial: u32,
    children: u32,
}

impl<'a> Lists<'a> {
    pub fn of(store: &'a Store) -> Lists<'a> {
        let mut open: Vec<Open> = Vec::new();
        let mut document = 0;
        let lines = store.reader().rows().map(|row| {
            open.truncate(row.depth as usize);
            document += usize::from(row.depth == 0);
            place_row(row, &mut open, document)
        });
        Lists {
            lines: lines.collect(),
        }
    }

    pub fn find(&self, serial: u32) -> Option<&Line<'a>> {
        self.lines.iter().find(|line| line.row.serial == serial)
    }

    /// The definition of the element with this serial.
    pub fn definition(&self, serial: u32) -> Option<u32> {
        self.find(serial)?.definition()
    }

    /// The element children, in order.
    pub fn children(&self, parent: u32) -> impl Iterator<Item = &Line<'a>> {
        let lines = self.lines.iter();
        lines.filter(move |line| line.parent == parent && line.child.is_some())
    }

    /// The elements of a definition.
    pub fn instances(&self, definition: u32) -> impl Iterator<Item = &Line<'a>> {
        let lines = self.lines.iter();
        lines.filter(move |line| line.definition() == Some(definition))
    }

    /// The roots of the documents, in order.
    pub fn roots(&self) -> impl Iterator<Item = &Line<'a>> {
        self.lines.iter().filter(|line| line.row.depth == 0)
    }

    /// An element with all below it.
    pub fn below(&self, serial: u32) -> &[Line<'a>] {
        let Some(start) = self.lines.iter().position(|line| line.row.serial == serial) else {
            return &[];
        };
        let depth = self.lines[start].row.depth;
        let inner = self.lines[start + 1..].iter();
        let count = inner.take_while(|line| line.row.depth > depth).count();
        &self.lines[start..start + 1 + count]
    }
}

impl Line<'_> {
    /// The definition of an element.
    pub fn definition(&self) -> Option<u32> {
        match self.row.content {
            Content::Element { definition } => Some(definition),
            _ => None,
        }
    }
}

/// The line of a row under the open elements, which it joins if it is one.
fn place_row<'a>(row: Row<'a>, open: &mut Vec<Open>, document: usize) -> Line<'a> {
    let element = matches!(row.content, Content::Element { .. });
    let mut line = Line {
        row,
        parent: 0,
        document,
        child: None,
    };
    if let Some(parent) = open.last_mut() {
        line.parent = parent.serial;
        if element {
            line.child = Some(parent.children);
            parent.children += 1;
        }
    }
    if element {
        open.push(Open {
            serial: row.serial,
            children: 0,
        });
    }
    line
}
