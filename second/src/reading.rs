//! *Bring a printed list back in*: a text as the printer gives it, and no
//! other, read into a store.

use crate::check;
use crate::layout;
use crate::outcome::{write, Answer, Refusal};
use crate::store::*;
use std::collections::HashMap;

/// Reads a text that some store prints, and writes the store of it.
pub fn read_text(text: &[u8], out: &mut [u8]) -> Answer {
    let result = (|| {
        let store = store_of(text).ok_or(Refusal::BadText)?;
        write(&layout::encode(&store), out)
    })();
    Answer::from(result)
}

/// The store of a text; none where no store that passes prints it.
pub fn store_of(text: &[u8]) -> Option<Store> {
    let mut reader = Reader {
        rest: text,
        names: declared_names(text)?,
        store: Store::fresh(),
    };
    while reader.is_next(b"<!ELEMENT ") {
        reader.definition()?;
    }
    if !check::within_ceilings(&reader.store) || !check::well_formed(&reader.store.form) {
        return None;
    }
    while !reader.rest.is_empty() {
        let document = reader.element(0)?;
        reader.store.documents.push(document);
        reader.take(b"\n")?;
    }
    // Rows are counted, and numbered as they must be, where they are read.
    check::conforming(&reader.store).then_some(reader.store)
}

/// The names that are declared, each with the number of declarations before
/// its own: a model may have names that are declared further on.
fn declared_names(text: &[u8]) -> Option<HashMap<&[u8], usize>> {
    let mut names = HashMap::new();
    let declarations = text
        .split(|&byte| byte == b'\n')
        .take_while(|line| line.starts_with(b"<!"));
    for line in declarations {
        let Some(rest) = line.strip_prefix(b"<!ELEMENT ") else {
            continue;
        };
        let name = &rest[..name_length(rest)];
        let index = names.len();
        if index == MAX_DEFINITIONS || names.insert(name, index).is_some() {
            return None;
        }
    }
    Some(names)
}

/// How many bytes at the front may stand in a name.
fn name_length(text: &[u8]) -> usize {
    let in_name = |byte: &u8| byte.is_ascii_alphanumeric() || b"_-.".contains(byte);
    let end = text.iter().position(|byte| !in_name(byte));
    end.unwrap_or(text.len())
}

/// The text from a place on, and what was read before it.
struct Reader<'a> {
    rest: &'a [u8],
    names: HashMap<&'a [u8], usize>,
    store: Store,
}

/// The parts of a text; none where something else stands there.
impl<'a> Reader<'a> {
    fn is_next(&self, part: &[u8]) -> bool {
        self.rest.starts_with(part)
    }

    fn take(&mut self, part: &[u8]) -> Option<()> {
        self.rest = self.rest.strip_prefix(part)?;
        Some(())
    }

    fn skip(&mut self, length: usize) -> &'a [u8] {
        let (front, rest) = self.rest.split_at(length);
        self.rest = rest;
        front
    }

    /// What stands where a name should; the check judges it.
    fn name(&mut self) -> &'a [u8] {
        self.skip(name_length(self.rest))
    }

    /// What stands up to the next `<`, `>` or `"`, the four escapes undone; the
    /// check judges the rest of it.
    fn value(&mut self) -> Option<Vec<u8>> {
        let mut value = Vec::new();
        loop {
            let end = self.rest.iter().position(|byte| b"<>\"&".contains(byte))?;
            value.extend(self.skip(end));
            if self.rest[0] != b'&' {
                return Some(value);
            }
            value.push(self.escape()?);
        }
    }

    fn escape(&mut self) -> Option<u8> {
        let escapes: [(&[u8], u8); 4] = [
            (b"&amp;", b'&'),
            (b"&lt;", b'<'),
            (b"&gt;", b'>'),
            (b"&quot;", b'"'),
        ];
        let taken = |(escape, byte): (&[u8], u8)| self.take(escape).map(|()| byte);
        escapes.into_iter().find_map(taken)
    }
}

/// The declarations.
impl Reader<'_> {
    /// An ELEMENT line with the ATTLIST lines after it.
    fn definition(&mut self) -> Option<()> {
        self.take(b"<!ELEMENT ")?;
        let name = self.name();
        self.take(b" ")?;
        let (kind, model) = self.content()?;
        self.take(b">\n")?;
        self.store.form.definitions.push(Definition {
            name: name.to_vec(),
            kind,
            model,
        });
        while self.is_next(b"<!ATTLIST ") {
            let attribute = self.attribute(name)?;
            self.store.form.attributes.push(attribute);
        }
        Some(())
    }

    fn content(&mut self) -> Option<(Kind, Vec<Particle>)> {
        if self.take(b"EMPTY").is_some() {
            return Some((Kind::Empty, Vec::new()));
        }
        if self.take(b"(#PCDATA)").is_some() {
            return Some((Kind::Pcdata, Vec::new()));
        }
        let (kind, members) = self.group(0)?;
        (kind == GroupKind::List).then_some((Kind::Complex, members))
    }

    /// A group with its brackets, its members having so many groups around
    /// them. One of a single member is a LIST.
    fn group(&mut self, depth: usize) -> Option<(GroupKind, Vec<Particle>)> {
        if depth > MAX_MODEL_DEPTH {
            return None;
        }
        self.take(b"(")?;
        let mut members = vec![self.particle(depth)?];
        let (kind, separator) = match self.is_next(b"|") {
            true => (GroupKind::Choice, b"|"),
            false => (GroupKind::List, b","),
        };
        while self.take(separator).is_some() {
            members.push(self.particle(depth)?);
        }
        self.take(b")")?;
        Some((kind, members))
    }

    fn particle(&mut self, depth: usize) -> Option<Particle> {
        let term = if self.is_next(b"(") {
            let (kind, members) = self.group(depth + 1)?;
            Term::Group(kind, members)
        } else {
            let name = self.name();
            Term::Element(*self.names.get(name)?)
        };
        let quantifier = match self.rest.first()? {
            b'?' => Quantifier::Qmark,
            b'*' => Quantifier::Star,
            b'+' => Quantifier::Plus,
            _ => Quantifier::None,
        };
        self.skip(usize::from(quantifier != Quantifier::None));
        Some(Particle { quantifier, term })
    }

    /// An ATTLIST line of the definition read last, which has this name.
    fn attribute(&mut self, owner: &[u8]) -> Option<Attribute> {
        self.take(b"<!ATTLIST ")?;
        self.take(owner)?;
        self.take(b" ")?;
        let name = self.name().to_vec();
        self.take(b" CDATA #")?;
        let (sort, value) = if self.take(b"IMPLIED").is_some() {
            (AttributeSort::Implied, Vec::new())
        } else if self.take(b"REQUIRED").is_some() {
            (AttributeSort::Required, b"-".to_vec())
        } else {
            self.take(b"FIXED \"")?;
            let value = self.value()?;
            self.take(b"\"")?;
            (AttributeSort::Fixed, value)
        };
        self.take(b">\n")?;
        Some(Attribute {
            owner: self.store.form.definitions.len() - 1,
            name,
            sort,
            value,
        })
    }
}

/// The documents.
impl Reader<'_> {
    /// The serial of the next row; none past the ceiling.
    fn serial(&mut self) -> Option<u32> {
        let serial = self.store.next_serial;
        self.store.next_serial += 1;
        (serial as usize <= MAX_ROWS).then_some(serial)
    }

    /// An element below so many others. No definition reaches itself, so those
    /// around it and its own differ.
    fn element(&mut self, depth: usize) -> Option<Element> {
        if depth == MAX_DEFINITIONS {
            return None;
        }
        self.take(b"<")?;
        let name = self.name();
        let definition = *self.names.get(name)?;
        let mut element = Element {
            definition,
            serial: self.serial()?,
            attributes: self.attribute_rows(definition)?,
            content: Vec::new(),
        };
        self.take(b">")?;
        if self.store.form.definitions.get(definition)?.kind == Kind::Pcdata {
            let serial = self.serial()?;
            let value = self.value()?;
            element.content.push(Node::Text(Text { serial, value }));
        }
        while !self.is_next(b"</") {
            let child = self.element(depth + 1)?;
            element.content.push(Node::Element(child));
        }
        self.take(b"</")?;
        self.take(name)?;
        self.take(b">")?;
        Some(element)
    }

    fn attribute_rows(&mut self, owner: usize) -> Option<Vec<AttributeRow>> {
        let mut rows = Vec::new();
        while self.take(b" ").is_some() {
            let name = self.name();
            let own = |known: &Attribute| known.owner == owner && known.name == name;
            let attribute = self.store.form.attributes.iter().position(own)?;
            self.take(b"=\"")?;
            let serial = self.serial()?;
            let value = self.value()?;
            self.take(b"\"")?;
            rows.push(AttributeRow {
                attribute,
                serial,
                value,
            });
        }
        Some(rows)
    }
}
