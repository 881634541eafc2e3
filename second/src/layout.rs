//! The store as bytes: records, table of contents, zero fill.
//!
//! [`decode`] secures the layout alone: that the string is the encoding of the
//! trees it hands back. What the trees must fulfil is asked in `check`.

use crate::store::*;

pub const HEADER: usize = 40;
pub const DEFINITION: usize = 20;
pub const PARTICLE: usize = 4;
pub const ATTRIBUTE: usize = 52;
pub const ROW: usize = 44;
/// Where the value stands in a tree row.
pub const ROW_VALUE: usize = 10;

const ROW_ELEMENT: u8 = 1;
const ROW_ATTRIBUTE: u8 = 2;
const ROW_TEXT: u8 = 3;

/// The four bodies of a store.
struct Bodies<'a> {
    definitions: &'a [u8],
    particles: &'a [u8],
    attributes: &'a [u8],
    rows: &'a [u8],
}

/// A tree row as it stands in its record.
struct FlatRow {
    sort: u8,
    depth: usize,
    index: usize,
    serial: u32,
    value: Vec<u8>,
}

fn u16_at(bytes: &[u8], at: usize) -> usize {
    u16::from_le_bytes([bytes[at], bytes[at + 1]]) as usize
}

pub fn u32_at(bytes: &[u8], at: usize) -> u32 {
    u32::from_le_bytes([bytes[at], bytes[at + 1], bytes[at + 2], bytes[at + 3]])
}

/// The trees of which the string is the encoding, if its layout is right.
pub fn decode(bytes: &[u8]) -> Option<Store> {
    let bodies = split(bytes)?;
    let definitions = decode_definitions(&bodies)?;
    let mut attributes = Vec::new();
    for record in bodies.attributes.chunks(ATTRIBUTE) {
        attributes.push(decode_attribute(record)?);
    }
    let form = Form {
        definitions,
        attributes,
    };
    let rows: Vec<FlatRow> = bodies
        .rows
        .chunks(ROW)
        .map(decode_row)
        .collect::<Option<_>>()?;
    let mut documents = Vec::new();
    let mut at = 0;
    while at < rows.len() {
        documents.push(decode_element(&rows, &mut at, 0)?);
    }
    Some(Store {
        next_serial: u32_at(bytes, 4),
        form,
        documents,
    })
}

/// Reads the table of contents: no gap, nothing over, the ceilings kept.
fn split(bytes: &[u8]) -> Option<Bodies<'_>> {
    if bytes.len() < HEADER || u32_at(bytes, 0) != VERSION {
        return None;
    }
    let kinds = [
        (DEFINITION, MAX_DEFINITIONS),
        (PARTICLE, MAX_PARTICLES),
        (ATTRIBUTE, MAX_ATTRIBUTES),
        (ROW, MAX_ROWS),
    ];
    let mut parts: [&[u8]; 4] = [&[]; 4];
    let mut start = HEADER;
    for (number, (size, ceiling)) in kinds.into_iter().enumerate() {
        let entry = 8 + 8 * number;
        let count = u32_at(bytes, entry + 4) as usize;
        if u32_at(bytes, entry) as usize != start || count > ceiling {
            return None;
        }
        parts[number] = bytes.get(start..start + count * size)?;
        start += count * size;
    }
    if start != bytes.len() {
        return None;
    }
    let [definitions, particles, attributes, rows] = parts;
    Some(Bodies {
        definitions,
        particles,
        attributes,
        rows,
    })
}

/// The first `length` bytes of a field whose other bytes are zero.
fn filled(field: &[u8], length: u8) -> Option<Vec<u8>> {
    let length = length as usize;
    if length > field.len() || field[length..].iter().any(|&byte| byte != 0) {
        return None;
    }
    Some(field[..length].to_vec())
}

fn decode_definitions(bodies: &Bodies) -> Option<Vec<Definition>> {
    let mut definitions = Vec::new();
    let mut particles = bodies.particles;
    for record in bodies.definitions.chunks(DEFINITION) {
        let kind = Kind::from_code(record[17] as u32)?;
        let count = u16_at(record, 18);
        if kind != Kind::Complex && count != 0 || count * PARTICLE > particles.len() {
            return None;
        }
        let (mut own, rest) = particles.split_at(count * PARTICLE);
        let mut model = Vec::new();
        while !own.is_empty() {
            model.push(decode_particle(&mut own, 0)?);
        }
        particles = rest;
        definitions.push(Definition {
            name: filled(&record[1..17], record[0])?,
            kind,
            model,
        });
    }
    particles.is_empty().then_some(definitions)
}

/// Reads a particle with all its members off the front of `part`.
fn decode_particle(part: &mut &[u8], depth: usize) -> Option<Particle> {
    let record = part.get(..PARTICLE)?;
    if depth > MAX_MODEL_DEPTH || record[3] as usize != depth {
        return None;
    }
    *part = &part[PARTICLE..];
    let quantifier = Quantifier::from_code(record[1] as u32)?;
    let term = match record[0] {
        0 => Term::Element(record[2] as usize),
        sort => {
            let kind = GroupKind::from_code(sort as u32)?;
            let mut members = Vec::new();
            for _ in 0..record[2] {
                members.push(decode_particle(part, depth + 1)?);
            }
            Term::Group(kind, members)
        }
    };
    Some(Particle { quantifier, term })
}

fn decode_attribute(record: &[u8]) -> Option<Attribute> {
    Some(Attribute {
        owner: record[0] as usize,
        name: filled(&record[2..18], record[1])?,
        sort: AttributeSort::from_code(record[18] as u32)?,
        value: filled(&record[20..52], record[19])?,
    })
}

fn decode_row(record: &[u8]) -> Option<FlatRow> {
    let row = FlatRow {
        sort: record[0],
        depth: record[1] as usize,
        index: u16_at(record, 2),
        serial: u32_at(record, 4),
        value: filled(&record[ROW_VALUE..42], record[8])?,
    };
    let sort_fits = match row.sort {
        ROW_ELEMENT => row.value.is_empty(),
        ROW_ATTRIBUTE => true,
        ROW_TEXT => row.index == 0,
        _ => false,
    };
    let zero = record[9] == 0 && record[42] == 0 && record[43] == 0;
    (sort_fits && zero).then_some(row)
}

/// Reads the element at row `at` with all below it.
fn decode_element(rows: &[FlatRow], at: &mut usize, depth: usize) -> Option<Element> {
    let first = rows.get(*at)?;
    if first.sort != ROW_ELEMENT || first.depth != depth {
        return None;
    }
    let mut element = Element {
        definition: first.index,
        serial: first.serial,
        attributes: Vec::new(),
        content: Vec::new(),
    };
    *at += 1;
    while *at < rows.len() && rows[*at].depth > depth {
        let row = &rows[*at];
        if row.depth != depth + 1 {
            return None;
        }
        if row.sort == ROW_ELEMENT {
            let child = decode_element(rows, at, depth + 1)?;
            element.content.push(Node::Element(child));
            continue;
        }
        if row.sort == ROW_ATTRIBUTE && !element.content.is_empty() {
            return None;
        }
        decode_leaf(row, &mut element);
        *at += 1;
    }
    Some(element)
}

fn decode_leaf(row: &FlatRow, element: &mut Element) {
    let (serial, value) = (row.serial, row.value.clone());
    if row.sort == ROW_ATTRIBUTE {
        element.attributes.push(AttributeRow {
            attribute: row.index,
            serial,
            value,
        });
    } else {
        element.content.push(Node::Text(Text { serial, value }));
    }
}

/// The number of particles of a list, groups and inner members included.
pub fn particle_count(members: &[Particle]) -> usize {
    members
        .iter()
        .map(|particle| match &particle.term {
            Term::Element(_) => 1,
            Term::Group(_, inner) => 1 + particle_count(inner),
        })
        .sum()
}

pub fn encode(store: &Store) -> Vec<u8> {
    let form = &store.form;
    let mut bodies: [Vec<u8>; 4] = Default::default();
    for definition in &form.definitions {
        encode_definition(definition, &mut bodies[0]);
        encode_members(&definition.model, 0, &mut bodies[1]);
    }
    for attribute in &form.attributes {
        encode_attribute(attribute, &mut bodies[2]);
    }
    for document in &store.documents {
        encode_element(document, 0, &mut bodies[3]);
    }
    let mut bytes = Vec::new();
    bytes.extend(VERSION.to_le_bytes());
    bytes.extend(store.next_serial.to_le_bytes());
    let mut offset = HEADER;
    for (body, size) in bodies.iter().zip([DEFINITION, PARTICLE, ATTRIBUTE, ROW]) {
        bytes.extend((offset as u32).to_le_bytes());
        bytes.extend(((body.len() / size) as u32).to_le_bytes());
        offset += body.len();
    }
    bytes.extend(bodies.concat());
    bytes
}

/// Writes the bytes and fills the field up with zeros.
fn fill(bytes: &[u8], width: usize, body: &mut Vec<u8>) {
    let end = body.len() + width;
    body.extend(bytes);
    body.resize(end, 0);
}

fn encode_definition(definition: &Definition, body: &mut Vec<u8>) {
    body.push(definition.name.len() as u8);
    fill(&definition.name, MAX_NAME, body);
    body.push(definition.kind.code());
    body.extend((particle_count(&definition.model) as u16).to_le_bytes());
}

fn encode_members(members: &[Particle], depth: u8, body: &mut Vec<u8>) {
    for particle in members {
        let quantifier = particle.quantifier.code();
        match &particle.term {
            Term::Element(index) => body.extend([0, quantifier, *index as u8, depth]),
            Term::Group(kind, inner) => {
                body.extend([kind.code(), quantifier, inner.len() as u8, depth]);
                encode_members(inner, depth + 1, body);
            }
        }
    }
}

fn encode_attribute(attribute: &Attribute, body: &mut Vec<u8>) {
    body.push(attribute.owner as u8);
    body.push(attribute.name.len() as u8);
    fill(&attribute.name, MAX_NAME, body);
    body.push(attribute.sort.code());
    body.push(attribute.value.len() as u8);
    fill(&attribute.value, MAX_VALUE, body);
}

fn encode_element(element: &Element, depth: u8, body: &mut Vec<u8>) {
    let index = element.definition;
    encode_row(ROW_ELEMENT, depth, index, element.serial, &[], body);
    for row in &element.attributes {
        let (index, value) = (row.attribute, &row.value);
        encode_row(ROW_ATTRIBUTE, depth + 1, index, row.serial, value, body);
    }
    for node in &element.content {
        match node {
            Node::Element(child) => encode_element(child, depth + 1, body),
            Node::Text(text) => encode_row(ROW_TEXT, depth + 1, 0, text.serial, &text.value, body),
        }
    }
}

fn encode_row(sort: u8, depth: u8, index: usize, serial: u32, value: &[u8], body: &mut Vec<u8>) {
    body.extend([sort, depth]);
    body.extend((index as u16).to_le_bytes());
    body.extend(serial.to_le_bytes());
    body.extend([value.len() as u8, 0]);
    fill(value, MAX_VALUE, body);
    body.extend([0, 0]);
}
