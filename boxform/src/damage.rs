//! Why bytes do not pass the check. The proved check itself is asked about parts of them, so that this says no other
//! rule than it.

use crate::form::Form;
use formstore::{check, Store, MAX_ATTRIBUTES, MAX_DEFINITIONS, MAX_PARTICLES, MAX_ROWS};

const HEADER: usize = 40;
const DEFINITION: usize = 20;
const ATTRIBUTE: usize = 52;
const ROW: usize = 44;

/// The bodies of a store: what each is called, how long a record is, and how many there are at the most.
const BODIES: [(&str, usize, usize); 4] = [
    ("definitions", DEFINITION, MAX_DEFINITIONS),
    ("particles", 4, MAX_PARTICLES),
    ("attributes", ATTRIBUTE, MAX_ATTRIBUTES),
    ("rows", ROW, MAX_ROWS),
];

/// The records of the four bodies, and the next serial.
#[derive(Clone, Copy)]
struct Parts<'a> {
    next: &'a [u8],
    bodies: [&'a [u8]; 4],
}

/// Why these bytes are no store.
pub fn reason(bytes: &[u8]) -> String {
    let found = header(bytes).and_then(|()| parts(bytes));
    let found = found.and_then(|parts| form(&parts).and_then(|form| lists(&parts, &form)));
    found
        .err()
        .unwrap_or_else(|| "the store does not pass the check".to_string())
}

/// What the first bytes say.
fn header(bytes: &[u8]) -> Result<(), String> {
    let version = [1, 0, 0, 0];
    let begins = bytes
        .iter()
        .zip(&version)
        .all(|(byte, wanted)| byte == wanted);
    match bytes {
        [] => Err("the file is empty".to_string()),
        [b'<', ..] => Err(
            "this is a text of XML and no form store; 'boxform read TEXT FILE' makes a store of a text that was printed"
                .to_string(),
        ),
        _ if !begins => Err("this is no form store: it does not begin with version 1".to_string()),
        _ if bytes.len() < HEADER => Err(format!(
            "cut short at byte {} of {HEADER} or more",
            bytes.len()
        )),
        _ => Ok(()),
    }
}

/// The bodies, by the table of contents.
fn parts(bytes: &[u8]) -> Result<Parts<'_>, String> {
    let field = |at: usize| {
        bytes[at..at + 4]
            .iter()
            .rev()
            .fold(0, |number, byte| number << 8 | usize::from(*byte))
    };
    let mut start = HEADER;
    let mut ends = [HEADER; 5];
    for (at, (name, size, most)) in BODIES.iter().enumerate() {
        let (offset, count) = (field(8 + 8 * at), field(12 + 8 * at));
        if offset != start || count > *most {
            return Err(format!("the table of contents is damaged: {count} {name} at byte {offset}; at most {most} at \
                                byte {start} can be"));
        }
        start += count * size;
        ends[at + 1] = start;
    }
    match bytes.len() {
        length if length < start => Err(format!("cut short at byte {length} of {start}")),
        length if length > start => Err(format!(
            "it has {length} bytes, and the store in it ends at byte {start}"
        )),
        _ => Ok(Parts {
            next: &bytes[4..8],
            bodies: std::array::from_fn(|at| &bytes[ends[at]..ends[at + 1]]),
        }),
    }
}

impl<'a> Parts<'a> {
    /// Other bodies with the same next serial.
    fn with<'b>(&self, bodies: [&'b [u8]; 4]) -> Parts<'b>
    where
        'a: 'b,
    {
        Parts {
            next: self.next,
            bodies,
        }
    }

    fn store(&self) -> Vec<u8> {
        let mut bytes = vec![1, 0, 0, 0];
        bytes.extend(self.next);
        let mut start = HEADER;
        for (body, (_, size, _)) in self.bodies.iter().zip(BODIES) {
            bytes.extend((start as u32).to_le_bytes());
            bytes.extend(((body.len() / size) as u32).to_le_bytes());
            start += body.len();
        }
        bytes.extend(self.bodies.concat());
        bytes
    }

    fn passes(&self) -> bool {
        check(&self.store()).is_ok()
    }
}

/// The store without rows, or which record of the form is damaged.
fn form(parts: &Parts) -> Result<Store, String> {
    let [definitions, particles, attributes, _] = parts.bodies;
    if !parts.with([&[], &[], &[], &[]]).passes() {
        return Err("the next serial is 0, and serials begin at 1".to_string());
    }
    let without = parts.with([definitions, particles, attributes, &[]]);
    if let Ok(store) = Store::from_bytes(without.store()) {
        return Ok(store);
    }
    if parts.with([definitions, particles, &[], &[]]).passes() {
        let first = first_bad(attributes, ATTRIBUTE, |some| {
            parts.with([definitions, particles, some, &[]]).passes()
        });
        return Err(format!(
            "the form is damaged: the record of attribute {first}"
        ));
    }
    let bare = without_models(definitions);
    let first = first_bad(&bare, DEFINITION, |some| {
        parts.with([some, &[], &[], &[]]).passes()
    });
    Err(match first < bare.len() / DEFINITION {
        true => format!("the form is damaged: the record of definition {first}"),
        false => "the form is damaged: a model".to_string(),
    })
}

/// The definitions as if none had a model.
fn without_models(definitions: &[u8]) -> Vec<u8> {
    let mut bare = definitions.to_vec();
    for record in bare.chunks_exact_mut(DEFINITION) {
        record[18..].fill(0);
    }
    bare
}

/// The first record with which the records so far do not pass; their number where all pass.
fn first_bad(records: &[u8], size: usize, passes: impl Fn(&[u8]) -> bool) -> usize {
    let count = records.len() / size;
    let bad = (0..count).find(|at| !passes(&records[..(at + 1) * size]));
    bad.unwrap_or(count)
}

/// Which element does not fit the form.
fn lists(parts: &Parts, form: &Store) -> Result<(), String> {
    let rows: Vec<&[u8]> = parts.bodies[3].chunks_exact(ROW).collect();
    let fits = |rows: &[&[u8]]| {
        let [definitions, particles, attributes, _] = parts.bodies;
        let raised = raised(rows);
        let judged = parts.with([definitions, particles, attributes, &raised]);
        Parts {
            next: &[0xff; 4],
            ..judged
        }
        .passes()
    };
    for (number, document) in (1..).zip(subtrees(&rows)) {
        if !fits(document) {
            let inner = innermost(document, &fits);
            return Err(format!(
                "document {number} does not fit the form: {}",
                element(form, inner)
            ));
        }
    }
    Err(
        "the rows' serials are damaged: one stands twice, is 0 or is not below the next serial"
            .to_string(),
    )
}

/// The rows with the first at depth 0, and with serials from 1, so that these are not judged.
fn raised(rows: &[&[u8]]) -> Vec<u8> {
    let depth = rows.first().map_or(0, |row| row[1]);
    let mut raised = rows.concat();
    for (serial, row) in (1u32..).zip(raised.chunks_exact_mut(ROW)) {
        row[1] = row[1].saturating_sub(depth);
        row[4..8].copy_from_slice(&serial.to_le_bytes());
    }
    raised
}

/// The rows cut before each that stands as deep as the first.
fn subtrees<'r, 'a>(rows: &'r [&'a [u8]]) -> impl Iterator<Item = &'r [&'a [u8]]> {
    let depth = rows.first().map_or(0, |row| row[1]);
    rows.chunk_by(move |_, next| next[1] > depth)
}

/// The element that does not fit although each element below it does.
fn innermost<'r, 'a>(element: &'r [&'a [u8]], fits: &impl Fn(&[&[u8]]) -> bool) -> &'r [&'a [u8]] {
    let below = subtrees(&element[1..]);
    let mut elements = below.filter(|rows| rows[0][0] == 1);
    match elements.find(|rows| !fits(rows)) {
        Some(inner) => innermost(inner, fits),
        None => element,
    }
}

fn element(form: &Store, rows: &[&[u8]]) -> String {
    let row = rows[0];
    let form = Form::of(form);
    let serial = u32::from_le_bytes([row[4], row[5], row[6], row[7]]);
    let definition = u32::from(row[2]) | u32::from(row[3]) << 8;
    match (row[0], form.kind(definition)) {
        (1, Some(_)) => format!(
            "{} {serial}, {}",
            form.name(definition),
            form.content(definition)
        ),
        _ => format!("the row with serial {serial}"),
    }
}
