//! A printed text that is read into a new file, and why one is not. The proved reading itself is asked about parts of a
//! text that it refused, so that this says no other rule than it.

use crate::compare::{plural, thousands};
use crate::failure::Failure;
use crate::file;
use crate::given::Given;
use crate::output::tell;
use formstore::{check, Refusal, Store, MAX_ROWS};

/// Makes a file with the store of a printed text.
pub fn read(given: &Given) -> Result<(), Failure> {
    let (text, path) = (given.operand(0), given.operand(1));
    let bytes = file::printed(&text)?;
    let store = Store::read_text(&bytes).map_err(|refusal| match refusal {
        Refusal::BadText => {
            Failure::Refused(refusal, format!("{}: {}", text.display(), reason(&bytes)))
        }
        other => other.into(),
    })?;
    file::create(&path, &store)?;
    let reader = store.reader();
    let name = path.display();
    tell(&format!(
        "done\n  {name} is new, with {}, {} and {}; its sum is in {name}.sum\n",
        plural(reader.definitions().count(), "definition"),
        plural(reader.documents().count(), "document"),
        plural(reader.rows().count(), "row"),
    ));
    Ok(())
}

const ELEMENT: &[u8] = b"<!ELEMENT ";

/// A line of the text with its number, from 1.
type Line<'a> = (usize, &'a [u8]);

fn is_read(text: &[u8]) -> bool {
    Store::read_text(text).is_ok()
}

fn joined(lines: &[Line]) -> Vec<u8> {
    lines.iter().flat_map(|(_, line)| *line).copied().collect()
}

/// Why no store prints the text.
fn reason(text: &[u8]) -> String {
    if check(text).is_ok() {
        return "this is a form store and no text; it needs no reading".to_string();
    }
    let lines = text.split_inclusive(|byte| *byte == b'\n');
    let lines: Vec<Line> = (1..).zip(lines).collect();
    let declares = |(_, line): &&Line| line.starts_with(b"<!");
    let (form, documents) = lines.split_at(lines.iter().take_while(declares).count());
    let declared = joined(form);
    if !is_read(&declared) {
        return form_reason(form);
    }
    // So many have all the rows that there can be.
    let mut documents = documents.iter().take(MAX_ROWS);
    let bad = documents.find(|(_, line)| !is_read(&[&declared[..], line].concat()));
    match bad {
        Some(line) => told(line, "no store with this form prints it"),
        None => format!("its documents have more than {} rows", thousands(MAX_ROWS)),
    }
}

/// Which line of the form it is. Each is asked among definitions without models and attributes, so that it is the first
/// that is bad by itself.
fn form_reason(form: &[Line]) -> String {
    let definitions = form.chunk_by(|_, (_, next)| !next.starts_with(ELEMENT));
    let definitions: Vec<&[Line]> = definitions.collect();
    let bare = definitions.iter().map(|lines| without_model(lines[0].1));
    let bare: Vec<Vec<u8>> = bare.collect();
    for (at, lines) in definitions.iter().enumerate() {
        if !is_read(&bare[..=at].concat()) {
            let fault = "it is no definition, one too many, or its name stands twice";
            return told(&lines[0], fault);
        }
    }
    for (at, lines) in definitions.iter().enumerate() {
        let (before, behind) = (bare[..at].concat(), bare[at + 1..].concat());
        for (end, line) in (1..).zip(*lines) {
            if !is_read(&[&before[..], &joined(&lines[..end]), &behind].concat()) {
                return told(line, "no store with these definitions prints it");
            }
        }
    }
    "its definitions stand in each other in a circle, or they have too many members or attributes"
        .to_string()
}

/// The line of a definition as if that were empty; other lines as they are.
fn without_model(line: &[u8]) -> Vec<u8> {
    let name = line
        .strip_prefix(ELEMENT)
        .and_then(|rest| rest.split(|byte| *byte == b' ').next());
    name.map_or(line.to_vec(), |name| [ELEMENT, name, b" EMPTY>\n"].concat())
}

/// The line, and what is wrong with it: its end, where that is not a line feed alone.
fn told((number, line): &Line, fault: &str) -> String {
    const SHOWN: usize = 60;
    let fault = match line {
        [.., b'\r', b'\n'] => "it ends in CR LF, as on Windows; a printed line ends in LF alone",
        [.., b'\n'] => fault,
        _ => "it does not end in a line feed",
    };
    let start: String = String::from_utf8_lossy(line)
        .trim_end()
        .chars()
        .take(SHOWN)
        .collect();
    let more = if line.len() > SHOWN { ".." } else { "" };
    format!("line {number}, {start}{more}: {fault}")
}
