//! What is wrong with the bytes of a name or value.

use crate::given::listed;
use formstore::{MAX_NAME, MAX_VALUE};

/// Why this is no name for something new; nothing, if it is one.
pub fn name(bytes: &[u8]) -> Option<String> {
    let text = String::from_utf8_lossy(bytes);
    let inner = |sign: char| sign.is_ascii_alphanumeric() || "_-.".contains(sign);
    let first = text.chars().next();
    if let Some(fault) = foreign(bytes) {
        return Some(fault);
    }
    if let Some(sign) = text.chars().find(|sign| !inner(*sign)) {
        return Some(format!(
            "a name has only letters, digits, _, - and ., no {}",
            sign_text(sign)
        ));
    }
    match first {
        None => Some("it is empty; a name has 1 to 16 letters".to_string()),
        Some(first) if !(first.is_ascii_alphabetic() || first == '_') => Some(format!(
            "a name begins with a letter or _, not with {}",
            sign_text(first)
        )),
        _ => too_long(bytes, MAX_NAME).or_else(|| reserved(bytes)),
    }
}

/// Names that begin with xml are kept for the makers of XML.
fn reserved(bytes: &[u8]) -> Option<String> {
    let start = bytes.get(..3)?;
    let text = "no new name begins with xml, in either case: XML 1.0 (2.3) reserves those";
    start.eq_ignore_ascii_case(b"xml").then(|| text.to_string())
}

/// Why this is no value or text; nothing, if it is one.
pub fn value(bytes: &[u8]) -> Option<String> {
    foreign(bytes).or_else(|| too_long(bytes, MAX_VALUE))
}

fn too_long(bytes: &[u8], most: usize) -> Option<String> {
    let length = bytes.len();
    let text = format!("it has {length} characters, and at most {most} can be");
    (length > most).then_some(text)
}

/// The signs that are not among blank to ~.
fn foreign(bytes: &[u8]) -> Option<String> {
    let mut signs: Vec<String> = Vec::new();
    for chunk in bytes.utf8_chunks() {
        let outside = chunk
            .valid()
            .chars()
            .filter(|sign| !(' '..='~').contains(sign));
        signs.extend(outside.map(sign_text));
        signs.extend(
            chunk
                .invalid()
                .iter()
                .map(|byte| format!("byte {byte:02X}")),
        );
    }
    signs.dedup();
    (!signs.is_empty()).then(|| format!("only plain ASCII, no {}", listed(&signs)))
}

fn sign_text(sign: char) -> String {
    match sign {
        ' ' => "blank".to_string(),
        '\t' => "tab".to_string(),
        '\n' | '\r' => "line break".to_string(),
        _ if sign.is_control() => format!("byte {:02X}", sign as u32),
        _ => sign.to_string(),
    }
}
