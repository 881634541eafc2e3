//! A table as text: a record on a line, its fields parted by a separator.

/// A record, and the line that it begins on.
pub struct Record {
    pub line: usize,
    pub fields: Vec<Vec<u8>>,
}

/// The records of the text, or the line at which it is no table and why. Lines with nothing in them are none.
pub fn records(text: &[u8], separator: u8) -> Result<Vec<Record>, (usize, &'static str)> {
    let mut records = Vec::new();
    let mut rest = text;
    let mut line = 1;
    while !rest.is_empty() {
        let (fields, behind) = record(rest, separator).map_err(|fault| (line, fault))?;
        if fields != [b""] {
            records.push(Record { line, fields });
        }
        let read = &rest[..rest.len() - behind.len()];
        line += read.iter().filter(|byte| **byte == b'\n').count();
        rest = behind;
    }
    Ok(records)
}

/// The fields of the first record, and what follows its line.
fn record(text: &[u8], separator: u8) -> Result<(Vec<Vec<u8>>, &[u8]), &'static str> {
    let mut fields = Vec::new();
    let mut rest = text;
    loop {
        let (field, behind) = match rest.strip_prefix(b"\"") {
            Some(inner) => quoted(inner)?,
            None => plain(rest, separator),
        };
        fields.push(field);
        rest =
            match behind {
                [] => return Ok((fields, &[])),
                [b'\n', next @ ..] | [b'\r', b'\n', next @ ..] => return Ok((fields, next)),
                [first, next @ ..] if *first == separator => next,
                _ => return Err(
                    "after the closing quote of a field comes the separator or the end of the line",
                ),
            };
    }
}

/// A field without quotes, and what follows it.
fn plain(text: &[u8], separator: u8) -> (Vec<u8>, &[u8]) {
    let ends = |byte: &u8| *byte == separator || *byte == b'\n';
    let mut end = text.iter().position(ends).unwrap_or(text.len());
    if text[end..].first() != Some(&separator) && text[..end].ends_with(b"\r") {
        end -= 1;
    }
    // A \r at the very end of the text is no part of the field either.
    let behind = if text[end..] == *b"\r" {
        &[]
    } else {
        &text[end..]
    };
    (text[..end].to_vec(), behind)
}

/// A field after its opening quote, and what follows the closing one.
fn quoted(text: &[u8]) -> Result<(Vec<u8>, &[u8]), &'static str> {
    let mut field = Vec::new();
    let mut rest = text;
    loop {
        match rest {
            [] => return Err("a quote is not closed"),
            [b'"', b'"', next @ ..] => {
                field.push(b'"');
                rest = next;
            }
            [b'"', next @ ..] => return Ok((field, next)),
            [byte, next @ ..] => {
                field.push(*byte);
                rest = next;
            }
        }
    }
}
