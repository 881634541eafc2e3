//! What `print` prints: the DTD and the documents, or one document.

use crate::failure::Failure;
use crate::given::Given;
use formstore::Store;

/// A document with this number, from 1, is not there.
pub fn no_document(given: &Given, count: usize) -> Failure {
    let there = match count {
        0 => "there are no documents".to_string(),
        1 => "there is document 1 alone".to_string(),
        _ => format!("there are documents 1 to {count}"),
    };
    given.wrong("document", &there)
}

pub fn print(store: &Store, given: &Given) -> Result<Vec<u8>, Failure> {
    let printed = store.print()?;
    let number = given.number_if_given("document")?;
    if number.is_none() && !given.has("doctype") {
        return Ok(printed);
    }
    let printed = String::from_utf8_lossy(&printed);
    let (dtd, documents): (Vec<&str>, Vec<&str>) =
        printed.lines().partition(|line| line.starts_with("<!"));
    let number = match (number, documents.len()) {
        (Some(number), _) => number as usize,
        (None, 1) => 1,
        (None, count) => {
            return Err(Failure::Use(format!(
                "--doctype: give --document too; there are {count} documents"
            )))
        }
    };
    let document = number.checked_sub(1).and_then(|at| documents.get(at));
    let document = document.ok_or_else(|| no_document(given, documents.len()))?;
    if !given.has("doctype") {
        return Ok(format!("{document}\n").into_bytes());
    }
    let root = store.reader().documents().nth(number - 1);
    let root = root.and_then(|root| store.reader().definition(root.definition));
    let name = root.map_or("", |definition| definition.name);
    Ok(format!("<!DOCTYPE {name} [\n{}\n]>\n{document}\n", dtd.join("\n")).into_bytes())
}
