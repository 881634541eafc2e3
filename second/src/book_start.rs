//! The start of a book at a text that was read: the form, the rows and the
//! next serial that the rules give for the text.
//!
//! It is apart from `reading`: lines are cut at blanks, quotes and brackets,
//! and nothing is judged, since only a text that was accepted starts a book.
//! Any other text gives no book, or one of something else than what it says.

use crate::book::Book;
use crate::rows::{Row, RowSort};
use crate::store::*;

impl Book {
    /// The book of a history that starts at the store of this text.
    pub fn of_text(text: &[u8]) -> Option<Book> {
        let text = std::str::from_utf8(text)
            .ok()
            .filter(|text| text.is_ascii())?;
        let form = form_of(text)?;
        let rows = rows_of(text, &form)?;
        Some(Book::starting(rows.len() as u32 + 1, form, rows))
    }
}

/// The lines that begin so.
fn lines<'a>(text: &'a str, start: &'static str) -> impl Iterator<Item = &'a str> {
    text.split('\n').filter(move |line| line.starts_with(start))
}

/// The part with this number of those between blanks, without the line's end.
fn word(line: &str, number: usize) -> &str {
    let word = line.split(' ').nth(number).unwrap_or_default();
    word.trim_end_matches('>')
}

fn unescaped(value: &str) -> Vec<u8> {
    let value = value.replace("&lt;", "<").replace("&gt;", ">");
    let value = value.replace("&quot;", "\"").replace("&amp;", "&");
    value.into_bytes()
}

fn form_of(text: &str) -> Option<Form> {
    let mut form = Form::default();
    let names: Vec<&str> = lines(text, "<!ELEMENT").map(|line| word(line, 1)).collect();
    for line in lines(text, "<!ELEMENT") {
        let (kind, model) = match word(line, 2) {
            "EMPTY" => (Kind::Empty, Vec::new()),
            "(#PCDATA)" => (Kind::Pcdata, Vec::new()),
            model => (Kind::Complex, model_of(model, &names)?),
        };
        let name = word(line, 1).as_bytes().to_vec();
        form.definitions.push(Definition { name, kind, model });
    }
    for line in lines(text, "<!ATTLIST") {
        let (sort, value) = match word(line, 4) {
            "#IMPLIED" => (AttributeSort::Implied, Vec::new()),
            "#REQUIRED" => (AttributeSort::Required, b"-".to_vec()),
            _ => (AttributeSort::Fixed, unescaped(line.split('"').nth(1)?)),
        };
        form.attributes.push(Attribute {
            owner: names.iter().position(|name| *name == word(line, 1))?,
            name: word(line, 2).as_bytes().to_vec(),
            sort,
            value,
        });
    }
    Some(form)
}

fn model_of(model: &str, names: &[&str]) -> Option<Vec<Particle>> {
    // The groups that are open, the innermost last; the first holds the top list.
    let mut open = vec![(GroupKind::List, Vec::new())];
    for piece in model.split_inclusive(|letter| "(),|?*+".contains(letter)) {
        let (name, mark) = piece.split_at(piece.len() - 1);
        let (kind, members) = open.last_mut()?;
        if !name.is_empty() {
            let index = names.iter().position(|known| *known == name)?;
            members.push(unquantified(Term::Element(index)));
        }
        match mark {
            "?" => members.last_mut()?.quantifier = Quantifier::Qmark,
            "*" => members.last_mut()?.quantifier = Quantifier::Star,
            "+" => members.last_mut()?.quantifier = Quantifier::Plus,
            "|" => *kind = GroupKind::Choice,
            "(" => open.push((GroupKind::List, Vec::new())),
            ")" => {
                let (kind, members) = open.pop()?;
                let group = unquantified(Term::Group(kind, members));
                open.last_mut()?.1.push(group);
            }
            _ => {}
        }
    }
    match open.pop()?.1.pop()?.term {
        Term::Group(_, members) => Some(members),
        Term::Element(_) => None,
    }
}

fn unquantified(term: Term) -> Particle {
    Particle {
        quantifier: Quantifier::None,
        term,
    }
}

fn rows_of(text: &str, form: &Form) -> Option<Vec<Row>> {
    let has_text = |name: &str| {
        let own = |known: &&Definition| known.name == name.as_bytes();
        let definition = form.definitions.iter().find(own);
        definition.is_some_and(|definition| definition.kind == Kind::Pcdata)
    };
    let mut rows = Vec::new();
    // The serials of the elements that are open, the innermost last.
    let mut open = vec![0];
    let documents = lines(text, "<").filter(|line| !line.starts_with("<!"));
    for tag in documents.flat_map(|line| line.split('<').skip(1)) {
        let (tag, behind) = tag.split_once('>')?;
        if tag.starts_with('/') {
            open.pop();
            continue;
        }
        let name = word(tag, 0);
        let element = make(&mut rows, RowSort::Element, name, *open.last()?, "");
        open.push(element);
        let parts: Vec<&str> = tag.split('"').collect();
        for pair in parts.chunks_exact(2) {
            let name = pair[0].rsplit(' ').next()?.trim_end_matches('=');
            make(&mut rows, RowSort::Attribute, name, element, pair[1]);
        }
        if has_text(name) {
            make(&mut rows, RowSort::Text, "", element, behind);
        }
    }
    Some(rows)
}

/// Makes the next row and hands back its serial.
fn make(rows: &mut Vec<Row>, sort: RowSort, name: &str, parent: u32, value: &str) -> u32 {
    let serial = rows.len() as u32 + 1;
    rows.push(Row {
        serial,
        sort,
        name: (sort != RowSort::Text).then(|| name.as_bytes().to_vec()),
        parent,
        value: (sort != RowSort::Element).then(|| unescaped(value)),
    });
    serial
}
