//! *Reading out*: the printed text, and the look-up.

use crate::check;
use crate::layout;
use crate::outcome::{write, Answer, Refusal};
use crate::store::*;

/// Writes the declarations and the documents as text.
pub fn print(store: &[u8], out: &mut [u8]) -> Answer {
    let result = (|| {
        let store = check::read(store).ok_or(Refusal::BadStore)?;
        write(&text_of(&store), out)
    })();
    Answer::from(result)
}

/// The text of a store, conforming or not.
pub fn text_of(store: &Store) -> Vec<u8> {
    let mut text = declarations(&store.form);
    for document in &store.documents {
        print_element(&store.form, document, &mut text);
        text.push(b'\n');
    }
    text
}

/// The lines of the form.
pub fn declarations(form: &Form) -> Vec<u8> {
    let mut text = Vec::new();
    for (index, definition) in form.definitions.iter().enumerate() {
        put(&mut text, &[b"<!ELEMENT ", &definition.name, b" "]);
        if definition.kind == Kind::Pcdata {
            text.extend(b"(#PCDATA)");
        } else if definition.model.is_empty() {
            text.extend(b"EMPTY");
        } else {
            print_group(form, GroupKind::List, &definition.model, &mut text);
        }
        text.extend(b">\n");
        for attribute in &form.attributes {
            if attribute.owner == index {
                print_attribute(&definition.name, attribute, &mut text);
            }
        }
    }
    text
}

fn put(text: &mut Vec<u8>, parts: &[&[u8]]) {
    for part in parts {
        text.extend(*part);
    }
}

fn print_group(form: &Form, kind: GroupKind, members: &[Particle], text: &mut Vec<u8>) {
    let separator = match kind {
        GroupKind::List => b',',
        GroupKind::Choice => b'|',
    };
    text.push(b'(');
    for (number, particle) in members.iter().enumerate() {
        if number > 0 {
            text.push(separator);
        }
        match &particle.term {
            Term::Element(index) => text.extend(&form.definitions[*index].name),
            Term::Group(kind, inner) => print_group(form, *kind, inner, text),
        }
        let mark: &[u8] = match particle.quantifier {
            Quantifier::None => b"",
            Quantifier::Qmark => b"?",
            Quantifier::Star => b"*",
            Quantifier::Plus => b"+",
        };
        text.extend(mark);
    }
    text.push(b')');
}

fn print_attribute(owner: &[u8], attribute: &Attribute, text: &mut Vec<u8>) {
    put(text, &[b"<!ATTLIST ", owner, b" ", &attribute.name]);
    text.extend(b" CDATA ");
    match attribute.sort {
        AttributeSort::Implied => text.extend(b"#IMPLIED"),
        AttributeSort::Required => text.extend(b"#REQUIRED"),
        AttributeSort::Fixed => {
            put(text, &[b"#FIXED \"", &escaped(&attribute.value), b"\""]);
        }
    }
    text.extend(b">\n");
}

fn print_element(form: &Form, element: &Element, text: &mut Vec<u8>) {
    let name = &form.definitions[element.definition].name;
    put(text, &[b"<", name]);
    for row in &element.attributes {
        let name = &form.attributes[row.attribute].name;
        put(text, &[b" ", name, b"=\"", &escaped(&row.value), b"\""]);
    }
    text.push(b'>');
    for node in &element.content {
        match node {
            Node::Element(child) => print_element(form, child, text),
            Node::Text(own) => text.extend(escaped(&own.value)),
        }
    }
    put(text, &[b"</", name, b">"]);
}

fn escaped(value: &[u8]) -> Vec<u8> {
    let mut text = Vec::new();
    for byte in value {
        match byte {
            b'&' => text.extend(b"&amp;"),
            b'<' => text.extend(b"&lt;"),
            b'>' => text.extend(b"&gt;"),
            b'"' => text.extend(b"&quot;"),
            _ => text.push(*byte),
        }
    }
    text
}

/// Hands back the part of the store that is the value of the attribute or text
/// row with this serial; `number` becomes 0 if found, else 1 or 7.
pub fn look_up<'a>(store: &'a [u8], serial: u32, number: &mut u32) -> &'a [u8] {
    if check::check(store) != 0 {
        *number = Refusal::BadStore as u32;
        return &store[..0];
    }
    let start = layout::u32_at(store, 32) as usize;
    for (index, record) in store[start..].chunks(layout::ROW).enumerate() {
        let is_element = record[0] == 1;
        if layout::u32_at(record, 4) == serial && !is_element {
            *number = 0;
            let value = start + index * layout::ROW + layout::ROW_VALUE;
            return &store[value..value + record[8] as usize];
        }
    }
    *number = Refusal::NoRow as u32;
    &store[..0]
}
