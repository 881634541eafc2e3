//! What the crate's reader reads of random stores is what the second implementation reads.

use formstore::{Content, Element, Members, Reader, Term};
use second::layout::{decode, encode};
use second::random::calls::places_of;
use second::random::documents;
use second::rng::Rng;
use second::store::{self, Code, Particle};
use second::{Row, RowSort};

/// The rows with names and parents' serials, as the second implementation has them.
fn named_rows(reader: &Reader) -> Vec<Row> {
    let definitions: Vec<_> = reader.definitions().collect();
    let attributes: Vec<_> = reader.attributes().collect();
    // The serials of the elements around the row.
    let mut around = Vec::new();
    let mut rows = Vec::new();
    for row in reader.rows() {
        around.truncate(row.depth as usize);
        let (sort, name, value) = match row.content {
            Content::Element { definition } => (
                RowSort::Element,
                Some(definitions[definition as usize].name),
                None,
            ),
            Content::Attribute { attribute, value } => (
                RowSort::Attribute,
                Some(attributes[attribute as usize].name),
                Some(value),
            ),
            Content::Text { value } => (RowSort::Text, None, Some(value)),
        };
        rows.push(Row {
            serial: row.serial,
            sort,
            name: name.map(|name| name.as_bytes().to_vec()),
            parent: around.last().copied().unwrap_or(0),
            value: value.map(|value| value.as_bytes().to_vec()),
        });
        if sort == RowSort::Element {
            around.push(row.serial);
        }
    }
    rows
}

/// The members of a list as the second implementation has them.
fn particles(members: Members) -> Vec<Particle> {
    let read = members.map(|member| Particle {
        quantifier: store::Quantifier::from_code(member.quantifier.into()).expect("a quantifier"),
        term: match member.term {
            Term::Element { definition } => store::Term::Element(definition as usize),
            Term::Group { sort, members } => store::Term::Group(
                store::GroupKind::from_code(sort.into()).expect("a sort"),
                particles(members),
            ),
        },
    });
    read.collect()
}

fn compare_form(reader: &Reader, form: &store::Form) {
    for (definition, wanted) in reader.definitions().zip(&form.definitions) {
        assert_eq!(definition.name.as_bytes(), wanted.name);
        assert_eq!(definition.kind as u32, wanted.kind as u32);
        assert_eq!(
            reader.definition_named(definition.name),
            Some(definition),
            "names are distinct"
        );
        let model = reader
            .model(definition.index)
            .expect("a definition's model");
        assert_eq!(particles(model.members()), wanted.model);
        for (place, particle) in model.particles() {
            if let Term::Element { definition } = particle.term {
                assert_eq!(model.place_of(definition), Some(place));
            }
        }
    }
    for (attribute, wanted) in reader.attributes().zip(&form.attributes) {
        assert_eq!(attribute.owner as usize, wanted.owner);
        assert_eq!(attribute.name.as_bytes(), wanted.name);
        assert_eq!(attribute.sort as u32, wanted.sort as u32);
        assert_eq!(attribute.value.as_bytes(), wanted.value);
        let again = reader.attribute_named(attribute.owner, attribute.name);
        assert_eq!(again, Some(attribute), "names of one owner are distinct");
    }
    assert_eq!(reader.definitions().count(), form.definitions.len());
    assert_eq!(reader.attributes().count(), form.attributes.len());
}

/// The places are those where an element may be removed, or a group changed: the members of all lists, in preorder.
fn compare_places(reader: &Reader, form: &store::Form) {
    for (index, definition) in (0..).zip(&form.definitions) {
        let model = reader.model(index).expect("a definition's model");
        let read: Vec<Vec<u32>> = model.particles().map(|(place, _)| place.to_vec()).collect();
        let (_, mut wanted) = places_of(&definition.model);
        wanted.sort();
        assert_eq!(read, wanted);
    }
}

/// The model of each definition shows itself as it is printed.
fn compare_printed(reader: &Reader, form: &store::Form) {
    let printed = second::print::declarations(form);
    let printed = String::from_utf8(printed).expect("the text is ASCII");
    let lines = printed.lines().filter(|line| line.starts_with("<!ELEMENT"));
    for (definition, line) in reader.definitions().zip(lines) {
        let model = reader
            .model(definition.index)
            .expect("a definition's model");
        assert_eq!(format!("<!ELEMENT {} {model}>", definition.name), line);
    }
}

fn compare_element(read: Element, wanted: &store::Element) {
    assert_eq!(read.serial, wanted.serial);
    assert_eq!(read.definition as usize, wanted.definition);
    assert_eq!(read.rows().count(), wanted.row_count());
    let serials = |row: &store::AttributeRow| row.serial;
    assert!(read
        .attributes()
        .map(|row| row.serial)
        .eq(wanted.attributes.iter().map(serials)));
    let text = wanted.content.iter().find_map(|node| match node {
        store::Node::Text(text) => Some(&text.value[..]),
        store::Node::Element(_) => None,
    });
    assert_eq!(read.text().map(str::as_bytes), text);
    assert_eq!(read.children().count(), wanted.children().count());
    for (child, wanted) in read.children().zip(wanted.children()) {
        assert_eq!(child.depth, read.depth + 1);
        compare_element(child, wanted);
    }
}

fn compare_documents(reader: &Reader, documents: &[store::Element]) {
    assert_eq!(reader.documents().count(), documents.len());
    for (document, wanted) in reader.documents().zip(documents) {
        assert_eq!(document.depth, 0);
        compare_element(document, wanted);
    }
    for row in reader.rows() {
        let element = reader.element(row.serial);
        let is_element = matches!(row.content, Content::Element { .. });
        assert_eq!(
            element.map(|found| found.serial),
            is_element.then_some(row.serial)
        );
    }
}

#[test]
fn random_stores() {
    for seed in 0..500 {
        let mut rng = Rng::new(seed);
        let bytes = encode(&documents::store(&mut rng, 9, 8, 200));
        let store = decode(&bytes).expect("it passes");
        let reader = Reader::new(&bytes).expect("it passes");
        assert_eq!(reader.next_serial(), store.next_serial, "seed {seed}");
        assert_eq!(
            Some(named_rows(&reader)),
            second::rows(&bytes),
            "seed {seed}"
        );
        compare_form(&reader, &store.form);
        compare_places(&reader, &store.form);
        compare_printed(&reader, &store.form);
        compare_documents(&reader, &store.documents);
    }
}
