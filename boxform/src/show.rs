//! What `show` prints: the form with indices and places, and the rows with serials and child numbers; as text or as
//! JSON.

use crate::compare::thousands;
use crate::failure::Failure;
use crate::form::{attribute_text, quoted, Form};
use crate::given::Given;
use crate::json::{array, object, string};
use crate::lists::{Line, Lists};
use crate::print::no_document;
use formstore::{Attribute, Code, Content, Definition, Element, Row, Store, Term};
use formstore::{MAX_ATTRIBUTES, MAX_DEFINITIONS, MAX_PARTICLES, MAX_ROWS};

pub fn show(store: &Store, given: &Given) -> Result<String, Failure> {
    let lists = Lists::of(store);
    let chosen = chosen(&lists, given)?;
    if given.has("json") {
        return Ok(json(store, &chosen));
    }
    let form = Form::of(store);
    let rows = rows(&form, lists.lines.iter().filter(|line| chosen.has(line)));
    let whole = matches!(chosen, Chosen::All);
    let head = if whole {
        head(&form, lists.lines.len()) + &declarations(&form)
    } else {
        String::new()
    };
    Ok(format!("{head}serial  child  row\n{rows}"))
}

/// Which rows are shown.
enum Chosen {
    All,
    Document(usize),
    Serials(Vec<u32>),
}

impl Chosen {
    fn has(&self, line: &Line) -> bool {
        match self {
            Chosen::All => true,
            Chosen::Document(number) => line.document == *number,
            Chosen::Serials(serials) => serials.contains(&line.row.serial),
        }
    }
}

fn chosen(lists: &Lists, given: &Given) -> Result<Chosen, Failure> {
    match (
        given.number_if_given("document")?,
        given.number_if_given("element")?,
    ) {
        (None, None) => Ok(Chosen::All),
        (Some(_), Some(_)) => Err(Failure::Use(
            "give --document or --element, not both".to_string(),
        )),
        (Some(number), None) => {
            let number = number as usize;
            let count = lists.roots().count();
            let known = (1..=count).contains(&number);
            known
                .then_some(Chosen::Document(number))
                .ok_or_else(|| no_document(given, count))
        }
        (None, Some(serial)) => match lists.definition(serial) {
            Some(_) => Ok(Chosen::Serials(
                lists
                    .below(serial)
                    .iter()
                    .map(|line| line.row.serial)
                    .collect(),
            )),
            None => Err(given.wrong("element", "no element has this serial")),
        },
    }
}

/// What is used and what is left.
fn head(form: &Form, rows: usize) -> String {
    let particles: usize = form
        .reader
        .definitions()
        .map(|owner| form.places(owner.index).count())
        .sum();
    let used = |what, count, most| {
        format!(
            "{what} {} of {}, {} left\n",
            thousands(count),
            thousands(most),
            thousands(most - count)
        )
    };
    let counts = [
        used(
            "definitions",
            form.reader.definitions().count(),
            MAX_DEFINITIONS,
        ),
        used("members of models", particles, MAX_PARTICLES),
        used(
            "attributes",
            form.reader.attributes().count(),
            MAX_ATTRIBUTES,
        ),
        used("rows", rows, MAX_ROWS),
    ];
    format!(
        "{}next serial {}\n\n",
        counts.concat(),
        form.reader.next_serial()
    )
}

fn declarations(form: &Form) -> String {
    let mut text = "index  place  definitions, what they hold, and their attributes\n".to_string();
    for definition in form.reader.definitions() {
        let Definition { index, name, .. } = definition;
        text += &format!("{index:5}         {name} {}\n", form.described(index));
        for (place, particle) in form.places(index) {
            let indent = 2 * place.len();
            let place = place.to_string();
            text += &format!("{place:>12}  {:indent$}{}\n", "", form.text(&particle));
        }
        for attribute in form.reader.attributes_of(index) {
            let Attribute { index, name, .. } = attribute;
            text += &format!(
                "{index:5}           @{name} {}\n",
                attribute_text(&attribute)
            );
        }
    }
    text + "\n"
}

fn rows<'l>(form: &Form, lines: impl Iterator<Item = &'l Line<'l>>) -> String {
    let mut text = String::new();
    for line in lines {
        let content = match line.row.content {
            Content::Element { definition } => form.name(definition).to_string(),
            Content::Attribute { attribute, value } => {
                format!("@{}={}", attribute_name(form, attribute), quoted(value))
            }
            Content::Text { value } => quoted(value),
        };
        let document = if line.row.depth == 0 {
            format!("  document {}", line.document)
        } else {
            String::new()
        };
        let child = line
            .child
            .map_or_else(String::new, |child| child.to_string());
        let indent = 2 * line.row.depth as usize;
        text += &format!(
            "{:6}  {child:>5}  {:indent$}{content}{document}\n",
            line.row.serial, ""
        );
    }
    text
}

fn attribute_name<'a>(form: &Form<'a>, attribute: u32) -> &'a str {
    let found = form.reader.attribute(attribute);
    found.map_or("", |attribute| attribute.name)
}

fn json(store: &Store, chosen: &Chosen) -> String {
    let form = Form::of(store);
    let used = form.reader.rows().count();
    let elements = match chosen {
        Chosen::All => (
            "documents",
            array(form.reader.documents().map(|root| element(&form, &root))),
        ),
        Chosen::Document(number) => (
            "documents",
            array(
                form.reader
                    .documents()
                    .skip(number - 1)
                    .take(1)
                    .map(|root| element(&form, &root)),
            ),
        ),
        Chosen::Serials(serials) => (
            "elements",
            array(
                form.reader
                    .element(serials[0])
                    .iter()
                    .map(|one| element(&form, one)),
            ),
        ),
    };
    object(&[
        ("next_serial", form.reader.next_serial().to_string()),
        ("rows_used", used.to_string()),
        ("rows_left", (MAX_ROWS - used).to_string()),
        (
            "definitions",
            array(form.reader.definitions().map(|one| definition(&form, &one))),
        ),
        elements,
    ]) + "\n"
}

fn definition(form: &Form, definition: &Definition) -> String {
    let places = form.places(definition.index).map(|(place, particle)| {
        let sort = match particle.term {
            Term::Element { definition } => ("element", string(form.name(definition))),
            Term::Group { sort, .. } => ("group", string(sort.word())),
        };
        object(&[
            ("place", string(&place.to_string())),
            sort,
            ("quantifier", string(particle.quantifier.word())),
        ])
    });
    object(&[
        ("index", definition.index.to_string()),
        ("name", string(definition.name)),
        ("kind", string(definition.kind.word())),
        ("content", string(&form.content(definition.index))),
        ("places", array(places)),
        (
            "attributes",
            array(
                form.reader
                    .attributes_of(definition.index)
                    .map(|one| attribute(&one)),
            ),
        ),
    ])
}

fn attribute(attribute: &Attribute) -> String {
    object(&[
        ("index", attribute.index.to_string()),
        ("name", string(attribute.name)),
        ("sort", string(attribute.sort.word())),
        ("value", string(attribute.value)),
    ])
}

/// An element with all below it.
fn element(form: &Form, element: &Element) -> String {
    let attributes = element.attributes().map(|row| leaf(form, &row));
    let mut fields = vec![
        ("serial", element.serial.to_string()),
        ("name", string(form.name(element.definition))),
        ("attributes", array(attributes)),
    ];
    match element
        .rows()
        .find(|row| row.depth == element.depth + 1 && matches!(row.content, Content::Text { .. }))
    {
        Some(text) => fields.push(("text", leaf(form, &text))),
        None => fields.push((
            "children",
            array(element.children().map(|child| self::element(form, &child))),
        )),
    }
    object(&fields)
}

/// An attribute or a text.
fn leaf(form: &Form, row: &Row) -> String {
    let serial = ("serial", row.serial.to_string());
    match row.content {
        Content::Attribute { attribute, value } => object(&[
            serial,
            ("name", string(attribute_name(form, attribute))),
            ("value", string(value)),
        ]),
        Content::Text { value } => object(&[serial, ("value", string(value))]),
        Content::Element { .. } => object(&[serial]),
    }
}
