//! Many children at once, from a table.

use crate::change::change_file;
use crate::csv::{records, Record};
use crate::explain::{explain, spelling};
use crate::failure::Failure;
use crate::form::Form;
use crate::given::{listed, Given};
use crate::lists::Lists;
use crate::script::input;
use formstore::{Content, Kind, Refusal, Store};

/// What a field of a line becomes.
enum Column {
    /// The text of a child of the new element.
    Child(u32),
    /// An attribute of the new element.
    Attribute(u32),
    /// The text of the new element itself.
    Own,
}

struct Plan {
    parent: u32,
    /// The child number of the first new element.
    first: u32,
    definition: u32,
    columns: Vec<Column>,
}

struct Table {
    names: Vec<String>,
    records: Vec<Record>,
}

pub fn load(given: &Given) -> Result<(), Failure> {
    let table = table(given, &input()?)?;
    change_file(given, |store| {
        let plan = plan(given, store, &table.names)?;
        for (number, record) in (0..).zip(&table.records) {
            add(store, &plan, &table.names, number, record).map_err(Failure::at(record.line))?;
        }
        Ok(())
    })
}

/// The names of the columns, and the records below them.
fn table(given: &Given, text: &[u8]) -> Result<Table, Failure> {
    let separator = match given.bytes("separator") {
        [] => b',',
        [one] if !matches!(one, b'"' | b'\r' | b'\n') => *one,
        _ => return Err(given.wrong("separator", "give one character of plain ASCII")),
    };
    let read = records(text, separator);
    let mut records =
        read.map_err(|(line, fault)| Failure::at(line)(Failure::Use(fault.to_string())))?;
    let named = |fields: &[Vec<u8>]| -> Vec<String> {
        let texts = fields.iter().map(|field| String::from_utf8_lossy(field));
        texts.map(|text| text.trim().to_string()).collect()
    };
    let first = records
        .first()
        .map(|record| named(&record.fields))
        .unwrap_or_default();
    if !given.has("columns") {
        records.splice(..records.len().min(1), []);
        return Ok(Table {
            names: first,
            records,
        });
    }
    let names: Vec<String> = given
        .text("columns")
        .split(',')
        .map(|name| name.trim().to_string())
        .collect();
    if names == first {
        return Err(given.wrong(
            "columns",
            "line 1 of the table names the columns itself; leave --columns out",
        ));
    }
    Ok(Table { names, records })
}

fn plan(given: &Given, store: &Store, names: &[String]) -> Result<Plan, Failure> {
    if let Some(name) =
        (1..names.len()).find_map(|at| names[..at].iter().find(|name| **name == names[at]))
    {
        return Err(Failure::Use(format!("column {name}: it stands twice")));
    }
    let form = Form::of(store);
    let parent = given.number("parent")?;
    let Some(owner) = Lists::of(store).definition(parent) else {
        let text = format!("--parent {parent}: no element has this serial");
        return Err(Failure::Refused(Refusal::NoRow, text));
    };
    let definition = match given.has("definition") {
        true => given.definition("definition", store)?,
        false => fitting(&form, owner, names)?,
    };
    let columns: Result<Vec<Column>, Failure> = names
        .iter()
        .map(|name| column(&form, definition, name))
        .collect();
    let first = match given.has("child") {
        true => given.child(store)?,
        false => Lists::of(store).children(parent).count() as u32,
    };
    Ok(Plan {
        parent,
        first,
        definition,
        columns: columns?,
    })
}

/// The one definition in the model of the owner that has these columns.
fn fitting(form: &Form, owner: u32, names: &[String]) -> Result<u32, Failure> {
    let has_all = |definition: &u32| {
        names
            .iter()
            .all(|name| column(form, *definition, name).is_ok())
    };
    let found: Vec<u32> = form.members(owner).filter(has_all).collect();
    match found[..] {
        [one] => Ok(one),
        _ => {
            let members: Vec<String> = form
                .members(owner)
                .map(|member| form.name(member).to_string())
                .collect();
            let text = format!(
                "give --definition: of what {} can hold ({}), not one alone has the columns {}",
                form.name(owner),
                listed(&members),
                names.join(",")
            );
            Err(Failure::Use(text))
        }
    }
}

/// What a column of this name is of an element of this definition.
fn column(form: &Form, definition: u32, name: &str) -> Result<Column, Failure> {
    if let Some(name) = name.strip_prefix('@') {
        if let Some(attribute) = form.reader.attribute_named(definition, name) {
            return Ok(Column::Attribute(attribute.index));
        }
    }
    if form.kind(definition) == Some(Kind::Pcdata) && form.name(definition) == name {
        return Ok(Column::Own);
    }
    let member = form
        .index(name)
        .filter(|member| form.place_of(definition, *member).is_some());
    match member {
        Some(member) if form.kind(member) == Some(Kind::Pcdata) => Ok(Column::Child(member)),
        Some(_) => Err(Failure::Use(format!("column {name}: it holds no text"))),
        None => {
            let (owner, content) = (form.name(definition), form.content(definition));
            Err(Failure::Use(format!(
                "column {name}: {owner} has none, it is {content}"
            )))
        }
    }
}

/// Adds the element of one record.
fn add(
    store: &mut Store,
    plan: &Plan,
    names: &[String],
    number: u32,
    record: &Record,
) -> Result<(), Failure> {
    let (fields, columns) = (record.fields.len(), names.len());
    if fields != columns {
        return Err(Failure::Use(format!(
            "it has {fields} fields, and there are {columns} columns: {}",
            names.join(",")
        )));
    }
    for (name, field) in names.iter().zip(&record.fields) {
        if let Some(fault) = spelling::value(field) {
            let text = format!("{name} {}: {fault}", String::from_utf8_lossy(field));
            return Err(Failure::Refused(Refusal::BadValue, text));
        }
    }
    let serial = store.reader().next_serial();
    let text = texts(plan, record).next().map_or(&[][..], |(_, text)| text);
    let child = plan.first + number;
    add_element(store, plan.parent, child, plan.definition, text)?;
    set_texts(store, plan, serial, text, record)?;
    add_absent(store, plan, serial, record)?;
    for (column, value) in plan.columns.iter().zip(&record.fields) {
        match column {
            Column::Attribute(attribute) if !value.is_empty() => {
                set_attribute(store, serial, *attribute, value)?
            }
            _ => {}
        }
    }
    Ok(())
}

/// The fields that are texts, each with the definition of its element.
fn texts<'r>(plan: &'r Plan, record: &'r Record) -> impl Iterator<Item = (u32, &'r [u8])> {
    let fields = plan.columns.iter().zip(&record.fields);
    fields.filter_map(|(column, field)| match column {
        Column::Child(definition) => Some((*definition, &field[..])),
        Column::Own => Some((plan.definition, &field[..])),
        Column::Attribute(_) => None,
    })
}

/// Sets the texts of the new element that are to have another than the one that all were made with. One that no field
/// is for gets the empty text.
fn set_texts(
    store: &mut Store,
    plan: &Plan,
    serial: u32,
    made: &[u8],
    record: &Record,
) -> Result<(), Failure> {
    let mut set: Vec<(u32, &[u8])> = Vec::new();
    if let Some(element) = store.reader().element(serial) {
        let mut around = (serial, element.definition, 0);
        for row in element.rows() {
            match row.content {
                Content::Element { definition } => {
                    around = (row.serial, definition, row.depth - element.depth)
                }
                Content::Text { .. } => {
                    let (holder, definition, depth) = around;
                    let mut texts = texts(plan, record);
                    let field = texts.find(|(column, _)| *column == definition && depth <= 1);
                    let wanted = field.map_or(&[][..], |(_, text)| text);
                    if wanted != made {
                        set.push((holder, wanted));
                    }
                }
                Content::Attribute { .. } => {}
            }
        }
    }
    for (holder, text) in set {
        store.set_text(holder, text)?;
    }
    Ok(())
}

/// Adds the children for which there is a field with something in it, and which the element was not made with.
fn add_absent(store: &mut Store, plan: &Plan, serial: u32, record: &Record) -> Result<(), Failure> {
    for (column, field) in plan.columns.iter().zip(&record.fields) {
        let Column::Child(definition) = column else {
            continue;
        };
        let element = store.reader().element(serial);
        let children = element.into_iter().flat_map(|element| element.children());
        let children: Vec<u32> = children.map(|child| child.definition).collect();
        if field.is_empty() || children.contains(definition) {
            continue;
        }
        let form = Form::of(store);
        let place = |child: u32| form.place_of(plan.definition, child);
        let earlier = |child: &&u32| place(**child) < place(*definition);
        // Behind those that stand before it in the model; where a group is repeated, it may be elsewhere.
        let likely = children.iter().filter(earlier).count() as u32;
        let mut numbers = std::iter::once(likely).chain(0..=children.len() as u32);
        if !numbers.any(|child| store.add_element(serial, child, *definition, field).is_ok()) {
            add_element(store, serial, likely, *definition, field)?;
        }
    }
    Ok(())
}

/// Adds an element; a refusal says why, as it does of the command.
fn add_element(
    store: &mut Store,
    parent: u32,
    child: u32,
    definition: u32,
    text: &[u8],
) -> Result<(), Failure> {
    let added = store.add_element(parent, child, definition, text);
    added.map_err(|refusal| {
        let numbers = [
            ("parent", parent),
            ("child", child),
            ("definition", definition),
        ];
        refused(store, refusal, "add-element", &numbers, ("text", text))
    })
}

/// Sets an attribute; a refusal says why, as it does of the command.
fn set_attribute(
    store: &mut Store,
    element: u32,
    attribute: u32,
    value: &[u8],
) -> Result<(), Failure> {
    let set = store.set_attribute(element, attribute, value);
    set.map_err(|refusal| {
        let numbers = [("element", element), ("attribute", attribute)];
        refused(store, refusal, "set-attribute", &numbers, ("value", value))
    })
}

/// The refusal of a change that was made from a field, as if its arguments had been given.
fn refused(
    store: &Store,
    refusal: Refusal,
    change: &str,
    numbers: &[(&'static str, u32)],
    (flag, text): (&'static str, &[u8]),
) -> Failure {
    let numbers = numbers
        .iter()
        .map(|(flag, number)| (*flag, number.to_string().into_bytes()));
    let given = Given::made(numbers.chain([(flag, text.to_vec())]).collect());
    Failure::Refused(refusal, explain(change, &given, store, refusal))
}
