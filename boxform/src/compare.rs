//! What differs between two stores: the form in words, the rows by serial.

use crate::form::{attribute_text, quoted, Form};
use crate::lists::{Line, Lists};
use formstore::{Content, Store};
use std::collections::HashMap;

/// A row as the book of the store has it.
#[derive(Clone, PartialEq)]
pub struct Entry {
    serial: u32,
    /// `finisher`, `@sex` or `text`.
    what: String,
    parent: u32,
    /// The name of the parent.
    inside: String,
    element: bool,
    value: String,
}

pub struct Difference {
    /// A sentence for each thing that differs in the form.
    form: Vec<String>,
    made: Vec<Entry>,
    taken: Vec<Entry>,
    /// Rows that are in both with another value: before and after.
    set: Vec<(Entry, Entry)>,
    /// What is told after the rows.
    rest: Vec<String>,
}

impl Difference {
    pub fn between(before: &Store, after: &Store) -> Difference {
        let (old, new) = (entries(before), entries(after));
        let made = missing(&new, &old);
        let mut rest = Vec::new();
        let (from, to) = (before.reader().next_serial(), after.reader().next_serial());
        let given = made
            .iter()
            .map(|entry| entry.serial.saturating_add(1))
            .max();
        if to != given.map_or(from, |next| next.max(from)) {
            rest.push(format!("the next serial was {from} and is {to}"));
        }
        let serial = |entry: &Entry| entry.serial;
        if in_other_order(old.iter().map(serial), new.iter().map(serial)) {
            rest.push("the rows that are in both stand in another order".to_string());
        }
        Difference {
            form: form_differences(&Form::of(before), &Form::of(after)),
            made,
            taken: missing(&old, &new),
            set: revalued(&old, &new),
            rest,
        }
    }

    /// Whether rows go.
    pub fn takes(&self) -> bool {
        !self.taken.is_empty()
    }

    /// `took 584 elements, 4,088 rows in all`.
    pub fn loss(&self) -> String {
        format!("{}{}", counted(&self.taken), named_tops(&self.taken))
    }

    /// A line for each thing that differs; the rows are counted. `verbs` say it of the past or of what would be.
    pub fn summary(&self, verbs: &Verbs) -> String {
        let mut lines = self.form.clone();
        if !self.taken.is_empty() {
            lines.push(format!("{} {}", verbs.took, self.loss()));
        }
        if !self.made.is_empty() {
            let serials = ranges(&self.made);
            lines.push(format!("{} {}: {serials}", verbs.made, counted(&self.made)));
        }
        match &self.set[..] {
            [] => {}
            set if set.len() <= 3 => {
                lines.extend(set.iter().map(|pair| set_words(verbs.set, pair)))
            }
            set => lines.push(format!("{} {} values", verbs.set, thousands(set.len()))),
        }
        lines.extend(self.rest.iter().cloned());
        if lines.is_empty() {
            lines.push("nothing differs".to_string());
        }
        lines.iter().map(|line| format!("  {line}\n")).collect()
    }

    /// Every row that differs, by serial.
    pub fn rows(&self) -> String {
        let mut lines: Vec<(u32, String)> = Vec::new();
        let told = |sign, entry: &Entry| (entry.serial, format!("{sign} {}\n", entry.words()));
        lines.extend(self.taken.iter().map(|entry| told('-', entry)));
        lines.extend(self.made.iter().map(|entry| told('+', entry)));
        lines.extend(self.set.iter().map(|(old, new)| {
            let text = format!("! {} is now {}\n", old.words(), quoted(&new.value));
            (old.serial, text)
        }));
        lines.sort_by_key(|(serial, _)| *serial);
        lines.into_iter().map(|(_, line)| line).collect()
    }
}

/// How a summary says what was done.
pub struct Verbs {
    made: &'static str,
    took: &'static str,
    set: &'static str,
}

pub const DONE: Verbs = Verbs {
    made: "made",
    took: "took",
    set: "set",
};
pub const WOULD: Verbs = Verbs {
    made: "would make",
    took: "would take",
    set: "would set",
};
pub const DIFFERS: Verbs = Verbs {
    made: "only the second has",
    took: "only the first has",
    set: "both have, with another value,",
};

impl Entry {
    fn words(&self) -> String {
        let Entry { serial, what, .. } = self;
        let mut text = format!("{serial:6}  {what}");
        if self.parent > 0 {
            text += &format!(" in {} {}", self.inside, self.parent);
        }
        if !self.element {
            text += &format!(" {}", quoted(&self.value));
        }
        text
    }
}

fn entries(store: &Store) -> Vec<Entry> {
    let form = Form::of(store);
    let lists = Lists::of(store);
    let names: HashMap<u32, &str> = lists
        .lines
        .iter()
        .filter_map(|line| Some((line.row.serial, form.name(line.definition()?))))
        .collect();
    let lines = lists.lines.iter();
    lines.map(|line| entry(&form, &names, line)).collect()
}

fn entry(form: &Form, names: &HashMap<u32, &str>, line: &Line) -> Entry {
    let (what, value) = match line.row.content {
        Content::Element { definition } => (form.name(definition).to_string(), ""),
        Content::Attribute { attribute, value } => {
            let found = form.reader.attribute(attribute);
            let name = found.map_or("", |attribute| attribute.name);
            (format!("@{name}"), value)
        }
        Content::Text { value } => ("text".to_string(), value),
    };
    Entry {
        serial: line.row.serial,
        what,
        parent: line.parent,
        inside: names
            .get(&line.parent)
            .copied()
            .unwrap_or_default()
            .to_string(),
        element: line.definition().is_some(),
        value: value.to_string(),
    }
}

fn by_serial(entries: &[Entry]) -> HashMap<u32, &Entry> {
    entries.iter().map(|entry| (entry.serial, entry)).collect()
}

/// Whether both are one row: what a row is and where it stands never changes.
fn same_row(one: &Entry, other: &Entry) -> bool {
    one.what == other.what && one.parent == other.parent
}

/// The rows of the first that the second does not have.
fn missing(of: &[Entry], among: &[Entry]) -> Vec<Entry> {
    let there = by_serial(among);
    let gone = |entry: &&Entry| {
        !there
            .get(&entry.serial)
            .is_some_and(|other| same_row(entry, other))
    };
    of.iter().filter(gone).cloned().collect()
}

fn revalued(old: &[Entry], new: &[Entry]) -> Vec<(Entry, Entry)> {
    let there = by_serial(old);
    let pair = |entry: &Entry| {
        let before = there.get(&entry.serial)?;
        let other = same_row(before, entry) && before.value != entry.value;
        other.then(|| ((*before).clone(), entry.clone()))
    };
    new.iter().filter_map(pair).collect()
}

/// Whether what is in both stands in another order.
fn in_other_order<T: Eq + std::hash::Hash + Copy>(
    old: impl Iterator<Item = T>,
    new: impl Iterator<Item = T>,
) -> bool {
    let places: HashMap<T, usize> = old.zip(0..).collect();
    let kept: Vec<usize> = new.filter_map(|item| places.get(&item).copied()).collect();
    !kept.is_sorted()
}

fn form_differences(old: &Form, new: &Form) -> Vec<String> {
    let definitions = |form: &Form| -> Vec<(String, String)> {
        let named = form.reader.definitions();
        named
            .map(|definition| {
                (
                    definition.name.to_string(),
                    form.described(definition.index),
                )
            })
            .collect()
    };
    let attributes = |form: &Form| -> Vec<(String, String)> {
        let named = form.reader.attributes();
        named
            .map(|attribute| (form.attribute_name(&attribute), attribute_text(&attribute)))
            .collect()
    };
    let mut told = Vec::new();
    pieces(
        &mut told,
        "definition",
        &definitions(old),
        &definitions(new),
    );
    pieces(&mut told, "attribute", &attributes(old), &attributes(new));
    told
}

/// What differs among things with a name and a text.
fn pieces(told: &mut Vec<String>, sort: &str, old: &[(String, String)], new: &[(String, String)]) {
    let text_in = |list: &[(String, String)], name: &str| {
        let found = list.iter().find(|(here, _)| here == name);
        found.map(|(_, text)| text.clone())
    };
    for (name, text) in old {
        match text_in(new, name) {
            None => told.push(format!("{sort} {name} is gone: {text}")),
            Some(now) if now != *text => {
                told.push(format!("{sort} {name} was {text} and is {now}"))
            }
            Some(_) => {}
        }
    }
    for (name, text) in new.iter().filter(|(name, _)| text_in(old, name).is_none()) {
        told.push(format!("{sort} {name} is new: {text}"));
    }
    if in_other_order(
        old.iter().map(|(name, _)| name),
        new.iter().map(|(name, _)| name),
    ) {
        told.push(format!(
            "the {sort}s that are in both stand in another order"
        ));
    }
}

/// `584 elements, 4,088 rows in all`.
fn counted(entries: &[Entry]) -> String {
    let elements = entries.iter().filter(|entry| entry.element).count();
    match elements {
        0 => plural(entries.len(), "attribute"),
        _ if elements == entries.len() => plural(elements, "element"),
        _ => format!(
            "{}, {} rows in all",
            plural(elements, "element"),
            thousands(entries.len())
        ),
    }
}

/// `1 row`, `4,096 rows`.
pub fn plural(count: usize, word: &str) -> String {
    let end = if count == 1 { "" } else { "s" };
    format!("{} {word}{end}", thousands(count))
}

/// Which elements or attributes go, where they are few; what stands below them goes unnamed.
fn named_tops(entries: &[Entry]) -> String {
    let gone = by_serial(entries);
    let tops: Vec<&Entry> = entries
        .iter()
        .filter(|entry| !gone.contains_key(&entry.parent))
        .collect();
    if tops.len() > 3 {
        return String::new();
    }
    let words = tops.iter().map(|entry| match entry.element {
        true => format!("{} {}", entry.what, entry.serial),
        false => format!(
            "{} {} of {} {}",
            entry.what,
            quoted(&entry.value),
            entry.inside,
            entry.parent
        ),
    });
    format!(": {}", words.collect::<Vec<_>>().join(", "))
}

fn set_words(verb: &str, (old, new): &(Entry, Entry)) -> String {
    let (before, after) = (quoted(&old.value), quoted(&new.value));
    let Entry {
        inside,
        parent,
        what,
        ..
    } = old;
    let what = if what == "text" {
        String::new()
    } else {
        format!("{what} of ")
    };
    format!("{verb} {what}{inside} {parent} from {before} to {after}")
}

/// `serials 2 to 6, 9`; where there are many runs, the first and the last serial.
fn ranges(entries: &[Entry]) -> String {
    let mut serials: Vec<u32> = entries.iter().map(|entry| entry.serial).collect();
    serials.sort_unstable();
    let runs = serials.chunk_by(|one, next| next - one == 1);
    let words = runs.map(|run| match run {
        [first, .., last] => format!("{first} to {last}"),
        _ => run.iter().map(u32::to_string).collect(),
    });
    let words: Vec<String> = words.collect();
    match (&serials[..], words.len()) {
        ([_], _) => format!("serial {}", words.join("")),
        ([first, .., last], 5..) => format!("among serials {first} to {last}"),
        _ => format!("serials {}", words.join(", ")),
    }
}

/// The number with a comma before each three digits.
pub fn thousands(number: usize) -> String {
    let digits = number.to_string();
    let groups = digits.as_bytes().rchunks(3).rev();
    let words: Vec<String> = groups
        .map(|group| String::from_utf8_lossy(group).into_owned())
        .collect();
    words.join(",")
}
