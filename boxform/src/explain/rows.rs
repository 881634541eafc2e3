//! Refusals about the lists: rows that are not there, and elements that would not match.

use super::Case;
use crate::form::{place_text, quoted, Form};
use crate::lists::Line;
use formstore::{Code, Content, Kind, Particle, Quantifier};

impl Case<'_> {
    /// No element has the serial, or it does not have the attribute.
    pub(super) fn no_row(&self) -> Option<String> {
        let flag = if self.given.has("parent") {
            "parent"
        } else {
            "element"
        };
        let serial = self.serial(flag)?;
        let next = self.store.reader().next_serial();
        let fault = match self.lists.find(serial) {
            Some(line) if line.definition().is_some() => {
                let name = self.form.attribute_name(&self.attribute()?);
                return Some(self.told(
                    "attribute",
                    &format!(
                        "{} has no {name}, so there is nothing to take",
                        self.element(serial)
                    ),
                ));
            }
            Some(line) => format!(
                "this is {}; give its element, {}",
                self.leaf(line),
                self.element(line.parent)
            ),
            None if serial == 0 || serial >= next => {
                format!("no row has had this serial yet; the next is {next}")
            }
            None => "the row with this serial was taken".to_string(),
        };
        Some(self.told(flag, &fault))
    }

    /// A row that is no element.
    fn leaf(&self, line: &Line) -> String {
        match line.row.content {
            Content::Attribute { attribute, value } => {
                let found = self.form.reader.attribute(attribute);
                let name = found.map_or_else(String::new, |attribute| {
                    self.form.attribute_name(&attribute)
                });
                format!("the attribute {name} {}", quoted(value))
            }
            Content::Text { value } => format!("the text {}", quoted(value)),
            Content::Element { .. } => self.element(line.row.serial),
        }
    }

    /// 3: the owner has no model. 16: the element has no text.
    pub(super) fn wrong_kind(&self) -> Option<String> {
        if self.change == "insert-element" {
            let (owner, _) = self.located()?;
            let holds = holds(self.form.kind(owner)?);
            return Some(format!(
                "{} {holds}, so it has no model; only a complex definition has",
                self.form.name(owner)
            ));
        }
        let serial = self.serial("element")?;
        let holds = holds(self.form.kind(self.lists.definition(serial)?)?);
        let mut text = format!("{} {holds}, no text", self.element(serial));
        let texts = self.lists.children(serial);
        let texts = texts.filter(|line| {
            line.definition()
                .and_then(|definition| self.form.kind(definition))
                == Some(Kind::Pcdata)
        });
        let below: Vec<String> = texts.map(|line| self.element(line.row.serial)).collect();
        if !below.is_empty() {
            text += &format!("; those below it that hold one: {}", below.join(", "));
        }
        Some(self.told("element", &text))
    }

    /// 4, 12 to 15: an element would not match its definition.
    pub(super) fn no_match(&self) -> Option<String> {
        match self.change {
            "add-element" => self.cannot_add(),
            "destroy-element" => self.cannot_destroy(),
            "set-attribute" => {
                let value = quoted(self.attribute()?.value);
                Some(self.told(
                    "value",
                    &format!("the attribute is fixed to {value} and can have no other value"),
                ))
            }
            "destroy-attribute-row" => {
                let serial = self.serial("element")?;
                Some(self.told(
                    "attribute",
                    &format!(
                        "it is required, so {} keeps it; its value can be set",
                        self.element(serial)
                    ),
                ))
            }
            _ => self.choice_would_be_empty(),
        }
    }

    /// Why a new child does not fit, and where it would.
    fn cannot_add(&self) -> Option<String> {
        let parent = self.serial("parent")?;
        let definition = self.definition("definition")?;
        let owner = self.lists.definition(parent)?;
        let (name, model) = (self.form.name(definition), self.form.content(owner));
        let around = self.element(parent);
        let Some(place) = self.form.place_of(owner, definition) else {
            return Some(format!(
                "{name} is not in {model}, which is what {around} holds"
            ));
        };
        let children: Vec<&Line> = self.lists.children(parent).collect();
        let numbers = 0..=children.len() as u32;
        let fitting = numbers.filter(|child| self.fits(parent, *child, definition));
        let fitting: Vec<String> = fitting.map(|child| child.to_string()).collect();
        if !fitting.is_empty() {
            let fault =
                format!("{name} does not fit there in {model}; in {around} it fits as child");
            return Some(self.told("child", &format!("{fault} {}", fitting.join(" or "))));
        }
        let stands = children
            .iter()
            .find(|line| line.definition() == Some(definition));
        Some(match stands {
            Some(line) if once(&self.form, owner, &place) => {
                let there = self.element(line.row.serial);
                format!("{name} may come once in {model}; in {around} it is there already, {there}")
            }
            _ => {
                let names = self.child_names(&children);
                format!("{name} fits nowhere in {around}: {model} allows no {name} beside its children, {names}")
            }
        })
    }

    /// Whether the library would take the child there.
    fn fits(&self, parent: u32, child: u32, definition: u32) -> bool {
        let mut store = self.store.clone();
        store
            .add_element(parent, child, definition, self.given.bytes("text"))
            .is_ok()
    }

    fn child_names(&self, children: &[&Line]) -> String {
        let names = children
            .iter()
            .filter_map(|line| Some(self.form.name(line.definition()?)));
        let names: Vec<&str> = names.collect();
        if names.is_empty() {
            "none".to_string()
        } else {
            names.join(",")
        }
    }

    /// Which model asks for the element.
    fn cannot_destroy(&self) -> Option<String> {
        let serial = self.serial("element")?;
        let line = self.lists.find(serial)?;
        let definition = line.definition()?;
        let owner = self.lists.definition(line.parent)?;
        let (name, model) = (self.form.name(definition), self.form.content(owner));
        let mut text = format!(
            "{} must keep it: {model} would not fit without {name}",
            self.element(line.parent)
        );
        let place = self.form.place_of(owner, definition)?;
        let particle = self.form.particle_at(owner, &place)?;
        if place.len() == 1 {
            let (owner, looser) = (self.form.name(owner), looser(particle.quantifier));
            text += &format!("; 'change-quantifier --place {owner}/{name} --quantifier {looser}' lets it be absent");
        }
        Some(self.told("element", &text))
    }

    /// 4 from a CHOICE.
    fn choice_would_be_empty(&self) -> Option<String> {
        let (owner, place) = self.located()?;
        let (_, groups) = place.split_last()?;
        let group = self.form.particle_at(owner, groups)?;
        let (stand, text, looser) = (
            self.instances(owner),
            self.form.text(&group),
            looser(group.quantifier),
        );
        let (name, at) = (self.form.name(owner), place_text(groups));
        let fault = format!(
            "{stand} and may have chosen it, and {text} must hold one of its members; \
             'change-group-quantifier --place {name}/{at} --quantifier {looser}' lets it be absent"
        );
        Some(self.told("place", &fault))
    }
}

/// The quantifier that also lets it be absent.
fn looser(quantifier: Quantifier) -> &'static str {
    match quantifier {
        Quantifier::None | Quantifier::Qmark => Quantifier::Qmark.word(),
        Quantifier::Star | Quantifier::Plus => Quantifier::Star.word(),
    }
}

fn holds(kind: Kind) -> &'static str {
    match kind {
        Kind::Empty => "holds nothing",
        Kind::Pcdata => "holds a text",
        Kind::Complex => "holds elements",
    }
}

/// Whether the element at the place, and each group around it, may come once at the most.
fn once(form: &Form, owner: u32, place: &[u32]) -> bool {
    let single =
        |particle: &Particle| matches!(particle.quantifier, Quantifier::None | Quantifier::Qmark);
    let mut around =
        (1..=place.len()).filter_map(|length| form.particle_at(owner, &place[..length]));
    around.all(|particle| single(&particle))
}
