//! Why a change was refused in this case, and what can be done now. The library has decided; this only says which
//! argument, element or model it was.

mod models;
mod rows;
pub mod spelling;

use crate::compare::thousands;
use crate::form::Form;
use crate::given::{listed, Given};
use crate::lists::Lists;
use formstore::{
    Attribute, Particle, Refusal, Store, MAX_ATTRIBUTES, MAX_DEFINITIONS, MAX_PARTICLES, MAX_ROWS,
};

/// A change that was refused, and the store that it was asked of.
struct Case<'a> {
    change: &'a str,
    given: &'a Given,
    store: &'a Store,
    form: Form<'a>,
    lists: Lists<'a>,
}

/// Why the store refuses the change. Where nothing more can be said, it is what the refusal says for all calls.
pub fn explain(change: &str, given: &Given, store: &Store, refusal: Refusal) -> String {
    let case = Case {
        change,
        given,
        store,
        form: Form::of(store),
        lists: Lists::of(store),
    };
    let found = match refusal {
        Refusal::BadName => {
            spelling::name(given.bytes("name")).map(|fault| case.told("name", &fault))
        }
        Refusal::BadValue => case.bad_value(),
        Refusal::Taken => Some(case.taken()),
        Refusal::Unknown => case.unknown(),
        Refusal::NoRow => case.no_row(),
        Refusal::NoPlace => case.no_place(),
        Refusal::WrongKind => case.wrong_kind(),
        Refusal::InUse => case.in_use(),
        Refusal::Round => case.round(),
        Refusal::Default => Some(case.default()),
        Refusal::OffSpine => case.off_spine(),
        Refusal::Grouping => case.grouping(),
        Refusal::NoMatch => case.no_match(),
        Refusal::Ceiling => Some(case.ceiling()),
        _ => None,
    };
    found.unwrap_or_else(|| refusal.reason().to_string())
}

impl<'a> Case<'a> {
    /// The fault with the argument that has it.
    fn told(&self, flag: &str, fault: &str) -> String {
        format!("--{flag} {}: {fault}", self.given.text(flag))
    }

    fn definition(&self, flag: &str) -> Option<u32> {
        self.given.definition(flag, self.store).ok()
    }

    fn serial(&self, flag: &str) -> Option<u32> {
        self.given.number(flag).ok()
    }

    fn located(&self) -> Option<(u32, Vec<u32>)> {
        self.given.place(self.store).ok()
    }

    /// What stands at the place.
    fn particle(&self) -> Option<Particle<'a>> {
        let (owner, place) = self.located()?;
        self.form.particle_at(owner, &place)
    }

    /// `finisher 2`.
    fn element(&self, serial: u32) -> String {
        let definition = self.lists.definition(serial).unwrap_or(u32::MAX);
        format!("{} {serial}", self.form.name(definition))
    }

    /// `584 finisher stand in the lists`.
    fn instances(&self, definition: u32) -> String {
        let count = self.lists.instances(definition).count();
        let stand = if count == 1 { "stands" } else { "stand" };
        format!(
            "{} {} {stand} in the lists",
            thousands(count),
            self.form.name(definition)
        )
    }

    fn bad_value(&self) -> Option<String> {
        let mut flags = ["text", "value"].into_iter();
        flags.find_map(|flag| {
            let fault = spelling::value(self.given.bytes(flag))?;
            Some(self.told(flag, &fault))
        })
    }

    fn taken(&self) -> String {
        let what = match self.change {
            "add-attribute" => "it has an attribute of this name already",
            _ => "a definition of this name is there already",
        };
        self.told("name", &format!("{what}; give another name"))
    }

    /// An index past its table, or an attribute of another definition.
    fn unknown(&self) -> Option<String> {
        for flag in ["owner", "definition"] {
            let past = self
                .definition(flag)
                .is_some_and(|index| self.form.kind(index).is_none());
            if self.given.has(flag) && past {
                return Some(self.told(
                    flag,
                    &format!(
                        "no definition has this index; there are: {}",
                        listed(&self.form.names())
                    ),
                ));
            }
        }
        let attributes = self.form.reader.attributes();
        let Some(_) = self.attribute() else {
            let names = self.form.attribute_names(attributes);
            return Some(self.told(
                "attribute",
                &format!("no attribute has this index; there are: {}", listed(&names)),
            ));
        };
        let serial = self.serial("element")?;
        let owner = self.lists.definition(serial)?;
        let names = self
            .form
            .attribute_names(self.form.reader.attributes_of(owner));
        let element = self.element(serial);
        Some(self.told(
            "attribute",
            &format!(
                "{element} cannot have it; its attributes are: {}",
                listed(&names)
            ),
        ))
    }

    fn attribute(&self) -> Option<Attribute<'a>> {
        let index = self.given.attribute(self.store).ok()?;
        self.form.reader.attribute(index)
    }

    /// Which ceiling it is. One of the form is met exactly when the form is full; else it is the depth or the rows.
    fn ceiling(&self) -> String {
        let definitions = self.form.reader.definitions();
        let particles: usize = definitions
            .map(|owner| self.form.places(owner.index).count())
            .sum();
        let attributes = self.form.reader.attributes().count();
        let full = |what: &str, most: usize| {
            format!("the store has {most} {what} already, and more cannot be")
        };
        match self.change {
            "create-definition" => full("definitions", MAX_DEFINITIONS),
            "add-attribute" if attributes == MAX_ATTRIBUTES => full("attributes", MAX_ATTRIBUTES),
            "insert-element" | "convert-to-group" if particles == MAX_PARTICLES => {
                full("members of models", MAX_PARTICLES)
            }
            "convert-to-group" => {
                "the groups would stand in each other more than 4 deep".to_string()
            }
            _ => {
                let rows = self.lists.lines.len();
                let left = thousands(MAX_ROWS - rows);
                format!(
                    "the rows do not suffice: {} of {} are used, {left} are left",
                    thousands(rows),
                    thousands(MAX_ROWS)
                )
            }
        }
    }
}
