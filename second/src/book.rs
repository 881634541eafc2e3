//! *The book*: what a history counts, kept from the calls alone.
//!
//! It is fed each call and whether it was accepted, and never reads a store.
//! Its lines are flat: a line knows its parent by the serial and nothing else,
//! so the row rules below are written apart from those on trees.

use crate::call::Call;
use crate::edit;
use crate::rows::{Row, RowSort};
use crate::store::*;
use std::collections::HashSet;

/// A line per row made.
#[derive(Clone, Debug, PartialEq, Eq)]
pub struct Line {
    pub row: Row,
    pub taken: bool,
}

#[derive(Clone, Debug)]
pub struct Book {
    pub next_serial: u32,
    pub form: Form,
    /// The untaken lines, in document order.
    lines: Vec<Line>,
    /// The taken lines stand apart, in the order in which they were taken.
    taken: Vec<Line>,
}

impl Default for Book {
    fn default() -> Book {
        Book::new()
    }
}

impl Book {
    /// The book of a history that has not begun.
    pub fn new() -> Book {
        Book::starting(1, Form::default(), Vec::new())
    }

    /// The book of a history that starts at a store which was built.
    pub fn starting(next_serial: u32, form: Form, rows: Vec<Row>) -> Book {
        let line = |row| Line { row, taken: false };
        Book {
            next_serial,
            form,
            lines: rows.into_iter().map(line).collect(),
            taken: Vec::new(),
        }
    }

    /// All lines, the untaken ones first and in document order.
    pub fn lines(&self) -> impl Iterator<Item = &Line> {
        self.lines.iter().chain(&self.taken)
    }

    /// The untaken lines as rows, in document order.
    pub fn rows(&self) -> Vec<Row> {
        self.lines.iter().map(|line| line.row.clone()).collect()
    }

    /// Feeds a call. A refused call changes nothing.
    pub fn note(&mut self, call: &Call, accepted: bool) {
        if !accepted {
            return;
        }
        match call {
            Call::CreateDefinition { name, kind } => {
                edit::create_definition(&mut self.form, name, code(*kind));
            }
            Call::DestroyDefinition { definition } => {
                edit::destroy_definition(&mut self.form, *definition as usize);
            }
            Call::InsertElement {
                owner,
                place,
                definition,
                quantifier,
                text,
            } => {
                let (owner, definition) = (*owner as usize, *definition as usize);
                self.insert_element(owner, place, definition, code(*quantifier), text);
            }
            Call::RemoveElement { owner, place } => self.remove_element(*owner as usize, place),
            Call::ChangeQuantifier {
                owner,
                place,
                quantifier,
                text,
            }
            | Call::ChangeGroupQuantifier {
                owner,
                place,
                quantifier,
                text,
            } => self.change_quantifier(*owner as usize, place, code(*quantifier), text),
            Call::ConvertToGroup {
                owner,
                place,
                count,
                sort,
            } => {
                let (owner, count) = (*owner as usize, *count as usize);
                edit::convert_to_group(&mut self.form, owner, place, count, code(*sort));
            }
            Call::FlattenGroup { owner, place } => {
                edit::flatten_group(&mut self.form, *owner as usize, place);
            }
            Call::AddAttribute {
                owner,
                name,
                sort,
                value,
            } => self.add_attribute(*owner as usize, name, code(*sort), value),
            Call::DestroyAttribute { attribute } => self.destroy_attribute(*attribute as usize),
            Call::AddDocument { definition, text } => {
                let at = self.lines.len();
                self.insert_filling(at, 0, *definition as usize, text);
            }
            Call::AddElement {
                parent,
                child,
                definition,
                text,
            } => self.add_element(*parent, *child as usize, *definition as usize, text),
            Call::DestroyElement { element } => self.take(*element),
            Call::SetAttribute {
                element,
                attribute,
                value,
            } => self.set_attribute(*element, *attribute as usize, value),
            Call::DestroyAttributeRow { element, attribute } => {
                let name = self.form.attributes[*attribute as usize].name.clone();
                let row = self.attribute_line(*element, &name);
                self.take(row.expect("an accepted call names a row"));
            }
            Call::SetText { element, text } => self.set_text(*element, text),
        }
    }
}

/// The case of an enum for a code of an accepted call.
fn code<T: Code>(code: u32) -> T {
    T::from_code(code).expect("an accepted call has good codes")
}

/// Does the place's last number count in a list of the spine?
fn in_spine_list(members: &[Particle], place: &[u32]) -> bool {
    if place.len() == 1 {
        return true;
    }
    match &members[place[0] as usize - 1] {
        Particle {
            quantifier: Quantifier::None,
            term: Term::Group(GroupKind::List, inner),
        } => in_spine_list(inner, &place[1..]),
        _ => false,
    }
}

/// The particle that a place picks.
fn picked<'a>(members: &'a [Particle], place: &[u32]) -> &'a Particle {
    let particle = &members[place[0] as usize - 1];
    match &particle.term {
        Term::Group(_, inner) if place.len() > 1 => picked(inner, &place[1..]),
        _ => particle,
    }
}

/// Lines: finding, making and taking.
impl Book {
    fn position(&self, serial: u32) -> usize {
        let found = self.lines.iter().position(|line| line.row.serial == serial);
        found.expect("the serial of an untaken line")
    }

    /// The position behind the line and all lines below it.
    fn end(&self, start: usize) -> usize {
        let mut inside = HashSet::from([self.lines[start].row.serial]);
        let mut at = start + 1;
        while at < self.lines.len() && inside.contains(&self.lines[at].row.parent) {
            inside.insert(self.lines[at].row.serial);
            at += 1;
        }
        at
    }

    /// The element lines whose parent it is, as serial and name.
    fn children(&self, serial: u32) -> Vec<(u32, Vec<u8>)> {
        let start = self.position(serial);
        self.lines[start..self.end(start)]
            .iter()
            .filter(|line| line.row.parent == serial && line.row.sort == RowSort::Element)
            .map(|line| (line.row.serial, line.row.name.clone().unwrap_or_default()))
            .collect()
    }

    /// The serials of the untaken element lines of the owner's name.
    fn instances(&self, owner: usize) -> Vec<u32> {
        let name = &self.form.definitions[owner].name;
        self.lines
            .iter()
            .filter(|line| {
                line.row.sort == RowSort::Element && line.row.name.as_ref() == Some(name)
            })
            .map(|line| line.row.serial)
            .collect()
    }

    /// The serial of an element's attribute line of this name.
    fn attribute_line(&self, element: u32, name: &[u8]) -> Option<u32> {
        self.lines
            .iter()
            .find(|line| {
                line.row.parent == element
                    && line.row.sort == RowSort::Attribute
                    && line.row.name.as_deref() == Some(name)
            })
            .map(|line| line.row.serial)
    }

    /// The position behind an element's line and its attribute lines.
    fn behind_attributes(&self, element: u32) -> usize {
        let mut at = self.position(element) + 1;
        while at < self.lines.len()
            && self.lines[at].row.sort == RowSort::Attribute
            && self.lines[at].row.parent == element
        {
            at += 1;
        }
        at
    }

    /// Marks the line and all lines below it taken.
    fn take(&mut self, serial: u32) {
        let start = self.position(serial);
        let end = self.end(start);
        for mut line in self.lines.drain(start..end) {
            line.taken = true;
            self.taken.push(line);
        }
    }

    /// A new line with the next serial, which then rises by 1.
    fn make(
        &mut self,
        sort: RowSort,
        name: Option<&[u8]>,
        parent: u32,
        value: Option<&[u8]>,
    ) -> Line {
        let row = Row {
            serial: self.next_serial,
            sort,
            name: name.map(<[u8]>::to_vec),
            parent,
            value: value.map(<[u8]>::to_vec),
        };
        self.next_serial += 1;
        Line { row, taken: false }
    }
}

/// Fillings.
impl Book {
    fn insert_filling(&mut self, at: usize, parent: u32, definition: usize, text: &[u8]) {
        let mut lines = Vec::new();
        self.fill_definition(definition, parent, text, &mut lines);
        self.lines.splice(at..at, lines);
    }

    fn fill_definition(&mut self, index: usize, parent: u32, text: &[u8], lines: &mut Vec<Line>) {
        // No accepted call makes more; a wrong acceptance must not fill the memory.
        assert!(lines.len() < MAX_ROWS, "a filling passes the ceiling");
        let definition = self.form.definitions[index].clone();
        let line = self.make(RowSort::Element, Some(&definition.name), parent, None);
        let serial = line.row.serial;
        lines.push(line);
        for attribute in self.form.attributes.clone() {
            if attribute.owner == index && attribute.sort == AttributeSort::Required {
                let (name, value) = (Some(&attribute.name[..]), Some(&attribute.value[..]));
                lines.push(self.make(RowSort::Attribute, name, serial, value));
            }
        }
        if definition.kind == Kind::Pcdata {
            lines.push(self.make(RowSort::Text, None, serial, Some(text)));
        }
        for particle in &definition.model {
            self.fill_particle(particle, serial, text, lines);
        }
    }

    fn fill_particle(
        &mut self,
        particle: &Particle,
        parent: u32,
        text: &[u8],
        lines: &mut Vec<Line>,
    ) {
        if particle.accepts_nothing() {
            return;
        }
        match &particle.term {
            Term::Element(index) => self.fill_definition(*index, parent, text, lines),
            Term::Group(kind, members) => {
                let filled = match kind {
                    GroupKind::List => members.len(),
                    GroupKind::Choice => 1,
                };
                for member in &members[..filled] {
                    self.fill_particle(member, parent, text, lines);
                }
            }
        }
    }

    /// Gives each instance without a child of the particle, which stands in
    /// the owner's model, its filling.
    fn fill(&mut self, owner: usize, particle: &Particle, text: &[u8]) {
        let own = self.names(std::slice::from_ref(particle));
        let mut earlier = self.names(&self.form.definitions[owner].model);
        // A name stands once in a model, so the particle begins at its first name.
        let begin = earlier.iter().position(|name| *name == own[0]);
        earlier.truncate(begin.expect("the particle stands in the model"));
        for instance in self.instances(owner) {
            let children = self.children(instance);
            if children.iter().any(|(_, name)| own.contains(name)) {
                continue;
            }
            let before = children.iter().rfind(|(_, name)| earlier.contains(name));
            let at = match before {
                Some((child, _)) => self.end(self.position(*child)),
                None => self.behind_attributes(instance),
            };
            let mut lines = Vec::new();
            self.fill_particle(particle, instance, text, &mut lines);
            self.lines.splice(at..at, lines);
        }
    }

    /// The names of the elements in a list, in the order of the model.
    fn names(&self, members: &[Particle]) -> Vec<Vec<u8>> {
        let mut names = Vec::new();
        for particle in members {
            match &particle.term {
                Term::Element(index) => names.push(self.form.definitions[*index].name.clone()),
                Term::Group(_, inner) => names.extend(self.names(inner)),
            }
        }
        names
    }
}

/// The row rules of the single changes.
impl Book {
    /// 3: a NONE or PLUS member in a spine list gives each instance a filling.
    fn insert_element(
        &mut self,
        owner: usize,
        place: &[u32],
        definition: usize,
        quantifier: Quantifier,
        text: &[u8],
    ) {
        edit::insert_element(&mut self.form, owner, place, definition, quantifier);
        let model = &self.form.definitions[owner].model;
        if quantifier.is_required() && in_spine_list(model, place) {
            let term = Term::Element(definition);
            self.fill(owner, &Particle { quantifier, term }, text);
        }
    }

    /// 4: those children of instances go.
    fn remove_element(&mut self, owner: usize, place: &[u32]) {
        let particle = picked(&self.form.definitions[owner].model, place).clone();
        let own = self.names(&[particle]);
        for instance in self.instances(owner) {
            for (child, name) in self.children(instance) {
                if own.contains(&name) {
                    self.take(child);
                }
            }
        }
        edit::remove_element(&mut self.form, owner, place);
    }

    /// 5 and 8; a cut of 8 is refused where an instance exists.
    fn change_quantifier(&mut self, owner: usize, place: &[u32], new: Quantifier, text: &[u8]) {
        let model = &self.form.definitions[owner].model;
        let on_spine = in_spine_list(model, place);
        let mut particle = picked(model, place).clone();
        let old = std::mem::replace(&mut particle.quantifier, new);
        edit::change_quantifier(&mut self.form, owner, place, new);
        if on_spine && old.cuts_to(new) {
            let own = self.names(std::slice::from_ref(&particle));
            for instance in self.instances(owner) {
                let mut children = self.children(instance);
                children.retain(|(_, name)| own.contains(name));
                for (child, _) in children.iter().skip(1) {
                    self.take(*child);
                }
            }
        }
        if on_spine && old.gains_to(new) {
            self.fill(owner, &particle, text);
        }
    }

    /// 9: REQUIRED adds a line to each instance, behind its attribute lines.
    fn add_attribute(&mut self, owner: usize, name: &[u8], sort: AttributeSort, value: &[u8]) {
        let attribute = Attribute {
            owner,
            name: name.to_vec(),
            sort,
            value: value.to_vec(),
        };
        edit::add_attribute(&mut self.form, attribute);
        if sort != AttributeSort::Required {
            return;
        }
        for instance in self.instances(owner) {
            let at = self.behind_attributes(instance);
            let line = self.make(RowSort::Attribute, Some(name), instance, Some(value));
            self.lines.insert(at, line);
        }
    }

    /// 10: the rows go too.
    fn destroy_attribute(&mut self, index: usize) {
        let Attribute { owner, name, .. } = self.form.attributes[index].clone();
        for instance in self.instances(owner) {
            if let Some(serial) = self.attribute_line(instance, &name) {
                self.take(serial);
            }
        }
        edit::destroy_attribute(&mut self.form, index);
    }

    /// 12: the filling stands before the child that had the number, or behind
    /// all below the parent.
    fn add_element(&mut self, parent: u32, child: usize, definition: usize, text: &[u8]) {
        let at = match self.children(parent).get(child) {
            Some((next, _)) => self.position(*next),
            None => self.end(self.position(parent)),
        };
        self.insert_filling(at, parent, definition, text);
    }

    /// 14: sets the value, or makes the line in table order.
    fn set_attribute(&mut self, element: u32, index: usize, value: &[u8]) {
        let Attribute { owner, name, .. } = self.form.attributes[index].clone();
        if let Some(serial) = self.attribute_line(element, &name) {
            let at = self.position(serial);
            self.lines[at].row.value = Some(value.to_vec());
            return;
        }
        let mut at = self.position(element) + 1;
        for earlier in &self.form.attributes[..index] {
            let present = self.attribute_line(element, &earlier.name).is_some();
            if earlier.owner == owner && present {
                at += 1;
            }
        }
        let line = self.make(RowSort::Attribute, Some(&name), element, Some(value));
        self.lines.insert(at, line);
    }

    /// 16: sets the value at the text line.
    fn set_text(&mut self, element: u32, text: &[u8]) {
        let own = |line: &&mut Line| line.row.parent == element && line.row.sort == RowSort::Text;
        let line = self.lines.iter_mut().find(own);
        line.expect("PCDATA has a text line").row.value = Some(text.to_vec());
    }
}
