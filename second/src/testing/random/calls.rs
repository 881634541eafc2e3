//! Random calls: friendly ones that a store is likely to accept, and hostile
//! ones.

use super::forms::{full_value, value, NAMES};
use crate::call::Call;
use crate::check::Judge;
use crate::model::{elements_of, reached_from};
use crate::rng::Rng;
use crate::store::*;

/// Which places of a model are looked for.
#[derive(Clone, Copy, PartialEq, Eq)]
enum Wanted {
    Gap,
    Element,
    Group,
    Member,
}

/// Draws the arguments of a call on a store.
struct Drawer<'a> {
    rng: &'a mut Rng,
    store: &'a Store,
    /// How many of a hundred arguments are hostile.
    hostile: usize,
}

/// How often each change is drawn, of a hundred: what makes forms and documents
/// grow more often than what makes them shrink.
const WEIGHTS: [usize; 16] = [6, 2, 12, 4, 8, 8, 6, 7, 7, 2, 6, 12, 5, 7, 4, 4];

/// A random call of any of the sixteen changes. One with nothing to work on
/// gives way to the growing of it, most times.
pub fn call(rng: &mut Rng, store: &Store) -> Call {
    let mut number = rng.below(WEIGHTS.iter().sum());
    let mut change = 1;
    for weight in WEIGHTS {
        if number < weight {
            break;
        }
        number -= weight;
        change += 1;
    }
    if rng.chance(90) {
        let form = &store.form;
        change = match change {
            2..=16 if form.definitions.len() < 3 => 1,
            12..=16 if store.documents.is_empty() => 11,
            10 | 14 | 15 if form.attributes.is_empty() => 9,
            _ => change,
        };
    }
    call_of(rng, store, change)
}

/// A random call of the change with this number.
pub fn call_of(rng: &mut Rng, store: &Store, change: usize) -> Call {
    let hostile = if rng.chance(25) { 25 } else { 0 };
    let mut drawer = Drawer {
        rng,
        store,
        hostile,
    };
    match change {
        1 => drawer.create_definition(),
        2 => drawer.destroy_definition(),
        3 => drawer.insert_element(),
        4..=8 => drawer.change_model(change),
        9 => drawer.add_attribute(),
        10 => Call::DestroyAttribute {
            attribute: drawer.index(store.form.attributes.len()),
        },
        11 => Call::AddDocument {
            definition: drawer.index(store.form.definitions.len()),
            text: drawer.text(),
        },
        12 => drawer.add_element(),
        13 => drawer.destroy_element(),
        14 => drawer.set_attribute(),
        15 => drawer.destroy_attribute_row(),
        _ => drawer.set_text(),
    }
}

impl Drawer<'_> {
    fn is_hostile(&mut self) -> bool {
        self.rng.chance(self.hostile)
    }

    /// A number that is likely to be wrong where there are `count` good ones.
    fn hostile_number(&mut self, count: usize) -> u32 {
        let count = count as u32;
        let numbers = [
            0,
            count,
            count + 1,
            255,
            256,
            65_535,
            65_536,
            u32::MAX - 1,
            u32::MAX,
        ];
        *self.rng.pick(&numbers).unwrap_or(&0)
    }

    fn index(&mut self, count: usize) -> u32 {
        if count == 0 || self.is_hostile() {
            return self.hostile_number(count);
        }
        self.rng.below(count) as u32
    }

    fn text(&mut self) -> Vec<u8> {
        if !self.is_hostile() {
            return value(self.rng);
        }
        let mut text = vec![b'v'; 1 + self.rng.below(40)];
        let at = self.rng.below(text.len());
        text[at] = *self
            .rng
            .pick(&[0x1f, 0x20, 0x7e, 0x7f, 0x80, 0])
            .unwrap_or(&0);
        text
    }

    /// Mostly not empty.
    fn full_text(&mut self) -> Vec<u8> {
        if self.is_hostile() || self.rng.chance(5) {
            return self.text();
        }
        full_value(self.rng)
    }

    fn name(&mut self) -> Vec<u8> {
        if self.is_hostile() {
            let names: [&[u8]; 13] = [
                b"",
                b"9a",
                b"-a",
                b".a",
                b"a b",
                b"a:b",
                b"a\x80",
                b"\0",
                b"seventeen-letters",
                b"xml",
                b"XmL-a",
                b"xMLTime",
                b"xmk",
            ];
            return self.rng.pick(&names).unwrap_or(&names[0]).to_vec();
        }
        NAMES[self.rng.below(NAMES.len())].as_bytes().to_vec()
    }

    /// A definition and a place in its model.
    fn place(&mut self, wanted: Wanted) -> (u32, Vec<u32>) {
        let mut places = Vec::new();
        for (owner, definition) in self.store.form.definitions.iter().enumerate() {
            if wanted != Wanted::Gap || definition.kind == Kind::Complex {
                list_places(&definition.model, &[], wanted, &mut |place| {
                    places.push((owner as u32, place))
                });
            }
        }
        let (mut owner, mut place) = match self.rng.pick(&places) {
            Some(found) => found.clone(),
            None => (self.hostile_number(1), vec![self.hostile_number(1)]),
        };
        if self.is_hostile() {
            owner = self.index(self.store.form.definitions.len());
        }
        if self.is_hostile() {
            place.truncate(self.rng.below(6));
            place.push(self.rng.below(5) as u32);
        }
        if self.is_hostile() {
            let length = self.rng.below(8);
            place = (0..length).map(|_| self.hostile_number(1)).collect();
        }
        (owner, place)
    }

    /// The element rows, those that fit if there are any.
    fn element(&mut self, fits: impl Fn(&Element) -> bool) -> u32 {
        let (mut all, mut fitting) = (Vec::new(), Vec::new());
        self.store.for_each_element(&mut |element| {
            all.push(element.serial);
            if fits(element) {
                fitting.push(element.serial);
            }
        });
        if self.is_hostile() {
            let past = self.store.next_serial as usize;
            return match self.rng.below(3) {
                0 => *self.rng.pick(&all).unwrap_or(&0),
                1 => self.rng.below(past) as u32,
                _ => self.hostile_number(past.min(1 << 20)),
            };
        }
        let found = self.rng.pick(&fitting).copied();
        found.or(self.rng.pick(&all).copied()).unwrap_or(1)
    }
}

/// Runs over the places of a list of a model, inner lists too.
fn list_places(
    members: &[Particle],
    path: &[u32],
    wanted: Wanted,
    visit: &mut impl FnMut(Vec<u32>),
) {
    let at = |number: usize| [path, &[number as u32]].concat();
    if wanted == Wanted::Gap {
        visit(at(0));
    }
    for (index, particle) in members.iter().enumerate() {
        let is_group = matches!(particle.term, Term::Group(..));
        let fits = match wanted {
            Wanted::Gap | Wanted::Member => true,
            Wanted::Element => !is_group,
            Wanted::Group => is_group,
        };
        if fits {
            visit(at(index + 1));
        }
        if let Term::Group(_, inner) = &particle.term {
            list_places(inner, &at(index + 1), wanted, visit);
        }
    }
}

/// All places of a model: of gaps, and of members.
pub fn places_of(model: &[Particle]) -> (Vec<Vec<u32>>, Vec<Vec<u32>>) {
    let (mut gaps, mut members) = (Vec::new(), Vec::new());
    list_places(model, &[], Wanted::Gap, &mut |place| gaps.push(place));
    list_places(model, &[], Wanted::Member, &mut |place| members.push(place));
    (gaps, members)
}

/// The form.
impl Drawer<'_> {
    fn create_definition(&mut self) -> Call {
        let kind = *self.rng.pick(&[0, 1, 2, 2]).unwrap_or(&0);
        Call::CreateDefinition {
            name: self.name(),
            kind: if self.is_hostile() {
                self.hostile_number(3)
            } else {
                kind
            },
        }
    }

    fn destroy_definition(&mut self) -> Call {
        let definitions = &self.store.form.definitions;
        let mut used = 0;
        for definition in definitions {
            used |= elements_of(&definition.model);
        }
        for root in &self.store.documents {
            used |= 1 << root.definition;
        }
        let free: Vec<u32> = (0..definitions.len() as u32)
            .filter(|index| used >> index & 1 == 0)
            .collect();
        let definition = match self.rng.pick(&free).copied() {
            Some(index) if !self.is_hostile() => index,
            _ => self.index(definitions.len()),
        };
        Call::DestroyDefinition { definition }
    }

    fn insert_element(&mut self) -> Call {
        let form = &self.store.form;
        let count = form.definitions.len();
        let (owner, place) = self.place(Wanted::Gap);
        let mut definition = self.index(count);
        if (owner as usize) < count && !self.is_hostile() {
            let fitting: Vec<u32> = (0..count as u32)
                .filter(|&index| may_stand_in(form, owner as usize, index as usize))
                .collect();
            definition = self.rng.pick(&fitting).copied().unwrap_or(definition);
        }
        Call::InsertElement {
            owner,
            place,
            definition,
            quantifier: self.index(4),
            text: self.full_text(),
        }
    }

    fn change_model(&mut self, change: usize) -> Call {
        let wanted = match change {
            4 | 5 => Wanted::Element,
            6 => Wanted::Member,
            _ => Wanted::Group,
        };
        let (owner, place) = self.place(wanted);
        let text = self.full_text();
        match change {
            4 => Call::RemoveElement { owner, place },
            5 => Call::ChangeQuantifier {
                owner,
                place,
                quantifier: self.index(4),
                text,
            },
            6 => Call::ConvertToGroup {
                owner,
                place,
                count: self.index(3).wrapping_add(self.index(2)),
                sort: self.index(2).wrapping_add(1),
            },
            7 => Call::FlattenGroup { owner, place },
            _ => Call::ChangeGroupQuantifier {
                owner,
                place,
                quantifier: self.index(4),
                text,
            },
        }
    }

    fn add_attribute(&mut self) -> Call {
        let sort = self.index(3);
        let value = match sort {
            0 if !self.is_hostile() => Vec::new(),
            _ => self.full_text(),
        };
        Call::AddAttribute {
            owner: self.index(self.store.form.definitions.len()),
            name: self.name(),
            sort,
            value,
        }
    }
}

/// The documents.
impl Drawer<'_> {
    fn add_element(&mut self) -> Call {
        let form = &self.store.form;
        let has_members =
            |element: &Element| !form.definitions[element.definition].model.is_empty();
        let parent = self.element(has_members);
        let mut child = self.rng.below(3) as u32;
        let mut definition = self.index(form.definitions.len());
        if let (Some(row), false) = (self.store.element(parent), self.is_hostile()) {
            let fitting = fitting_children(form, row);
            if let Some(found) = self.rng.pick(&fitting) {
                (child, definition) = *found;
            }
        }
        Call::AddElement {
            parent,
            child,
            definition,
            text: self.text(),
        }
    }

    /// Mostly an element without which its parent still conforms.
    fn destroy_element(&mut self) -> Call {
        let judge = Judge::of(&self.store.form);
        let mut spare = Vec::new();
        self.store.for_each_element(&mut |row| {
            let word: Vec<usize> = row.children().map(|child| child.definition).collect();
            for (at, child) in row.children().enumerate() {
                let mut left = word.clone();
                left.remove(at);
                if judge.accepts(row.definition, &left) {
                    spare.push(child.serial);
                }
            }
        });
        let element = match self.rng.pick(&spare).copied() {
            Some(serial) if self.rng.chance(80) => serial,
            _ => self.element(|_| true),
        };
        Call::DestroyElement { element }
    }

    fn has_attributes(form: &Form, element: &Element) -> bool {
        let own = |attribute: &Attribute| attribute.owner == element.definition;
        form.attributes.iter().any(own)
    }

    /// An attribute of the element, if it is one and has one.
    fn attribute_of(&mut self, element: u32) -> u32 {
        let attributes = &self.store.form.attributes;
        let any = self.index(attributes.len());
        let Some(row) = self.store.element(element) else {
            return any;
        };
        let own: Vec<u32> = (0..attributes.len() as u32)
            .filter(|&index| attributes[index as usize].owner == row.definition)
            .collect();
        match self.rng.pick(&own).copied() {
            Some(index) if !self.is_hostile() => index,
            _ => any,
        }
    }

    fn set_attribute(&mut self) -> Call {
        let form = &self.store.form;
        let element = self.element(|element| Self::has_attributes(form, element));
        let attribute = self.attribute_of(element);
        let mut value = self.text();
        if let Some(declared) = form.attributes.get(attribute as usize) {
            if declared.sort == AttributeSort::Fixed && self.rng.chance(70) {
                value = declared.value.clone();
            }
        }
        Call::SetAttribute {
            element,
            attribute,
            value,
        }
    }

    fn destroy_attribute_row(&mut self) -> Call {
        let attributes = &self.store.form.attributes;
        let spare = |row: &AttributeRow| attributes[row.attribute].sort != AttributeSort::Required;
        let element = self.element(|element| element.attributes.iter().any(spare));
        let mut attribute = self.attribute_of(element);
        if let (Some(row), false) = (self.store.element(element), self.is_hostile()) {
            let rows: Vec<&AttributeRow> = row.attributes.iter().filter(|row| spare(row)).collect();
            if let Some(row) = self.rng.pick(&rows) {
                attribute = row.attribute as u32;
            }
        }
        Call::DestroyAttributeRow { element, attribute }
    }

    fn set_text(&mut self) -> Call {
        let form = &self.store.form;
        let is_pcdata =
            |element: &Element| form.definitions[element.definition].kind == Kind::Pcdata;
        Call::SetText {
            element: self.element(is_pcdata),
            text: self.text(),
        }
    }
}

/// The child numbers and definitions that an element takes one more of.
fn fitting_children(form: &Form, element: &Element) -> Vec<(u32, u32)> {
    let judge = Judge::of(form);
    let word: Vec<usize> = element.children().map(|child| child.definition).collect();
    let mut fitting = Vec::new();
    for at in 0..=word.len() {
        for definition in 0..form.definitions.len() {
            let mut longer = word.clone();
            longer.insert(at, definition);
            if judge.accepts(element.definition, &longer) {
                fitting.push((at as u32, definition as u32));
            }
        }
    }
    fitting
}

/// Can change 3 insert the definition into the owner's model?
fn may_stand_in(form: &Form, owner: usize, definition: usize) -> bool {
    let standing = elements_of(&form.definitions[owner].model);
    standing >> definition & 1 == 0
        && owner != definition
        && reached_from(form, definition) >> owner & 1 == 0
}
