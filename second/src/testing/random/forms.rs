//! Random well-formed forms.

use crate::check::within_ceilings;
use crate::rng::Rng;
use crate::store::*;

/// Names of all lengths from 1 to 16, with every sort of byte in them.
pub const NAMES: [&str; 20] = [
    "a",
    "b",
    "c",
    "x",
    "_",
    "race",
    "finisher",
    "bib",
    "time",
    "club",
    "split",
    "Lap-2",
    "team.no",
    "_u",
    "z9",
    "start-list",
    "A",
    "category",
    "Q_______________",
    "distance.in-km_2",
];

/// A form of up to so many definitions and attributes.
pub fn form(rng: &mut Rng, definitions: usize, attributes: usize) -> Form {
    loop {
        let form = any_form(rng, definitions, attributes);
        let store = Store {
            form,
            ..Store::fresh()
        };
        if within_ceilings(&store) {
            return store.form;
        }
    }
}

fn any_form(rng: &mut Rng, definitions: usize, attributes: usize) -> Form {
    let count = 1 + rng.below(definitions);
    // A definition's model has only definitions of higher rank.
    let mut ranks: Vec<usize> = (0..count).collect();
    rng.shuffle(&mut ranks);
    let mut form = Form::default();
    for (index, name) in names(rng, count).into_iter().enumerate() {
        let kind = *rng
            .pick(&[Kind::Empty, Kind::Pcdata, Kind::Complex, Kind::Complex])
            .unwrap_or(&Kind::Empty);
        let mut higher: Vec<usize> = (0..count)
            .filter(|&other| ranks[other] > ranks[index])
            .collect();
        rng.shuffle(&mut higher);
        higher.truncate(rng.below(7));
        let model = match kind {
            Kind::Complex => members(rng, &higher, 0),
            _ => Vec::new(),
        };
        form.definitions.push(Definition { name, kind, model });
    }
    add_attributes(rng, &mut form, attributes);
    form
}

/// So many different names.
fn names(rng: &mut Rng, count: usize) -> Vec<Vec<u8>> {
    let mut names: Vec<Vec<u8>> = NAMES.iter().map(|name| name.as_bytes().to_vec()).collect();
    for number in names.len()..count {
        names.push(format!("n{number}").into_bytes());
    }
    // One that the check takes, and changes 1 and 9 do not.
    if rng.chance(10) {
        names.push(b"xMlTime".to_vec());
    }
    rng.shuffle(&mut names);
    names.truncate(count);
    names
}

/// A list with each of the elements once, in groups at random.
pub fn members(rng: &mut Rng, elements: &[usize], depth: usize) -> Vec<Particle> {
    let mut members = Vec::new();
    let mut at = 0;
    while at < elements.len() {
        let quantifier = quantifier(rng);
        if depth < MAX_MODEL_DEPTH && rng.chance(30) {
            let count = 1 + rng.below(elements.len() - at);
            let kind = match rng.below(2) {
                0 => GroupKind::List,
                _ => GroupKind::Choice,
            };
            let inner = self::members(rng, &elements[at..at + count], depth + 1);
            let term = Term::Group(kind, inner);
            members.push(Particle { quantifier, term });
            at += count;
        } else {
            let term = Term::Element(elements[at]);
            members.push(Particle { quantifier, term });
            at += 1;
        }
    }
    members
}

fn quantifier(rng: &mut Rng) -> Quantifier {
    match rng.below(5) {
        0 | 1 => Quantifier::None,
        2 => Quantifier::Qmark,
        3 => Quantifier::Star,
        _ => Quantifier::Plus,
    }
}

fn add_attributes(rng: &mut Rng, form: &mut Form, most: usize) {
    for _ in 0..rng.below(most + 1) {
        let owner = rng.below(form.definitions.len());
        let name = NAMES[rng.below(NAMES.len())].as_bytes().to_vec();
        let same = |other: &Attribute| other.owner == owner && other.name == name;
        if form.attributes.iter().any(same) {
            continue;
        }
        let (sort, value) = match rng.below(3) {
            0 => (AttributeSort::Implied, Vec::new()),
            1 => (AttributeSort::Required, full_value(rng)),
            _ => (AttributeSort::Fixed, value(rng)),
        };
        let attribute = Attribute {
            owner,
            name,
            sort,
            value,
        };
        crate::edit::add_attribute(form, attribute);
    }
}

/// A good value, also an empty one or one of full length.
pub fn value(rng: &mut Rng) -> Vec<u8> {
    let length = match rng.below(8) {
        0 => 0,
        1 => MAX_VALUE,
        _ => 1 + rng.below(6),
    };
    (0..length).map(|_| byte(rng)).collect()
}

/// A good value that is not empty.
pub fn full_value(rng: &mut Rng) -> Vec<u8> {
    let mut value = value(rng);
    if value.is_empty() {
        value.push(byte(rng));
    }
    value
}

fn byte(rng: &mut Rng) -> u8 {
    match rng.below(4) {
        0 => *rng.pick(b"&<>\"' ~;").unwrap_or(&b' '),
        1 => 0x20 + rng.below(0x5f) as u8,
        _ => b'0' + rng.below(10) as u8,
    }
}
