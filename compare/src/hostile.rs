//! Hostile arguments: at and past every limit, and what a number becomes that is cut to a byte or two.

use crate::changes::arguments;
use second::rng::Rng;
use second::store::{Node, Store};
use second::Call;

/// What an argument of a call is.
pub enum Argument<'a> {
    Name(&'a mut Vec<u8>),
    /// Of an attribute, or a text.
    Value(&'a mut Vec<u8>),
    Place(&'a mut Vec<u32>),
    /// A kind, a sort or a quantifier.
    Code(&'a mut u32),
    Definition(&'a mut u32),
    Attribute(&'a mut u32),
    /// By its serial.
    Element(&'a mut u32),
    /// The number of a child, or how many members.
    Count(&'a mut u32),
}

/// Makes one argument of the call hostile, or a few.
pub fn spoil(rng: &mut Rng, store: &Store, call: &mut Call) {
    let children = match call {
        Call::AddElement { parent, .. } => store.element(*parent).map_or(0, |e| e.content.len()),
        _ => 3,
    };
    let mut lent = arguments(call);
    for _ in 0..1 + rng.below(4) / 3 {
        let at = rng.below(lent.len());
        match &mut lent[at] {
            Argument::Name(name) => **name = bad_name(rng, store),
            Argument::Value(value) => **value = bad_value(rng),
            Argument::Place(place) => spoil_place(rng, place),
            Argument::Code(code) => **code = past(rng, 3),
            Argument::Definition(index) => **index = past(rng, store.form.definitions.len()),
            Argument::Attribute(index) => **index = past(rng, store.form.attributes.len()),
            Argument::Element(serial) => **serial = bad_serial(rng, store),
            Argument::Count(number) => **number = past(rng, children),
        }
    }
}

/// A number near `count` or far past it, also one whose lowest bytes are below `count`.
fn past(rng: &mut Rng, count: usize) -> u32 {
    let count = count as u32;
    let below = rng.below(count as usize + 1) as u32;
    let numbers = [
        below,
        count.saturating_sub(1),
        count,
        count + 1,
        256 + below,
        65_536 + below,
        (1 << 31) + below,
        u32::MAX - below,
        u32::MAX,
    ];
    numbers[rng.below(numbers.len())]
}

/// 0, one of an attribute or a text, one that is absent, or a huge one.
fn bad_serial(rng: &mut Rng, store: &Store) -> u32 {
    let mut others = Vec::new();
    store.for_each_element(&mut |element| {
        others.extend(element.attributes.iter().map(|row| row.serial));
        others.extend(element.content.iter().filter_map(|node| match node {
            Node::Text(text) => Some(text.serial),
            Node::Element(_) => None,
        }));
    });
    match rng.below(5) {
        0 => 0,
        1 => rng.draw() as u32,
        2 => past(rng, store.next_serial.min(1 << 30) as usize),
        3 => store
            .next_serial
            .wrapping_add(rng.below(3) as u32)
            .wrapping_sub(1),
        _ => rng.pick(&others).copied().unwrap_or(store.next_serial),
    }
}

/// Of a length at a limit or one that a byte cuts to a good one, with a byte that may be bad, or close to a name that
/// is taken.
fn bad_name(rng: &mut Rng, store: &Store) -> Vec<u8> {
    let length = [0, 1, 2, 15, 16, 17, 256, 260, 272][rng.below(9)];
    let letters = b"Letters-of_a.name".iter().copied().cycle();
    let mut name: Vec<u8> = letters.take(length).collect();
    match (rng.below(3), rng.pick(&store.form.definitions)) {
        (0, Some(taken)) => {
            name = taken.name.clone();
            match rng.below(4) {
                0 => name.push(b'0'),
                1 => name.truncate(name.len() - 1),
                2 => name[0] ^= 0x20,
                _ => {}
            }
        }
        (1, _) if !name.is_empty() => {
            let at = rng.below(name.len());
            let bytes = b"\0 9-./:@AZ[^_`az{\x7f\x80\xff";
            name[at] = bytes[rng.below(bytes.len())];
        }
        _ => {}
    }
    name
}

/// Of a length at a limit, most times with a byte at a limit.
fn bad_value(rng: &mut Rng) -> Vec<u8> {
    let mut value = vec![b'v'; [0, 1, 31, 32, 33, 256, 288][rng.below(7)]];
    if !value.is_empty() && rng.chance(60) {
        let at = rng.below(value.len());
        value[at] = [0, 0x1f, 0x20, 0x7e, 0x7f, 0x80, 0xff][rng.below(7)];
    }
    value
}

/// One number of it past its list or one that is cut to the same, more or fewer numbers than it has, or all of them
/// any.
fn spoil_place(rng: &mut Rng, place: &mut Vec<u32>) {
    match (rng.below(5), place.len()) {
        (0 | 1, length) if length > 0 => {
            let number = &mut place[rng.below(length)];
            let high = [1, 256, 65_536, 1 << 31, u32::MAX][rng.below(5)];
            *number = number.wrapping_add(high);
        }
        (2, length) => place.resize(length + 1 + rng.below(6), 1),
        (3, length) => place.resize([length.saturating_sub(1), length + 256][rng.below(2)], 0),
        _ => *place = (0..rng.below(7)).map(|_| past(rng, 2)).collect(),
    }
}
