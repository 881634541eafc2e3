//! Any public call with its arguments, on the library and on the second implementation.

use crate::changes;
use formstore::raw;
use second::store::{Node, Store};
use second::Call;

/// A public call with its arguments besides what it reads and where it writes.
pub enum Asked {
    Check,
    LookUp(u32),
    Print,
    /// It reads a text and no store.
    ReadText,
    Change(Call),
}

impl Asked {
    pub fn name(&self) -> &'static str {
        match self {
            Asked::Check => "check",
            Asked::LookUp(_) => "look_up",
            Asked::Print => "print",
            Asked::ReadText => "read_text",
            Asked::Change(call) => changes::name(call),
        }
    }

    /// The number that the library answers.
    pub fn run(&self, input: &[u8], out: &mut [u8]) -> u32 {
        match self {
            Asked::Check => raw::check(input),
            Asked::LookUp(serial) => raw::look_up(input, *serial).number,
            Asked::Print => raw::print(input, out).number,
            Asked::ReadText => raw::read_text(input, out).number,
            Asked::Change(call) => changes::apply(call, input, out).number,
        }
    }

    /// The number that the second implementation answers.
    pub fn run_second(&self, input: &[u8], out: &mut [u8]) -> u32 {
        match self {
            Asked::Check => second::check(input),
            Asked::LookUp(serial) => {
                let mut number = 0;
                second::look_up(input, *serial, &mut number);
                number
            }
            Asked::Print => second::print(input, out).number,
            Asked::ReadText => second::read_text(input, out).number,
            Asked::Change(call) => second::apply(call, input, out).number,
        }
    }
}

/// The serial of the last attribute or text, or the next one where there is none.
pub fn value_serial(store: &Store) -> u32 {
    let mut serial = store.next_serial;
    store.for_each_element(&mut |element| {
        let attributes = element.attributes.iter().map(|row| row.serial);
        let texts = element.content.iter().filter_map(|node| match node {
            Node::Text(text) => Some(text.serial),
            Node::Element(_) => None,
        });
        serial = attributes.chain(texts).last().unwrap_or(serial);
    });
    serial
}
