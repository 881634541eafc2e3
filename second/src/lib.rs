//! The form store of paper 01, with the requests of paper 02 that are done, a
//! second time: plain trees and plain loops, written from the papers alone. It
//! is the judge of the proved library's bytes, so it shares nothing with it.
//!
//! The names and the order of arguments are those of INTERFACE.md.
//!
//! [`testing`] is what tests share and no part of the implementation.

pub mod book;
mod book_start;
pub mod call;
pub mod changes;
pub mod check;
pub mod edit;
pub mod filling;
pub mod layout;
pub mod model;
pub mod outcome;
pub mod print;
pub mod reading;
pub mod rows;
pub mod store;
pub mod testing;

pub use book::{Book, Line};
pub use call::{apply, Call};
pub use changes::documents::{
    add_document, add_element, destroy_attribute_row, destroy_element, set_attribute, set_text,
};
pub use changes::form::{add_attribute, create_definition, destroy_attribute, destroy_definition};
pub use changes::models::{
    change_group_quantifier, change_quantifier, convert_to_group, flatten_group, insert_element,
    remove_element,
};
pub use check::{check, read};
pub use outcome::{Answer, Refusal};
pub use print::{look_up, print};
pub use reading::read_text;
pub use rows::{rows, Row, RowSort};
pub use testing::{random, rng};

/// The fresh store: 40 bytes, next serial 1, counts 0.
pub fn fresh() -> Vec<u8> {
    layout::encode(&store::Store::fresh())
}
