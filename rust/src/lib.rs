//! The form store of a timing box: one byte string that holds a DTD and the finish lists under it, with a check,
//! sixteen changes, a look-up, printing and reading a printed text back in. This crate calls the proved library, the
//! archive `libformstore.a`, and adds no rule of its own.
//!
//! There are three ways to a call, each over the one before:
//! - [`raw`]: the exported functions, with slices for pointers; they answer a number and a length;
//! - the functions of this crate ([`check`], [`look_up`], [`print()`], [`read_text`] and one for each change), which
//!   answer a [`Result`] with a [`Refusal`];
//! - [`Store`], which owns its bytes and takes kinds, sorts and quantifiers as enums (feature `std`, on by default).
//!
//! [`Reader`] reads what a store holds: definitions with their models and attributes, and the rows of the documents.
//! Without the feature `std` the crate is `no_std` and allocates nothing.
//!
//! # Stack
//! No call needs more than [`STACK`] bytes of stack, as far as the deepest stores that could be made show; give a
//! thread that makes calls as much, and what its own frames need. The archive is for x86-64 (ELF, the System V calls of
//! Linux).
//!
//! No call panics, and none changes a byte of its output buffer when it refuses. A change writes the new store into
//! `out` and answers its length; bytes past it keep their content. Besides the refusals that each names, every one
//! refuses with [`Refusal::BadStore`] and [`Refusal::Buffer`].
//!
//! # Words
//! Definitions and attributes are passed by their index, from 0; elements by their serial; particles by the definition
//! that owns the model and a *place*: one to five numbers of which all but the last pick a group, members counting from
//! 1, and the last picks a member, or where to insert.
//!
//! # Example
//! ```
//! use formstore::{Kind, Quantifier, Refusal, Store};
//!
//! let mut store = Store::fresh();
//! store.create_definition(b"race", Kind::Complex)?;
//! store.create_definition(b"time", Kind::Pcdata)?;
//! store.insert_element(0, &[0], 1, Quantifier::None, b"-")?;
//! store.add_document(0, b"19:04")?;
//! assert_eq!(
//!     String::from_utf8_lossy(&store.print()?),
//!     "<!ELEMENT race (time)>\n<!ELEMENT time (#PCDATA)>\n<race><time>19:04</time></race>\n"
//! );
//!
//! // The time is asked for by the model, so it stays.
//! assert_eq!(store.destroy_element(2), Err(Refusal::NoMatch));
//! # Ok::<(), Refusal>(())
//! ```

#![no_std]
#![deny(unsafe_code, missing_docs)]
#![deny(
    clippy::indexing_slicing,
    clippy::unwrap_used,
    clippy::expect_used,
    clippy::panic,
    clippy::arithmetic_side_effects
)]

#[cfg(feature = "std")]
extern crate std;

#[macro_use]
mod table;
mod codes;
mod fields;
mod model;
mod place;
pub mod raw;
mod reader;
mod refusal;
mod rows;
#[cfg(feature = "std")]
mod store;

pub use codes::{AttributeSort, Code, GroupSort, Kind, Quantifier, UnknownCode};
pub use model::{Members, Model, Particle, Particles, Term};
pub use place::{Place, UnknownPlace};
pub use reader::{Attribute, Definition, Reader};
pub use refusal::{Refusal, UnknownRefusal};
pub use rows::{Content, Element, Elements, Row};
#[cfg(feature = "std")]
pub use store::Store;

/// The most definitions a store has.
pub const MAX_DEFINITIONS: usize = 64;
/// The most particles a store has.
pub const MAX_PARTICLES: usize = 256;
/// The most attributes a store has.
pub const MAX_ATTRIBUTES: usize = 64;
/// The most tree rows a store has.
pub const MAX_ROWS: usize = 4096;
/// The most groups around a particle of a model.
pub const MAX_MODEL_DEPTH: usize = 4;
/// The most numbers of a place.
pub const MAX_PLACE: usize = MAX_MODEL_DEPTH + 1;
/// The most bytes of a name.
pub const MAX_NAME: usize = 16;
/// The most bytes of a value or text.
pub const MAX_VALUE: usize = 32;

/// The stack in bytes that is enough for any call, as measured on stores made to need the most.
pub const STACK: usize = 69_632;

/// A store without definitions and documents: version 1, next serial 1, and four empty bodies that start at 40.
pub const FRESH: [u8; 40] = [
    1, 0, 0, 0, 1, 0, 0, 0, // version and next serial
    40, 0, 0, 0, 0, 0, 0, 0, // definitions
    40, 0, 0, 0, 0, 0, 0, 0, // particles
    40, 0, 0, 0, 0, 0, 0, 0, // attributes
    40, 0, 0, 0, 0, 0, 0, 0, // tree rows
];

/// The length of the longest store.
pub const LONGEST: usize =
    40 + MAX_DEFINITIONS * 20 + MAX_PARTICLES * 4 + MAX_ATTRIBUTES * 52 + MAX_ROWS * 44;

/// No printed text is longer: each record adds at most as much as here. A definition has 38 bytes around its model, or
/// with `(#PCDATA)`; a particle 18, a name with its mark and a comma; an attribute 253, two names and a value of 32
/// bytes that are all written as `&quot;`; of the rows one of an attribute has most, a name, such a value and four
/// more.
pub const LONGEST_TEXT: usize =
    MAX_DEFINITIONS * 38 + MAX_PARTICLES * 18 + MAX_ATTRIBUTES * 253 + MAX_ROWS * 212;

/// Whether the bytes are a store: a well-formed DTD and documents that conform to it.
///
/// ```
/// use formstore::{check, Refusal, Store};
/// assert_eq!(check(Store::fresh().as_bytes()), Ok(()));
/// assert_eq!(check(b"no store"), Err(Refusal::BadStore));
/// ```
pub fn check(store: &[u8]) -> Result<(), Refusal> {
    raw::refusal(raw::check(store)).map_or(Ok(()), Err)
}

/// The part of the store that is the value of the attribute or text row with this serial.
///
/// Refuses with `BadStore`, and with `NoRow` where no attribute or text row has the serial.
pub fn look_up(store: &[u8], serial: u32) -> Result<&[u8], Refusal> {
    raw::look_up(store, serial).part(store)
}

/// Prints the store into `out`: the DTD, then a line for each document; answers the length of the text.
///
/// Refuses with `BadStore` and `Buffer`.
pub fn print(store: &[u8], out: &mut [u8]) -> Result<usize, Refusal> {
    raw::print(store, out).result()
}

/// Reads a text as [`print()`] writes it, to the byte, and writes a store that prints it into `out`; answers the length
/// of the store.
///
/// The store need not be the one that was printed: rows have serials from 1 in document order and the next serial
/// follows them, the fill of REQUIRED attributes is `-`, a definition printed `EMPTY` is EMPTY, and a group of one
/// member is a LIST. The empty text gives a fresh store.
///
/// Refuses with `BadText` where no store that passes the check prints the text, and with `Buffer`.
pub fn read_text(text: &[u8], out: &mut [u8]) -> Result<usize, Refusal> {
    raw::read_text(text, out).result()
}

macro_rules! answer {
    ($($(#[$doc:meta])* $exported:ident $name:ident($($argument:ident: $passed:ident),*);)*) => {
        $(
            $(#[$doc])*
            pub fn $name(store: &[u8], $($argument: thin!($passed),)* out: &mut [u8]) -> Result<usize, Refusal> {
                raw::$name(store, $($argument,)* out).result()
            }
        )*
    };
}

for_each_change!(answer);
