//! A store that owns its bytes.

use crate::{AttributeSort, GroupSort, Kind, Quantifier, Reader, Refusal};
use crate::{FRESH, LONGEST, LONGEST_TEXT};
use std::vec;
use std::vec::Vec;

/// Enough room for what most changes add.
const ROOM: usize = 2048;

/// A store that passes the check. A change replaces its bytes when it is accepted; a refused one leaves them as they
/// are.
///
/// ```
/// use formstore::{Kind, Refusal, Store};
///
/// let mut store = Store::fresh();
/// store.create_definition(b"bib", Kind::Pcdata)?;
/// let before = store.clone();
/// assert_eq!(store.create_definition(b"bib", Kind::Empty), Err(Refusal::Taken));
/// assert_eq!(store, before);
/// # Ok::<(), Refusal>(())
/// ```
#[derive(Clone, Debug, PartialEq, Eq)]
pub struct Store {
    bytes: Vec<u8>,
}

impl Default for Store {
    fn default() -> Store {
        Store::fresh()
    }
}

/// Refuses with `BadStore` where the bytes do not pass the check.
impl TryFrom<Vec<u8>> for Store {
    type Error = Refusal;

    fn try_from(bytes: Vec<u8>) -> Result<Store, Refusal> {
        Store::from_bytes(bytes)
    }
}

/// Refuses with `BadStore` where the bytes do not pass the check.
impl TryFrom<&[u8]> for Store {
    type Error = Refusal;

    fn try_from(bytes: &[u8]) -> Result<Store, Refusal> {
        Store::from_bytes(bytes.to_vec())
    }
}

impl AsRef<[u8]> for Store {
    fn as_ref(&self) -> &[u8] {
        self.as_bytes()
    }
}

impl From<Store> for Vec<u8> {
    fn from(store: Store) -> Vec<u8> {
        store.into_bytes()
    }
}

impl Store {
    /// A store without definitions and documents.
    pub fn fresh() -> Store {
        Store {
            bytes: FRESH.to_vec(),
        }
    }

    /// The store of these bytes. Refuses with `BadStore` where they do not pass the check.
    pub fn from_bytes(bytes: Vec<u8>) -> Result<Store, Refusal> {
        crate::check(&bytes)?;
        Ok(Store { bytes })
    }

    /// The store of a printed text; it prints the text again. What may be otherwise than in the store that was printed,
    /// [`crate::read_text`] says.
    ///
    /// ```
    /// use formstore::{Refusal, Store};
    ///
    /// let text = b"<!ELEMENT time (#PCDATA)>\n<time>19:04</time>\n";
    /// assert_eq!(Store::read_text(text)?.print()?, text);
    /// assert_eq!(Store::read_text(b"<!ELEMENT time ANY>\n"), Err(Refusal::BadText));
    /// # Ok::<(), Refusal>(())
    /// ```
    ///
    /// Refuses with `BadText`.
    pub fn read_text(text: &[u8]) -> Result<Store, Refusal> {
        let mut bytes = vec![0; LONGEST];
        let length = crate::read_text(text, &mut bytes)?;
        bytes.truncate(length);
        bytes.shrink_to_fit();
        Ok(Store { bytes })
    }

    /// The bytes, as a box keeps them.
    pub fn as_bytes(&self) -> &[u8] {
        &self.bytes
    }

    /// The bytes, as a box keeps them.
    pub fn into_bytes(self) -> Vec<u8> {
        self.bytes
    }

    /// What the store holds.
    pub fn reader(&self) -> Reader<'_> {
        Reader::of_checked(&self.bytes)
    }

    /// The value of the attribute or text row with this serial. Refuses with `NoRow`.
    pub fn look_up(&self, serial: u32) -> Result<&[u8], Refusal> {
        crate::look_up(&self.bytes, serial)
    }

    /// The DTD, then a line for each document.
    pub fn print(&self) -> Result<Vec<u8>, Refusal> {
        self.written(ROOM, LONGEST_TEXT, crate::print)
    }

    /// What a call writes, at first into a buffer with this much more room than the store has, then into one of the
    /// greatest length.
    fn written(
        &self,
        room: usize,
        greatest: usize,
        call: impl Fn(&[u8], &mut [u8]) -> Result<usize, Refusal>,
    ) -> Result<Vec<u8>, Refusal> {
        let mut out = vec![0; self.bytes.len().saturating_add(room)];
        let mut answer = call(&self.bytes, &mut out);
        if answer == Err(Refusal::Buffer) {
            out.resize(greatest, 0);
            answer = call(&self.bytes, &mut out);
        }
        out.truncate(answer?);
        Ok(out)
    }
}

/// The type of an argument of a method.
macro_rules! typed {
    (bytes) => {
        &[u8]
    };
    (place) => {
        &[u32]
    };
    (number) => {
        u32
    };
    ($code:ident) => {
        $code
    };
}

/// The argument as the call takes it.
macro_rules! passed {
    (bytes $argument:ident) => {
        $argument
    };
    (place $argument:ident) => {
        $argument
    };
    ($number:ident $argument:ident) => {
        u32::from($argument)
    };
}

macro_rules! change {
    ($($(#[$doc:meta])* $exported:ident $name:ident($($argument:ident: $passed:ident),*);)*) => {
        /// The sixteen changes.
        impl Store {
            $(
                $(#[$doc])*
                pub fn $name(&mut self, $($argument: typed!($passed)),*) -> Result<(), Refusal> {
                    self.bytes = self.written(ROOM, LONGEST, |store, out| {
                        crate::$name(store, $(passed!($passed $argument),)* out)
                    })?;
                    Ok(())
                }
            )*
        }
    };
}

for_each_change!(change);
