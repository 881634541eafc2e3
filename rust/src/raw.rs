//! The exported functions of the library as they answer: a number and a length. All `unsafe` code of the crate stands
//! here; its functions are safe.
#![allow(unsafe_code)]

use crate::Refusal;

/// What a call that writes answers.
#[repr(C)]
#[derive(Clone, Copy, Debug, PartialEq, Eq)]
pub struct Answer {
    /// 0 accepted, else the refusal's number.
    pub number: u32,
    /// Of what was written; 0 on a refusal.
    pub length: usize,
}

/// What `formstore_look_up` answers.
#[repr(C)]
#[derive(Clone, Copy, Debug, PartialEq, Eq)]
pub struct Found {
    /// 0 found, else the refusal's number.
    pub number: u32,
    /// Where the value starts in the store; 0 on a refusal.
    pub start: usize,
    /// Of the value; 0 on a refusal.
    pub length: usize,
}

impl Answer {
    /// The length, or the refusal.
    pub fn result(self) -> Result<usize, Refusal> {
        refusal(self.number).map_or(Ok(self.length), Err)
    }
}

impl Found {
    /// The part of the store in which the value was found, or the refusal.
    pub fn part(self, store: &[u8]) -> Result<&[u8], Refusal> {
        let part = store
            .get(self.start..)
            .and_then(|rest| rest.get(..self.length));
        refusal(self.number).map_or(Ok(part.unwrap_or_default()), Err)
    }
}

/// The refusal with this number; none for 0. The library gives no number past 19, since it answers what the rules say,
/// and those name no other.
pub(crate) fn refusal(number: u32) -> Option<Refusal> {
    match number {
        0 => None,
        _ => Some(Refusal::try_from(number).unwrap_or(Refusal::BadStore)),
    }
}

extern "C" {
    fn formstore_check(store: *const u8, store_length: usize) -> u32;
    fn formstore_look_up(store: *const u8, store_length: usize, serial: u32) -> Found;
    fn formstore_print(
        store: *const u8,
        store_length: usize,
        out: *mut u8,
        out_length: usize,
    ) -> Answer;
    fn formstore_read_text(
        text: *const u8,
        text_length: usize,
        out: *mut u8,
        out_length: usize,
    ) -> Answer;
}

/// 0 if the store passes the check, else 1.
pub fn check(store: &[u8]) -> u32 {
    // SAFETY: a slice's pointer is not null and has as many bytes as its length says, which the call only reads.
    unsafe { formstore_check(store.as_ptr(), store.len()) }
}

/// Where the value of the attribute or text row with this serial stands.
pub fn look_up(store: &[u8], serial: u32) -> Found {
    // SAFETY: as in `check`.
    unsafe { formstore_look_up(store.as_ptr(), store.len(), serial) }
}

/// Prints the store into `out`.
pub fn print(store: &[u8], out: &mut [u8]) -> Answer {
    // SAFETY: as in `check` for both slices, and a `&mut` overlaps nothing.
    unsafe { formstore_print(store.as_ptr(), store.len(), out.as_mut_ptr(), out.len()) }
}

/// Reads a printed text and writes the store of it into `out`.
pub fn read_text(text: &[u8], out: &mut [u8]) -> Answer {
    // SAFETY: as in `print`.
    unsafe { formstore_read_text(text.as_ptr(), text.len(), out.as_mut_ptr(), out.len()) }
}

/// Declares an exported function and calls it. A number passes as it is, bytes and a place as pointer and length.
macro_rules! call {
    ($exported:ident($store:ident, $out:ident) [$($parameter:tt)*] [$($given:tt)*]) => {{
        extern "C" {
            fn $exported(store: *const u8, store_length: usize, $($parameter)* out: *mut u8, out_length: usize) -> Answer;
        }
        // SAFETY: each pointer is a slice's, so it is not null, and stands with its length; the call writes to `out`
        // alone, and a `&mut` overlaps nothing.
        unsafe { $exported($store.as_ptr(), $store.len(), $($given)* $out.as_mut_ptr(), $out.len()) }
    }};
    ($exported:ident $buffers:tt [$($parameter:tt)*] [$($given:tt)*] $argument:ident: bytes, $($rest:tt)*) => {
        call!($exported $buffers
            [$($parameter)* $argument: *const u8, _: usize,]
            [$($given)* $argument.as_ptr(), $argument.len(),]
            $($rest)*)
    };
    ($exported:ident $buffers:tt [$($parameter:tt)*] [$($given:tt)*] $argument:ident: place, $($rest:tt)*) => {
        call!($exported $buffers
            [$($parameter)* $argument: *const u32, _: usize,]
            [$($given)* $argument.as_ptr(), $argument.len(),]
            $($rest)*)
    };
    ($exported:ident $buffers:tt [$($parameter:tt)*] [$($given:tt)*] $argument:ident: $number:ident, $($rest:tt)*) => {
        call!($exported $buffers
            [$($parameter)* $argument: u32,]
            [$($given)* $argument,]
            $($rest)*)
    };
}

macro_rules! export {
    ($($(#[$doc:meta])* $exported:ident $name:ident($($argument:ident: $passed:ident),*);)*) => {
        $(
            $(#[$doc])*
            pub fn $name(store: &[u8], $($argument: thin!($passed),)* out: &mut [u8]) -> Answer {
                call!($exported(store, out) [] [] $($argument: $passed,)*)
            }
        )*
    };
}

for_each_change!(export);
