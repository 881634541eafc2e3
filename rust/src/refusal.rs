//! The refusals, by their words and numbers.

use core::fmt;

macro_rules! refusals {
    ($($case:ident $number:literal $word:literal $reason:literal)*) => {
        /// Why a call refused. Of the refusals that apply it is the one with the lowest number; `BadText` stands before
        /// `Buffer`.
        #[derive(Clone, Copy, Debug, PartialEq, Eq, PartialOrd, Ord, Hash)]
        #[repr(u32)]
        pub enum Refusal {
            $(#[doc = concat!(stringify!($number), ": ", $reason, ".")] $case = $number,)*
        }

        impl Refusal {
            /// All refusals, by their numbers.
            pub const ALL: [Refusal; 19] = [$(Refusal::$case),*];

            /// The number in the table, 1 to 19.
            pub fn number(self) -> u32 {
                self as u32
            }

            /// The word in the table, as `off spine`.
            pub fn word(self) -> &'static str {
                match self {
                    $(Refusal::$case => $word,)*
                }
            }

            /// When it is given, for all calls that give it.
            pub fn reason(self) -> &'static str {
                match self {
                    $(Refusal::$case => $reason,)*
                }
            }
        }
    };
}

refusals! {
    BadStore 1 "bad store" "the store does not pass the check"
    BadName 2 "bad name" "a name has 1 to 16 bytes, first a letter or _, then also digits, - and ., and does not begin with xml in either case"
    BadValue 3 "bad value" "a value or text has at most 32 bytes, each from blank to ~"
    BadCode 4 "bad code" "a kind, sort or quantifier is not among its numbers"
    Taken 5 "taken" "the name exists"
    Unknown 6 "unknown" "there is no definition or attribute with this number, or the attribute is not one of this element's"
    NoRow 7 "no row" "there is no element with this serial, or it has no such attribute"
    NoPlace 8 "no place" "there is no such place, or what stands there is of the wrong sort; or the child or the count is past the list"
    WrongKind 9 "wrong kind" "the owner of a model must be COMPLEX, an element with a text PCDATA"
    InUse 10 "in use" "the definition stands in a model or at the root of a document, or already in this model"
    Round 11 "round" "the element is the owner, or the owner can stand below it"
    Default 12 "default" "a default is missing, or is given with an IMPLIED attribute"
    OffSpine 13 "off spine" "an instance exists and the list is off the spine, or a group would be cut"
    Grouping 14 "grouping" "the last member of an inner group stays; a group and its list must be of one sort; a flattened group has no quantifier"
    NoMatch 15 "no match" "an element would no longer match its definition"
    Ceiling 16 "ceiling" "the store would pass a ceiling: 64 definitions, 256 particles, 64 attributes, 4,096 rows, groups 4 deep"
    Serials 17 "serials" "the serials would run out"
    Buffer 18 "buffer" "the output is longer than its buffer"
    BadText 19 "bad text" "no store prints this text"
}

impl fmt::Display for Refusal {
    fn fmt(&self, out: &mut fmt::Formatter<'_>) -> fmt::Result {
        let (number, word, reason) = (self.number(), self.word(), self.reason());
        write!(out, "refused ({number}, {word}): {reason}")
    }
}

impl core::error::Error for Refusal {}

/// The error for a number that is no refusal's.
#[derive(Clone, Copy, Debug, PartialEq, Eq)]
pub struct UnknownRefusal;

impl fmt::Display for UnknownRefusal {
    fn fmt(&self, out: &mut fmt::Formatter<'_>) -> fmt::Result {
        write!(
            out,
            "refusals have numbers from 1 to {}",
            Refusal::ALL.len()
        )
    }
}

impl core::error::Error for UnknownRefusal {}

/// By the number.
impl TryFrom<u32> for Refusal {
    type Error = UnknownRefusal;

    fn try_from(number: u32) -> Result<Refusal, UnknownRefusal> {
        let mut all = Refusal::ALL.into_iter();
        all.find(|refusal| refusal.number() == number)
            .ok_or(UnknownRefusal)
    }
}
