//! The kinds, sorts and quantifiers, by their words and codes.

use core::fmt;
use core::str::FromStr;

/// An enum whose cases the store and the calls name by numbers.
pub trait Code:
    Copy
    + Into<u32>
    + TryFrom<u32, Error = UnknownCode>
    + FromStr<Err = UnknownCode>
    + fmt::Display
    + 'static
{
    /// All cases, by their codes.
    const ALL: &'static [Self];

    /// The word for it, in small letters.
    fn word(self) -> &'static str;

    /// The case with this code.
    fn from_code(code: u32) -> Option<Self> {
        let mut cases = Self::ALL.iter().copied();
        cases.find(|case| (*case).into() == code)
    }
}

/// The error for a word or a number that is no case of an enum.
#[derive(Clone, Copy, Debug, PartialEq, Eq)]
pub struct UnknownCode {
    /// The words that there are.
    pub words: &'static [&'static str],
}

impl fmt::Display for UnknownCode {
    fn fmt(&self, out: &mut fmt::Formatter<'_>) -> fmt::Result {
        out.write_str("unknown; there are:")?;
        let mut before = " ";
        for word in self.words {
            write!(out, "{before}{word}")?;
            before = ", ";
        }
        Ok(())
    }
}

impl core::error::Error for UnknownCode {}

macro_rules! codes {
    ($($(#[$doc:meta])* $name:ident { $($case:ident $code:literal $word:literal)* })*) => {
        $(
            $(#[$doc])*
            #[derive(Clone, Copy, Debug, PartialEq, Eq, Hash)]
            #[repr(u32)]
            pub enum $name {
                $(#[doc = concat!("`", $word, "`, code ", stringify!($code), ".")] $case = $code,)*
            }

            impl $name {
                const UNKNOWN: UnknownCode = UnknownCode { words: &[$($word),*] };
            }

            impl Code for $name {
                const ALL: &'static [$name] = &[$($name::$case),*];

                fn word(self) -> &'static str {
                    match self {
                        $($name::$case => $word,)*
                    }
                }
            }

            impl From<$name> for u32 {
                fn from(case: $name) -> u32 {
                    case as u32
                }
            }

            /// By the code.
            impl TryFrom<u32> for $name {
                type Error = UnknownCode;

                fn try_from(code: u32) -> Result<$name, UnknownCode> {
                    $name::from_code(code).ok_or($name::UNKNOWN)
                }
            }

            /// By the word.
            impl FromStr for $name {
                type Err = UnknownCode;

                fn from_str(word: &str) -> Result<$name, UnknownCode> {
                    match word {
                        $($word => Ok($name::$case),)*
                        _ => Err($name::UNKNOWN),
                    }
                }
            }

            /// The word.
            impl fmt::Display for $name {
                fn fmt(&self, out: &mut fmt::Formatter<'_>) -> fmt::Result {
                    out.pad(self.word())
                }
            }
        )*
    };
}

codes! {
    /// What the elements of a definition hold: nothing, one text, or elements after a model.
    Kind { Empty 0 "empty" Pcdata 1 "pcdata" Complex 2 "complex" }

    /// How often a particle of a model stands: once, at most once, any number of times, at least once.
    Quantifier { None 0 "none" Qmark 1 "qmark" Star 2 "star" Plus 3 "plus" }

    /// What a group of a model is: all members in order, or one of them.
    GroupSort { List 1 "list" Choice 2 "choice" }

    /// Whether an attribute may be absent, must be there, or has always the same value.
    AttributeSort { Implied 0 "implied" Required 1 "required" Fixed 2 "fixed" }
}

impl Quantifier {
    /// The mark behind a particle in a printed model: none, `?`, `*` or `+`.
    pub fn mark(self) -> &'static str {
        match self {
            Quantifier::None => "",
            Quantifier::Qmark => "?",
            Quantifier::Star => "*",
            Quantifier::Plus => "+",
        }
    }
}
