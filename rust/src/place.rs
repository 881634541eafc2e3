//! Places in a model.

use crate::MAX_PLACE;
use core::fmt;
use core::ops::Deref;
use core::str::FromStr;

/// Where a particle of a model stands: one to five numbers, of which all but the last pick a group, members counting
/// from 1, and the last picks a member. It is written with `-` between the numbers, and goes where a call wants a
/// `&[u32]`.
///
/// ```
/// use formstore::{Place, UnknownPlace};
///
/// let place: Place = "2-3".parse()?;
/// assert_eq!(*place, [2, 3]);
/// assert_eq!(place.to_string(), "2-3");
/// assert!("2-x".parse::<Place>().is_err());
/// # Ok::<(), UnknownPlace>(())
/// ```
#[derive(Clone, Copy, Debug, PartialEq, Eq, Hash)]
pub struct Place {
    /// Zeros behind the length, so that equal places are equal here.
    numbers: [u32; MAX_PLACE],
    length: usize,
}

/// The error for a text or for numbers that are no place.
#[derive(Clone, Copy, Debug, PartialEq, Eq)]
pub struct UnknownPlace;

impl fmt::Display for UnknownPlace {
    fn fmt(&self, out: &mut fmt::Formatter<'_>) -> fmt::Result {
        out.write_str("a place has one to five numbers with - between them, as 2-1")
    }
}

impl core::error::Error for UnknownPlace {}

impl Place {
    /// Of which the last number is still to come.
    pub(crate) const START: Place = Place {
        numbers: [0; MAX_PLACE],
        length: 0,
    };

    /// The next particle of a model in preorder, which stands in so many groups.
    pub(crate) fn following(mut self, depth: usize) -> Place {
        for (at, number) in self.numbers.iter_mut().enumerate().skip(depth) {
            *number = if at == depth {
                number.saturating_add(1)
            } else {
                0
            };
        }
        self.length = depth.saturating_add(1).min(MAX_PLACE);
        self
    }
}

impl Deref for Place {
    type Target = [u32];

    fn deref(&self) -> &[u32] {
        self.numbers.get(..self.length).unwrap_or_default()
    }
}

impl TryFrom<&[u32]> for Place {
    type Error = UnknownPlace;

    fn try_from(numbers: &[u32]) -> Result<Place, UnknownPlace> {
        let mut place = Place::START;
        let room = place.numbers.get_mut(..numbers.len());
        room.filter(|room| !room.is_empty())
            .ok_or(UnknownPlace)?
            .copy_from_slice(numbers);
        place.length = numbers.len();
        Ok(place)
    }
}

impl FromStr for Place {
    type Err = UnknownPlace;

    fn from_str(text: &str) -> Result<Place, UnknownPlace> {
        let mut place = Place::START;
        for word in text.split('-') {
            let room = place.numbers.get_mut(place.length).ok_or(UnknownPlace)?;
            let digits = word.bytes().all(|byte| byte.is_ascii_digit());
            let number = word.parse().ok().filter(|_| digits);
            *room = number.ok_or(UnknownPlace)?;
            place.length = place.length.saturating_add(1);
        }
        Ok(place)
    }
}

impl fmt::Display for Place {
    fn fmt(&self, out: &mut fmt::Formatter<'_>) -> fmt::Result {
        let mut before = "";
        for number in self.iter() {
            write!(out, "{before}{number}")?;
            before = "-";
        }
        Ok(())
    }
}
