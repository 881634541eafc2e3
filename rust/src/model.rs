//! The model of a definition, read from a store.

use crate::fields::{number, split_first_tree};
use crate::{Code, GroupSort, Kind, Place, Quantifier, Reader};
use core::fmt;

pub(crate) const PARTICLE: usize = 4;
const DEPTH: usize = 3;

/// What the elements of a definition hold. It shows itself as the DTD has it: `(bib,club,time?)`, `(#PCDATA)` or
/// `EMPTY`.
///
/// ```
/// use formstore::{Kind, Quantifier, Refusal, Store, Term};
///
/// let mut store = Store::fresh();
/// store.create_definition(b"race", Kind::Complex)?;
/// store.create_definition(b"time", Kind::Pcdata)?;
/// store.insert_element(0, &[0], 1, Quantifier::Qmark, b"")?;
/// let model = store.reader().model(0).expect("definition 0");
/// assert_eq!(model.to_string(), "(time?)");
/// assert!(model.members().all(|member| matches!(member.term, Term::Element { definition: 1 })));
/// let places: Vec<_> = model.particles().map(|(place, _)| place.to_string()).collect();
/// assert_eq!(places, ["1"]);
/// # Ok::<(), Refusal>(())
/// ```
#[derive(Clone, Copy, Debug)]
pub struct Model<'a> {
    pub(crate) reader: Reader<'a>,
    pub(crate) kind: Kind,
    pub(crate) particles: &'a [u8],
}

/// A particle of a model: an element or a group, with its quantifier.
#[derive(Clone, Debug)]
pub struct Particle<'a> {
    /// How often it stands.
    pub quantifier: Quantifier,
    /// What it is.
    pub term: Term<'a>,
}

/// What a particle is.
#[derive(Clone, Debug)]
pub enum Term<'a> {
    /// An element of the definition with this index.
    Element {
        /// The index of its definition.
        definition: u32,
    },
    /// A group.
    Group {
        /// All members in order, or one of them.
        sort: GroupSort,
        /// Its members.
        members: Members<'a>,
    },
}

/// The members of a list or group, in order, without what stands in inner groups.
#[derive(Clone, Debug)]
pub struct Members<'a> {
    particles: &'a [u8],
}

/// All particles of a model in preorder, each with its place.
#[derive(Clone, Debug)]
pub struct Particles<'a> {
    particles: &'a [u8],
    last: Place,
}

impl<'a> Model<'a> {
    /// The members of the top list.
    pub fn members(&self) -> Members<'a> {
        let particles = self.particles;
        Members { particles }
    }

    /// All particles, each with its place; a group comes right before its members.
    pub fn particles(&self) -> Particles<'a> {
        Particles {
            particles: self.particles,
            last: Place::START,
        }
    }

    /// The place of the element of this definition, if the model has one.
    pub fn place_of(&self, definition: u32) -> Option<Place> {
        let element = |term: &Term| matches!(term, Term::Element { definition: found } if *found == definition);
        let mut particles = self.particles();
        let found = particles.find(|(_, particle)| element(&particle.term));
        found.map(|(place, _)| place)
    }
}

/// The particle of a record, with the records of those inside it.
fn particle<'a>(record: &[u8], inside: &'a [u8]) -> Particle<'a> {
    let term = match GroupSort::from_code(number(record, 0, 1)) {
        Some(sort) => Term::Group {
            sort,
            members: Members { particles: inside },
        },
        None => Term::Element {
            definition: number(record, 2, 1),
        },
    };
    let quantifier = Quantifier::from_code(number(record, 1, 1)).unwrap_or(Quantifier::None);
    Particle { quantifier, term }
}

impl<'a> Iterator for Members<'a> {
    type Item = Particle<'a>;

    fn next(&mut self) -> Option<Particle<'a>> {
        let (record, inside, rest) = split_first_tree(self.particles, PARTICLE, DEPTH)?;
        self.particles = rest;
        Some(particle(record, inside))
    }
}

impl<'a> Iterator for Particles<'a> {
    type Item = (Place, Particle<'a>);

    fn next(&mut self) -> Option<(Place, Particle<'a>)> {
        let (record, inside, _) = split_first_tree(self.particles, PARTICLE, DEPTH)?;
        self.particles = self.particles.get(PARTICLE..)?;
        self.last = self.last.following(number(record, DEPTH, 1) as usize);
        Some((self.last, particle(record, inside)))
    }
}

impl fmt::Display for Model<'_> {
    fn fmt(&self, out: &mut fmt::Formatter<'_>) -> fmt::Result {
        match self.kind {
            Kind::Pcdata => out.write_str("(#PCDATA)"),
            _ if self.particles.is_empty() => out.write_str("EMPTY"),
            _ => put_group(out, &self.reader, GroupSort::List, self.members()),
        }
    }
}

fn put_group(
    out: &mut fmt::Formatter<'_>,
    reader: &Reader<'_>,
    sort: GroupSort,
    members: Members<'_>,
) -> fmt::Result {
    let separator = match sort {
        GroupSort::List => ",",
        GroupSort::Choice => "|",
    };
    let mut before = "(";
    for Particle { quantifier, term } in members {
        out.write_str(before)?;
        match term {
            Term::Element { definition } => out.write_str(reader.name(definition))?,
            Term::Group { sort, members } => put_group(out, reader, sort, members)?,
        }
        out.write_str(quantifier.mark())?;
        before = separator;
    }
    out.write_str(")")
}
