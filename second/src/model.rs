//! Content models: quantifiers, accepting nothing, the language, places and
//! the spine.

use crate::store::*;

/// A set of definition indices; there are at most 64 definitions.
pub type Set = u64;

/// *Relaxing*: every number of children allowed by the old quantifier (row) is
/// allowed by the new one (column), in the order NONE, QMARK, STAR, PLUS.
const RELAXING: [[bool; 4]; 4] = [
    [true, true, true, true],
    [false, true, true, false],
    [false, false, true, false],
    [false, false, true, true],
];

impl Quantifier {
    pub fn relaxes_to(self, new: Quantifier) -> bool {
        RELAXING[self as usize][new as usize]
    }

    /// NONE or PLUS: at least one must stand.
    pub fn is_required(self) -> bool {
        matches!(self, Quantifier::None | Quantifier::Plus)
    }

    /// STAR or PLUS: more than one may stand.
    pub fn is_repeated(self) -> bool {
        matches!(self, Quantifier::Star | Quantifier::Plus)
    }

    /// *Gains*: the new one is NONE or PLUS, the old one neither.
    pub fn gains_to(self, new: Quantifier) -> bool {
        new.is_required() && !self.is_required()
    }

    /// *Cuts*: the old one is STAR or PLUS, the new one neither.
    pub fn cuts_to(self, new: Quantifier) -> bool {
        self.is_repeated() && !new.is_repeated()
    }
}

impl Particle {
    /// *Accepts nothing*: the empty sequence is in its language.
    pub fn accepts_nothing(&self) -> bool {
        if !self.quantifier.is_required() {
            return true;
        }
        match &self.term {
            Term::Element(_) => false,
            Term::Group(kind, members) => kind.accepts_nothing(members),
        }
    }
}

impl GroupKind {
    /// Does an unquantified group of these members accept nothing?
    pub fn accepts_nothing(self, members: &[Particle]) -> bool {
        match self {
            GroupKind::List => members.iter().all(Particle::accepts_nothing),
            GroupKind::Choice => members.iter().any(Particle::accepts_nothing),
        }
    }
}

/// Runs over the element particles of a list in preorder.
pub fn for_each_element(members: &[Particle], visit: &mut impl FnMut(usize)) {
    for particle in members {
        match &particle.term {
            Term::Element(index) => visit(*index),
            Term::Group(_, inner) => for_each_element(inner, visit),
        }
    }
}

/// The definitions whose elements stand in the list, at any depth.
pub fn elements_of(members: &[Particle]) -> Set {
    let mut set = 0;
    for_each_element(members, &mut |index| set |= 1 << index);
    set
}

/// The definitions that stand in the model of `from`, or in their models, and
/// so on.
pub fn reached_from(form: &Form, from: usize) -> Set {
    let mut reached = elements_of(&form.definitions[from].model);
    loop {
        let mut more = reached;
        for (index, definition) in form.definitions.iter().enumerate() {
            if reached >> index & 1 == 1 {
                more |= elements_of(&definition.model);
            }
        }
        if more == reached {
            return reached;
        }
        reached = more;
    }
}

/// The language of a model. As no name stands twice in a model, a sequence is
/// in the language exactly when its first element may be first, its last may
/// be last, and each may follow the one before it.
pub struct Language {
    nothing: bool,
    first: Set,
    last: Set,
    follow: [Set; MAX_DEFINITIONS],
}

/// What stands at the ends of the sequences of a part of the model.
#[derive(Clone, Copy)]
struct Ends {
    nothing: bool,
    first: Set,
    last: Set,
}

type Follow = [Set; MAX_DEFINITIONS];

impl Language {
    pub fn of(model: &[Particle]) -> Language {
        let mut follow = [0; MAX_DEFINITIONS];
        let ends = ends_of_group(GroupKind::List, model, &mut follow);
        Language {
            nothing: ends.nothing,
            first: ends.first,
            last: ends.last,
            follow,
        }
    }

    pub fn accepts(&self, word: &[usize]) -> bool {
        let (Some(&first), Some(&last)) = (word.first(), word.last()) else {
            return self.nothing;
        };
        let steps = word
            .windows(2)
            .all(|pair| self.follow[pair[0]] >> pair[1] & 1 == 1);
        self.first >> first & 1 == 1 && self.last >> last & 1 == 1 && steps
    }
}

/// Every element of `before` may be followed by every one of `after`.
fn join(before: Set, after: Set, follow: &mut Follow) {
    for (index, set) in follow.iter_mut().enumerate() {
        if before >> index & 1 == 1 {
            *set |= after;
        }
    }
}

fn ends_of(particle: &Particle, follow: &mut Follow) -> Ends {
    let mut ends = match &particle.term {
        Term::Element(index) => Ends {
            nothing: false,
            first: 1 << index,
            last: 1 << index,
        },
        Term::Group(kind, members) => ends_of_group(*kind, members, follow),
    };
    if particle.quantifier.is_repeated() {
        join(ends.last, ends.first, follow);
    }
    ends.nothing |= !particle.quantifier.is_required();
    ends
}

fn ends_of_group(kind: GroupKind, members: &[Particle], follow: &mut Follow) -> Ends {
    let mut whole = Ends {
        nothing: kind == GroupKind::List,
        first: 0,
        last: 0,
    };
    for member in members {
        let ends = ends_of(member, follow);
        if kind == GroupKind::Choice {
            whole.nothing |= ends.nothing;
            whole.first |= ends.first;
            whole.last |= ends.last;
            continue;
        }
        join(whole.last, ends.first, follow);
        if whole.nothing {
            whole.first |= ends.first;
        }
        whole.last = ends.last | if ends.nothing { whole.last } else { 0 };
        whole.nothing &= ends.nothing;
    }
    whole
}

/// Where a *place* leads: the list of its last number, and that number.
pub struct Spot<'a> {
    /// The group whose list it is; none for the top list.
    pub group: Option<&'a Particle>,
    pub kind: GroupKind,
    pub members: &'a [Particle],
    /// Is the list in the *spine*?
    pub on_spine: bool,
    /// The elements that stand in the model before the list.
    earlier: Set,
    last: usize,
}

/// Follows all numbers of a place but the last, which is not looked at here.
pub fn walk<'a>(model: &'a [Particle], place: &[u32]) -> Option<Spot<'a>> {
    if place.len() > MAX_MODEL_DEPTH + 1 {
        return None;
    }
    let (&last, path) = place.split_last()?;
    let mut spot = Spot {
        group: None,
        kind: GroupKind::List,
        members: model,
        on_spine: true,
        earlier: 0,
        last: last as usize,
    };
    for &number in path {
        let at = (number as usize).checked_sub(1)?;
        let group = spot.members.get(at)?;
        let Term::Group(kind, members) = &group.term else {
            return None;
        };
        let unquantified = group.quantifier == Quantifier::None;
        spot.on_spine &= *kind == GroupKind::List && unquantified;
        spot.earlier |= elements_of(&spot.members[..at]);
        spot.group = Some(group);
        spot.kind = *kind;
        spot.members = members;
    }
    Some(spot)
}

/// The spot of a place after whose member something is to be inserted.
pub fn find_gap<'a>(model: &'a [Particle], place: &[u32]) -> Option<Spot<'a>> {
    walk(model, place).filter(|spot| spot.last <= spot.members.len())
}

/// The spot and the member that a place picks.
pub fn find_member<'a>(model: &'a [Particle], place: &[u32]) -> Option<(Spot<'a>, &'a Particle)> {
    let spot = walk(model, place)?;
    let member = spot.members.get(spot.last.checked_sub(1)?)?;
    Some((spot, member))
}

impl Spot<'_> {
    /// The number of members before the gap.
    pub fn gap(&self) -> usize {
        self.last
    }

    /// The number of members before the member picked.
    pub fn position(&self) -> usize {
        self.last - 1
    }

    /// The elements that stand in the model before what would be inserted.
    pub fn earlier_than_gap(&self) -> Set {
        self.earlier | elements_of(&self.members[..self.gap()])
    }

    /// The elements that stand in the model before the member picked.
    pub fn earlier_than_member(&self) -> Set {
        self.earlier | elements_of(&self.members[..self.position()])
    }
}

/// The list in which a place's last number counts, to be changed, and that
/// number.
pub fn list_mut<'a>(
    model: &'a mut Vec<Particle>,
    place: &[u32],
) -> Option<(&'a mut Vec<Particle>, usize)> {
    let (&last, path) = place.split_last()?;
    let mut members = model;
    for &number in path {
        let at = (number as usize).checked_sub(1)?;
        match &mut members.get_mut(at)?.term {
            Term::Group(_, inner) => members = inner,
            Term::Element(_) => return None,
        }
    }
    Some((members, last as usize))
}

/// The most groups around a particle of the list.
pub fn depth_of(members: &[Particle]) -> usize {
    members
        .iter()
        .map(|particle| match &particle.term {
            Term::Element(_) => 0,
            Term::Group(_, inner) => 1 + depth_of(inner),
        })
        .max()
        .unwrap_or(0)
}

#[cfg(test)]
mod tests {
    use super::*;

    fn allows(quantifier: Quantifier, number: usize) -> bool {
        (number >= 1 || !quantifier.is_required()) && (number <= 1 || quantifier.is_repeated())
    }

    /// The table's rule over all sixteen entries; 2 stands for every number
    /// above 1.
    #[test]
    fn relaxing_table() {
        for old in Quantifier::ALL {
            for new in Quantifier::ALL {
                let relaxing = (0..3).all(|number| !allows(old, number) || allows(new, number));
                assert_eq!(old.relaxes_to(new), relaxing);
                assert_eq!(!relaxing, old.gains_to(new) || old.cuts_to(new));
            }
        }
    }
}
