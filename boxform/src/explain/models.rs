//! Refusals about models: places, groups, and what the lists that stand forbid.

use super::Case;
use crate::form::place_text;
use formstore::{Code, GroupSort, Particle, Quantifier, Term};
use std::collections::HashSet;

impl Case<'_> {
    /// The place is absent or has the wrong sort; or the child or the count is past the list.
    pub(super) fn no_place(&self) -> Option<String> {
        if self.change == "add-element" {
            let parent = self.serial("parent")?;
            let count = self.lists.children(parent).count();
            return Some(self.told(
                "child",
                &format!(
                    "{} has {count} elements in it, so 0 to {count} or end can be",
                    self.element(parent)
                ),
            ));
        }
        let (owner, place) = self.located()?;
        if let Some(fault) = self.absent(owner, &place) {
            return Some(self.told("place", &fault));
        }
        if self.change == "convert-to-group" {
            let (_, members) = self.form.list_at(owner, &place)?;
            let left = members.count() + 1 - *place.last()? as usize;
            return Some(self.told(
                "count",
                &format!(
                    "from place {} on there are {left} members, so 1 to {left} can be",
                    place_text(&place)
                ),
            ));
        }
        let particle = self.form.particle_at(owner, &place)?;
        Some(self.told("place", &self.wrong_sort(&place, &particle)))
    }

    /// Why a place is not there.
    fn absent(&self, owner: u32, place: &[u32]) -> Option<String> {
        if let Some(fault) =
            (1..place.len()).find_map(|length| self.no_group(owner, &place[..length]))
        {
            return Some(fault);
        }
        let (_, members) = self.form.list_at(owner, place)?;
        let first = u32::from(self.change != "insert-element");
        let last = members.count() as u32;
        if (first..=last).contains(place.last()?) {
            return None;
        }
        let around = match self.form.particle_at(owner, &place[..place.len() - 1]) {
            Some(group) => format!("the group {}", self.form.text(&group)),
            None => format!(
                "the model of {}, {},",
                self.form.name(owner),
                self.form.content(owner)
            ),
        };
        Some(match last {
            0 if first == 1 => format!("{around} has no members"),
            _ => format!("{around} has {last} members, so {first} to {last} can be"),
        })
    }

    /// Why a place that should lead on is no group.
    fn no_group(&self, owner: u32, place: &[u32]) -> Option<String> {
        let here = place_text(place);
        match self.form.particle_at(owner, place) {
            Some(particle) => match particle.term {
                Term::Group { .. } => None,
                Term::Element { .. } => Some(format!(
                    "{here} is the element {} and no group",
                    self.form.text(&particle)
                )),
            },
            None => Some(format!(
                "there is no member {here} in {}",
                self.form.content(owner)
            )),
        }
    }

    /// An element where a group is wanted, or the other way round.
    fn wrong_sort(&self, place: &[u32], particle: &Particle) -> String {
        let text = self.form.text(particle);
        let Term::Group { members, .. } = &particle.term else {
            return format!("this is the element {text} and no group; 'change-quantifier' and 'remove-element' are for \
                            elements");
        };
        let members = (1..).zip(members.clone()).map(|(number, member)| {
            format!("{}-{number} {}", place_text(place), self.form.text(&member))
        });
        let members = members.collect::<Vec<_>>().join(", ");
        format!("this is the group {text} and no element; its members are {members}; 'change-group-quantifier' and \
                 'flatten-group' are for groups")
    }

    /// 2: a model or a document has it. 3: the model has it.
    pub(super) fn in_use(&self) -> Option<String> {
        let definition = self.definition("definition")?;
        if self.change == "insert-element" {
            let (owner, _) = self.located()?;
            let place = self.form.place_of(owner, definition)?;
            return Some(self.told(
                "definition",
                &format!(
                    "it is in {} already, at place {}",
                    self.form.content(owner),
                    place_text(&place)
                ),
            ));
        }
        let name = self.form.name(definition);
        let owners = self.form.reader.definitions();
        let users: Vec<&str> = owners
            .filter(|owner| self.form.place_of(owner.index, definition).is_some())
            .map(|owner| owner.name)
            .collect();
        if let [first, ..] = users[..] {
            return Some(self.told(
                "definition",
                &format!(
                    "it is in the model of {}; 'remove-element --place {first}/{name}' comes first",
                    users.join(", ")
                ),
            ));
        }
        let roots: Vec<String> = self
            .lists
            .roots()
            .filter(|line| line.definition() == Some(definition))
            .map(|line| self.element(line.row.serial))
            .collect();
        Some(self.told(
            "definition",
            &format!("documents have it at the root: {}", roots.join(", ")),
        ))
    }

    /// 3: the way from the element down to the owner.
    pub(super) fn round(&self) -> Option<String> {
        let (owner, _) = self.located()?;
        let definition = self.definition("definition")?;
        let mut way = vec![definition];
        if !self.lead(owner, &mut way, &mut HashSet::new()) {
            return None;
        }
        let names: Vec<&str> = way.iter().map(|step| self.form.name(*step)).collect();
        Some(self.told(
            "definition",
            &match names[..] {
                [only] => format!("{only} cannot stand in itself"),
                _ => format!(
                    "{} stands below it: {}; it cannot stand below {} as well",
                    self.form.name(owner),
                    names.join(" > "),
                    self.form.name(owner)
                ),
            },
        ))
    }

    /// Whether the last of the way leads to the goal; then the way goes there. A definition that was seen need not be
    /// tried again.
    fn lead(&self, goal: u32, way: &mut Vec<u32>, seen: &mut HashSet<u32>) -> bool {
        let here = way[way.len() - 1];
        if here == goal {
            return true;
        }
        for next in self.form.members(here) {
            if seen.insert(next) {
                way.push(next);
                if self.lead(goal, way, seen) {
                    return true;
                }
                way.pop();
            }
        }
        false
    }

    /// A default is missing, or is one too many.
    pub(super) fn default(&self) -> String {
        match (self.change, self.given.text("sort").as_str()) {
            ("add-attribute", "implied") => self.told("value", "an implied attribute takes no value; leave --value \
                                                                out"),
            ("add-attribute", _) => "--value is missing or empty: a required attribute wants the value that the lists \
                                     get".to_string(),
            _ => "--text is missing or empty: it must come now, so give the text of those that are made in the \
                  lists".to_string(),
        }
    }

    /// The lists that stand do not say where an element would have to come or go.
    pub(super) fn off_spine(&self) -> Option<String> {
        let (owner, place) = self.located()?;
        let stand = self.instances(owner);
        let old = self
            .form
            .particle_at(owner, &place)
            .map(|particle| particle.quantifier);
        let new = self.given.code::<Quantifier>("quantifier").ok()?;
        let many = |quantifier| matches!(quantifier, Quantifier::Star | Quantifier::Plus);
        if self.change == "change-group-quantifier" && old.is_some_and(many) && !many(new) {
            return Some(self.told(
                "quantifier",
                &format!(
                    "{stand}, each may have the group many times, and nothing \
                     says which to keep; it can be cut only while none stands"
                ),
            ));
        }
        let (at, group) = self.loose_group(owner, &place)?;
        let why = format!("{stand}, and the group {group} at place {at} may be left out, repeated or not chosen in \
                           them, so nothing says where");
        Some(self.told("quantifier", &match self.change {
            "insert-element" => format!("{why} one must come; give qmark or star"),
            _ => {
                let now = old.map_or("", Quantifier::mark);
                format!("{why} one must come or go; only a looser quantifier than it has now ('{now}') can be given")
            }
        }))
    }

    /// The first group around the place that an instance need not have exactly once.
    fn loose_group(&self, owner: u32, place: &[u32]) -> Option<(String, String)> {
        (1..place.len()).find_map(|length| {
            let particle = self.form.particle_at(owner, &place[..length])?;
            let whole = matches!(
                particle.term,
                Term::Group {
                    sort: GroupSort::List,
                    ..
                }
            ) && particle.quantifier == Quantifier::None;
            (!whole).then(|| (place_text(&place[..length]), self.form.text(&particle)))
        })
    }

    /// 4 would leave a group empty; 6 and 7 would mix the sorts, or 7 lose a quantifier.
    pub(super) fn grouping(&self) -> Option<String> {
        let (owner, place) = self.located()?;
        let (sort, _) = self.form.list_at(owner, &place)?;
        let list = sort.word();
        Some(match self.change {
            "remove-element" => {
                let group = place_text(&place[..place.len() - 1]);
                let fault =
                    format!("it is the last member of group {group}, and no group is empty");
                self.told("place", &format!("{fault}; 'flatten-group' comes first"))
            }
            "convert-to-group" => {
                let fault =
                    format!("the members stand in a {list}, so a group of several is a {list} too");
                self.told("sort", &format!("{fault}; one member alone can be either"))
            }
            _ => self.told("place", &self.cannot_flatten(list)?),
        })
    }

    fn cannot_flatten(&self, list: &str) -> Option<String> {
        let particle = self.particle()?;
        let why = match particle.quantifier.mark() {
            "" => format!("it has several members and stands in a {list} of the other sort, so it stays"),
            mark => format!("it has the quantifier '{mark}'; 'change-group-quantifier --quantifier none' comes first"),
        };
        Some(format!(
            "this is the group {}: {why}",
            self.form.text(&particle)
        ))
    }
}
