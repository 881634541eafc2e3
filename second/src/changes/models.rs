//! Content models: changes 3 to 8.

use super::{coded, for_each_instance, good_value, known, run};
use crate::edit;
use crate::filling::Maker;
use crate::model::{elements_of, find_gap, find_member, reached_from, Set, Spot};
use crate::outcome::{refuse_if, Answer, Refusal};
use crate::store::*;

/// Where new children stand: after the last child that belongs to an earlier
/// particle of the model.
fn position_after(earlier: Set, content: &[Node]) -> usize {
    let belongs = |node: &Node| match node {
        Node::Element(child) => earlier >> child.definition & 1 == 1,
        Node::Text(_) => false,
    };
    content.iter().rposition(belongs).map_or(0, |last| last + 1)
}

/// Gives each instance in which none of the elements of `particle` stands the
/// particle's filling; says how many rows were made.
fn fill_gaps(
    store: &mut Store,
    owner: usize,
    particle: &Particle,
    earlier: Set,
    text: &[u8],
) -> Result<usize, Refusal> {
    let own = elements_of(std::slice::from_ref(particle));
    let mut maker = Maker::new(&store.form, store.next_serial, text);
    for_each_instance(&mut store.documents, owner, &mut |instance| {
        if instance
            .children()
            .any(|child| own >> child.definition & 1 == 1)
        {
            return Ok(());
        }
        let mut rows = Vec::new();
        maker.particle(particle, &mut rows)?;
        let position = position_after(earlier, &instance.content);
        instance.content.splice(position..position, rows);
        Ok(())
    })?;
    Ok(maker.made)
}

/// The element that a place picks, with its quantifier; a group is of the wrong
/// sort there.
fn find_element<'a>(
    model: &'a [Particle],
    place: &[u32],
) -> Result<(Spot<'a>, Quantifier, usize), Refusal> {
    match find_member(model, place) {
        Some((spot, particle)) => match particle.term {
            Term::Element(index) => Ok((spot, particle.quantifier, index)),
            Term::Group(..) => Err(Refusal::NoPlace),
        },
        None => Err(Refusal::NoPlace),
    }
}

/// The group that a place picks; an element is of the wrong sort there.
fn find_group<'a>(
    model: &'a [Particle],
    place: &[u32],
) -> Result<(Spot<'a>, &'a Particle), Refusal> {
    find_member(model, place)
        .filter(|(_, particle)| matches!(particle.term, Term::Group(..)))
        .ok_or(Refusal::NoPlace)
}

/// Change 3. Insert element with quantifier and default text.
pub fn insert_element(
    store: &[u8],
    owner: u32,
    place: &[u32],
    definition: u32,
    quantifier: u32,
    text: &[u8],
    out: &mut [u8],
) -> Answer {
    run(store, out, |store| {
        good_value(text)?;
        let quantifier: Quantifier = coded(quantifier)?;
        let form = &store.form;
        let owner = known(owner, form.definitions.len())?;
        let index = known(definition, form.definitions.len())?;
        let model = &form.definitions[owner].model;
        let spot = find_gap(model, place).ok_or(Refusal::NoPlace)?;
        let complex = form.definitions[owner].kind == Kind::Complex;
        refuse_if(!complex, Refusal::WrongKind)?;
        refuse_if(elements_of(model) >> index & 1 == 1, Refusal::InUse)?;
        let round = index == owner || reached_from(form, index) >> owner & 1 == 1;
        refuse_if(round, Refusal::Round)?;
        let required = quantifier.is_required();
        refuse_if(required && text.is_empty(), Refusal::Default)?;
        let off_spine = spot.kind == GroupKind::List && !spot.on_spine;
        let blocked = required && off_spine && store.has_instance(owner);
        refuse_if(blocked, Refusal::OffSpine)?;
        let (fills, earlier) = (required && spot.on_spine, spot.earlier_than_gap());
        edit::insert_element(&mut store.form, owner, place, index, quantifier);
        if !fills {
            return Ok(0);
        }
        let term = Term::Element(index);
        fill_gaps(store, owner, &Particle { quantifier, term }, earlier, text)
    })
}

/// Change 4. Remove element: those children of instances go, with all below them.
pub fn remove_element(store: &[u8], owner: u32, place: &[u32], out: &mut [u8]) -> Answer {
    run(store, out, |store| {
        let owner = known(owner, store.form.definitions.len())?;
        let model = &store.form.definitions[owner].model;
        let (spot, _, index) = find_element(model, place)?;
        if let Some(group) = spot.group {
            refuse_if(spot.members.len() == 1, Refusal::Grouping)?;
            let mut rest = spot.members.to_vec();
            rest.remove(spot.position());
            let left = Particle {
                quantifier: group.quantifier,
                term: Term::Group(spot.kind, rest),
            };
            let choice = spot.kind == GroupKind::Choice;
            let blocked = choice && !left.accepts_nothing() && store.has_instance(owner);
            refuse_if(blocked, Refusal::NoMatch)?;
        }
        edit::remove_element(&mut store.form, owner, place);
        for_each_instance(&mut store.documents, owner, &mut |instance| {
            instance.content.retain(|node| !node.is_of(index));
            Ok(())
        })?;
        Ok(0)
    })
}

/// Change 5. Change an element's quantifier. In a spine list: cut keeps each
/// instance's first; gain puts a filling where none stands.
pub fn change_quantifier(
    store: &[u8],
    owner: u32,
    place: &[u32],
    quantifier: u32,
    text: &[u8],
    out: &mut [u8],
) -> Answer {
    run(store, out, |store| {
        good_value(text)?;
        let new: Quantifier = coded(quantifier)?;
        let owner = known(owner, store.form.definitions.len())?;
        let model = &store.form.definitions[owner].model;
        let (spot, old, index) = find_element(model, place)?;
        let (gains, cuts) = (old.gains_to(new), old.cuts_to(new));
        refuse_if(gains && text.is_empty(), Refusal::Default)?;
        let blocked = !old.relaxes_to(new) && !spot.on_spine && store.has_instance(owner);
        refuse_if(blocked, Refusal::OffSpine)?;
        let (on_spine, earlier) = (spot.on_spine, spot.earlier_than_member());
        edit::change_quantifier(&mut store.form, owner, place, new);
        if cuts && on_spine {
            for_each_instance(&mut store.documents, owner, &mut |instance| {
                keep_first(index, &mut instance.content);
                Ok(())
            })?;
        }
        if !gains || !on_spine {
            return Ok(0);
        }
        let term = Term::Element(index);
        let particle = Particle {
            quantifier: new,
            term,
        };
        fill_gaps(store, owner, &particle, earlier, text)
    })
}

fn keep_first(definition: usize, content: &mut Vec<Node>) {
    let mut seen = false;
    content.retain(|node| {
        let repeated = seen && node.is_of(definition);
        seen |= node.is_of(definition);
        !repeated
    });
}

/// Change 6. Convert `count` members from a place on into a group, unquantified.
pub fn convert_to_group(
    store: &[u8],
    owner: u32,
    place: &[u32],
    count: u32,
    sort: u32,
    out: &mut [u8],
) -> Answer {
    run(store, out, |store| {
        let kind: GroupKind = coded(sort)?;
        let owner = known(owner, store.form.definitions.len())?;
        let model = &store.form.definitions[owner].model;
        let (spot, _) = find_member(model, place).ok_or(Refusal::NoPlace)?;
        let count = count as usize;
        let room = spot.members.len() - spot.position();
        refuse_if(count == 0 || count > room, Refusal::NoPlace)?;
        refuse_if(count > 1 && kind != spot.kind, Refusal::Grouping)?;
        edit::convert_to_group(&mut store.form, owner, place, count, kind);
        Ok(0)
    })
}

/// Change 7. Flatten a group into its list.
pub fn flatten_group(store: &[u8], owner: u32, place: &[u32], out: &mut [u8]) -> Answer {
    run(store, out, |store| {
        let owner = known(owner, store.form.definitions.len())?;
        let model = &store.form.definitions[owner].model;
        let (spot, group) = find_group(model, place)?;
        let quantified = group.quantifier != Quantifier::None;
        let other_sort = match &group.term {
            Term::Group(kind, members) => members.len() > 1 && *kind != spot.kind,
            Term::Element(_) => false,
        };
        refuse_if(quantified || other_sort, Refusal::Grouping)?;
        edit::flatten_group(&mut store.form, owner, place);
        Ok(0)
    })
}

/// Change 8. Change a group's quantifier. A gain in a spine list gives an instance
/// without a child of the group the group's filling.
pub fn change_group_quantifier(
    store: &[u8],
    owner: u32,
    place: &[u32],
    quantifier: u32,
    text: &[u8],
    out: &mut [u8],
) -> Answer {
    run(store, out, |store| {
        good_value(text)?;
        let new: Quantifier = coded(quantifier)?;
        let owner = known(owner, store.form.definitions.len())?;
        let model = &store.form.definitions[owner].model;
        let (spot, particle) = find_group(model, place)?;
        let old = particle.quantifier;
        let gains = old.gains_to(new);
        refuse_if(gains && text.is_empty(), Refusal::Default)?;
        let tightened_off_spine = !old.relaxes_to(new) && !spot.on_spine;
        let blocked = (tightened_off_spine || old.cuts_to(new)) && store.has_instance(owner);
        refuse_if(blocked, Refusal::OffSpine)?;
        let (on_spine, earlier) = (spot.on_spine, spot.earlier_than_member());
        let mut group = particle.clone();
        group.quantifier = new;
        edit::change_quantifier(&mut store.form, owner, place, new);
        if !gains || !on_spine {
            return Ok(0);
        }
        fill_gaps(store, owner, &group, earlier, text)
    })
}
