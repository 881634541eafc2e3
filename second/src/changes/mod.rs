//! The sixteen changes. Each reads a store and writes the new one into a
//! buffer; its conditions stand in the order of the table of refusals.

pub mod documents;
pub mod form;
pub mod models;

use crate::check;
use crate::layout;
use crate::outcome::{refuse_if, write, Answer, Refusal};
use crate::store::*;

/// Reads the store, lets `change` change it and say how many rows it made, and
/// writes what is left. `change` answers for the refusals 2 to 15.
fn run(
    bytes: &[u8],
    out: &mut [u8],
    change: impl FnOnce(&mut Store) -> Result<usize, Refusal>,
) -> Answer {
    let result = (|| {
        let mut store = check::read(bytes).ok_or(Refusal::BadStore)?;
        let made = change(&mut store)?;
        leave(store, made, out)
    })();
    Answer::from(result)
}

/// The refusals 16 to 18, and the writing.
fn leave(mut store: Store, made: usize, out: &mut [u8]) -> Result<usize, Refusal> {
    refuse_if(!check::within_ceilings(&store), Refusal::Ceiling)?;
    let next_serial = store.next_serial as u64 + made as u64;
    store.next_serial = u32::try_from(next_serial).map_err(|_| Refusal::Serials)?;
    write(&layout::encode(&store), out)
}

/// The index as one into a table of `count` records.
fn known(index: u32, count: usize) -> Result<usize, Refusal> {
    let index = index as usize;
    refuse_if(index >= count, Refusal::Unknown)?;
    Ok(index)
}

fn good_value(value: &[u8]) -> Result<(), Refusal> {
    refuse_if(!check::value_ok(value), Refusal::BadValue)
}

fn coded<T: Code>(code: u32) -> Result<T, Refusal> {
    T::from_code(code).ok_or(Refusal::BadCode)
}

/// Lets `treat` treat each instance of the owner in document order. An
/// instance never holds another one of the same owner.
fn for_each_instance(
    documents: &mut [Element],
    owner: usize,
    treat: &mut impl FnMut(&mut Element) -> Result<(), Refusal>,
) -> Result<(), Refusal> {
    for document in documents {
        treat_instances(document, owner, treat)?;
    }
    Ok(())
}

fn treat_instances(
    element: &mut Element,
    owner: usize,
    treat: &mut impl FnMut(&mut Element) -> Result<(), Refusal>,
) -> Result<(), Refusal> {
    if element.definition == owner {
        return treat(element);
    }
    for node in &mut element.content {
        if let Node::Element(child) = node {
            treat_instances(child, owner, treat)?;
        }
    }
    Ok(())
}
