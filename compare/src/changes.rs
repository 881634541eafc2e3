//! The sixteen changes, each through its exported function. The table at the end is all that knows them.

use crate::hostile::Argument;
use formstore::raw::{self, Answer};
use second::testing::vectors::{read_call, Words};
use second::Call;

/// The call of a line as the vectors write it, without its buffers.
pub fn of_line(line: &str) -> Call {
    let mut words = Words::of(line);
    let name = words.word();
    let call = read_call(name, &mut words);
    call.unwrap_or_else(|why| panic!("no call {line}: {why}"))
}

/// An argument of a call as the library takes it.
macro_rules! passed {
    (number $argument:ident) => {
        *$argument
    };
    ($slice:ident $argument:ident) => {
        $argument
    };
}

macro_rules! changes {
    ($($name:ident $case:ident { $($argument:ident: $passed:ident $meaning:ident),* })*) => {
        /// Runs the call on the library.
        pub fn apply(call: &Call, store: &[u8], out: &mut [u8]) -> Answer {
            match call {
                $(Call::$case { $($argument),* } => {
                    raw::$name(store, $(passed!($passed $argument),)* out)
                })*
            }
        }

        /// The name of the call.
        pub fn name(call: &Call) -> &'static str {
            match call {
                $(Call::$case { .. } => stringify!($name),)*
            }
        }

        /// The arguments of the call, lent.
        pub fn arguments(call: &mut Call) -> Vec<Argument<'_>> {
            match call {
                $(Call::$case { $($argument),* } => vec![$(Argument::$meaning($argument)),*],)*
            }
        }
    };
}

// Change, call, and its arguments between `store` and `out`: how each is passed and what it is.
changes! {
    create_definition CreateDefinition { name: bytes Name, kind: number Code }
    destroy_definition DestroyDefinition { definition: number Definition }
    insert_element InsertElement { owner: number Definition, place: place Place, definition: number Definition, quantifier: number Code, text: bytes Value }
    remove_element RemoveElement { owner: number Definition, place: place Place }
    change_quantifier ChangeQuantifier { owner: number Definition, place: place Place, quantifier: number Code, text: bytes Value }
    convert_to_group ConvertToGroup { owner: number Definition, place: place Place, count: number Count, sort: number Code }
    flatten_group FlattenGroup { owner: number Definition, place: place Place }
    change_group_quantifier ChangeGroupQuantifier { owner: number Definition, place: place Place, quantifier: number Code, text: bytes Value }
    add_attribute AddAttribute { owner: number Definition, name: bytes Name, sort: number Code, value: bytes Value }
    destroy_attribute DestroyAttribute { attribute: number Attribute }
    add_document AddDocument { definition: number Definition, text: bytes Value }
    add_element AddElement { parent: number Element, child: number Count, definition: number Definition, text: bytes Value }
    destroy_element DestroyElement { element: number Element }
    set_attribute SetAttribute { element: number Element, attribute: number Attribute, value: bytes Value }
    destroy_attribute_row DestroyAttributeRow { element: number Element, attribute: number Attribute }
    set_text SetText { element: number Element, text: bytes Value }
}
