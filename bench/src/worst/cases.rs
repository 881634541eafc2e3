//! Which calls are made on which of the worst stores.

use super::stores::*;
use compare::worst::longest;
use second::store::Store;

/// Stores of one shape: two from which the growth is told, about eight times as many rows in one as in the other, and the largest; and changes as the vectors
/// write them. LAST stands for the serial of the last element, CHILDREN for how many the first root has.
pub struct Case {
    pub name: &'static str,
    pub store: fn(usize) -> Store,
    pub rows: [usize; 3],
    pub changes: &'static [&'static str],
}

/// As many rows as there can be, before the call or after it; with room for one more child; with room for some.
const FULL: [usize; 3] = [506, 4006, 4096];
const ROOM: [usize; 3] = [506, 4006, 4094];
const SOME: [usize; 3] = [506, 4006, 4006];

const AT_THE_LAST: &[&str] = &[
    "add_document 0 x2d",
    "add_element 1 CHILDREN 1 x2d",
    "destroy_element LAST",
    "set_attribute LAST 0 x2d",
    "destroy_attribute_row LAST 0",
    "set_text LAST x2d",
];

pub const CASES: [Case; 24] = [
    Case {
        name: "children of one root",
        store: texts,
        rows: FULL,
        changes: &[
            "remove_element 0 p1",
            "change_quantifier 0 p1 0 x2d",
            "convert_to_group 0 p1 1 1",
            "add_attribute 1 x6e6f 1 x2d",
            "destroy_attribute 0",
            "destroy_element LAST",
            "set_attribute LAST 0 x2d",
            "destroy_attribute_row LAST 0",
            "set_text LAST x2d",
        ],
    },
    Case {
        name: "room for one more child",
        store: texts,
        rows: ROOM,
        changes: &["add_document 0 x2d", "add_element 1 CHILDREN 1 x2d"],
    },
    Case {
        name: "serials alike modulo 2^12",
        store: alike,
        rows: FULL,
        changes: AT_THE_LAST,
    },
    Case {
        name: "serials alike modulo 2^20",
        store: most_alike,
        rows: FULL,
        changes: AT_THE_LAST,
    },
    Case {
        name: "253 particles, one element",
        store: long_model_once,
        rows: SOME,
        changes: &[
            "change_quantifier 0 p1.63.1.1.1 2 x",
            "convert_to_group 0 p1.1 63 1",
            "flatten_group 0 p1.63.1",
            "change_group_quantifier 0 p1.63 1 x",
            "add_attribute 63 x6e6f 1 x2d",
            "add_document 0 x2d",
            "add_element 1 CHILDREN 63 x2d",
            "destroy_element LAST",
        ],
    },
    Case {
        name: "253 particles, many elements",
        store: long_model_often,
        rows: SOME,
        changes: &[
            "change_quantifier 0 p1.63.1.1.1 2 x",
            "flatten_group 0 p1.63.1",
            "add_attribute 0 x6e6f 0 x",
            "add_element 1 CHILDREN 63 x2d",
            "destroy_element LAST",
        ],
    },
    Case {
        name: "64 attributes, all there",
        store: all_attributes,
        rows: SOME,
        changes: &[
            "remove_element 0 p1",
            "destroy_attribute 0",
            "destroy_attribute 63",
            "add_document 0 x2d",
            "destroy_element LAST",
            "set_attribute 1 63 x2d",
            "destroy_attribute_row 1 1",
        ],
    },
    Case {
        name: "64 attributes, the last there",
        store: last_attribute,
        rows: SOME,
        changes: &[
            "add_attribute 0 x6e6f 1 x2d",
            "destroy_attribute 0",
            "destroy_attribute 63",
            "add_document 0 x2d",
            "destroy_element LAST",
            "set_attribute LAST 62 x2d",
            "set_attribute LAST 63 x2d",
        ],
    },
    Case {
        name: "63 attributes, one more",
        store: attribute_missing,
        rows: FULL,
        changes: &["add_attribute 0 x6e6f 1 x2d"],
    },
    Case {
        name: "64 definitions nested",
        store: nested,
        rows: [495, 3960, 3960],
        changes: &[
            "insert_element 0 p1 63 0 x2d",
            "convert_to_group 62 p1 1 1",
            "add_attribute 63 x6e6f 1 x2d",
            "add_document 0 x2d",
            "destroy_element 1",
            "set_attribute 1 0 x2d",
        ],
    },
    Case {
        name: "64 definitions filled",
        store: nested_missing,
        rows: FULL,
        changes: &["insert_element 0 p0 1 0 x2d"],
    },
    Case {
        name: "CHOICE of 63",
        store: choice,
        rows: SOME,
        changes: &[
            "remove_element 0 p1.1",
            "remove_element 0 p1.63",
            "change_quantifier 0 p1.63 1 x",
            "convert_to_group 0 p1.1 63 2",
            "change_group_quantifier 0 p1 3 x2d",
            "add_attribute 63 x6e6f 1 x2d",
            "add_element 1 CHILDREN 63 x2d",
            "destroy_element LAST",
        ],
    },
    Case {
        name: "64 definitions, the first spare",
        store: spare,
        rows: FULL,
        changes: &[
            "create_definition x7465616d 2",
            "destroy_definition 0",
            "insert_element 1 p1.62 0 0 x2d",
            "destroy_attribute 0",
        ],
    },
    Case {
        name: "4,095 empty fillings, alike",
        store: empty_missing,
        rows: FULL,
        changes: &[
            "insert_element 1 p0 4 0 x2d",
            "change_quantifier 1 p2 0 x2d",
            "change_group_quantifier 1 p1 0 x2d",
        ],
    },
    Case {
        name: "empty fillings of 62 members",
        store: group_of_none,
        rows: FULL,
        changes: &["change_group_quantifier 1 p1 0 x2d"],
    },
    Case {
        name: "2,047 fillings of 62 members",
        store: group_of_one,
        rows: FULL,
        changes: &["change_group_quantifier 1 p1 0 x2d"],
    },
    Case {
        name: "2,006 of 2,047 of 62 members",
        store: group_of_one_there,
        rows: FULL,
        changes: &["change_group_quantifier 1 p1 0 x2d"],
    },
    Case {
        name: "1,023 fillings of 62 members",
        store: group_of_three,
        rows: FULL,
        changes: &["change_group_quantifier 1 p1 0 x2d"],
    },
    Case {
        name: "2,047 fillings at depth 4",
        store: deep_missing,
        rows: FULL,
        changes: &[
            "insert_element 1 p50.1.1.1.1 63 0 x2d",
            "change_quantifier 1 p50.1.1.1.1 0 x2d",
        ],
    },
    Case {
        name: "2,047 fillings with a long model",
        store: long_model_missing,
        rows: FULL,
        changes: &["insert_element 1 p0 2 0 x2d"],
    },
    Case {
        name: "fillings that explode",
        store: exploding,
        rows: SOME,
        changes: &[
            "insert_element 0 p2 3 0 x2d",
            "change_quantifier 0 p1 0 x2d",
            "change_group_quantifier 0 p2 0 x2d",
            "add_document 1 x2d",
            "add_element LAST 0 1 x2d",
        ],
    },
    Case {
        name: "2,047 empty models in a filling",
        store: doubling_of_none,
        rows: [1, 2, 2],
        changes: &["add_document 1 x2d"],
    },
    Case {
        name: "1,023 long models in a filling",
        store: doubling_of_one,
        rows: [1, 2, 2],
        changes: &["add_document 1 x2d"],
    },
    Case {
        name: "all ceilings",
        store: longest,
        rows: FULL,
        changes: &[
            "create_definition x7465616d 2",
            "remove_element 0 p63",
            "destroy_attribute 63",
            "add_document 0 x2d",
            "destroy_element LAST",
            "destroy_attribute_row 1 63",
        ],
    },
];
