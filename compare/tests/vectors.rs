//! The vectors through the library.

use compare::{header, Answer};
use second::testing::vectors::{run_files, same, Asked, Line};
use std::collections::BTreeSet;

fn run(line: &Line) -> Result<(), String> {
    let input = &line.input;
    let pair = |answer: Answer| (answer.number, answer.length);
    match &line.asked {
        Asked::Check { passes } => same(compare::check(input) == 0, *passes),
        Asked::LookUp { serial, found } => {
            let given = compare::look_up(input, *serial);
            let end = given.start + given.length;
            same((given.number, given.start, end), *found)
        }
        Asked::Print(output) => output.compare(|out| pair(compare::print(input, out))),
        Asked::ReadText(output) => output.compare(|out| pair(compare::read_text(input, out))),
        Asked::Change(call, output) => output.compare(|out| pair(compare::apply(call, input, out))),
    }
}

#[test]
fn all_lines() {
    let mut calls = BTreeSet::new();
    let lines = run_files(|line| {
        calls.insert(line.name.to_string());
        run(line)
    });
    println!("{lines} lines agree");
    for call in header::calls() {
        assert!(calls.remove(call), "no line of {call}");
    }
    assert!(calls.is_empty(), "{calls:?} are not in the header");
}
