//! `bench [PART..]` prints what the calls of the library take, as ratios measured in one run: on finish lists (`ordinary`), as these grow (`growth`), and on
//! the stores that take the most (`worst`); then the length of the code (`size`) and the stack that each call needs (`stack`). What is over its bar is marked
//! with `!`; nothing fails for its time. Buffers are not cleared between runs.

mod libxml2;
mod lists;
mod ordinary;
mod size;
mod timing;
mod worst;

use compare::header;
use compare::marks::Marks;
use std::process::ExitCode;

/// Of each buffer.
const LENGTH: usize = 1 << 20;

const PARTS: [(&str, fn()); 5] = [
    ("ordinary", ordinary::print_ratios),
    ("growth", ordinary::print_growth),
    ("worst", worst::print),
    ("size", size::print),
    ("stack", print_stack),
];

fn print_stack() {
    let bound = header::number("FORMSTORE_STACK");
    println!("Stack: the most bytes that each call needs on the worst stores that could be made for it (bar FORMSTORE_STACK, {bound}).\n");
    Marks::of_worst_stores().print();
}

fn main() -> ExitCode {
    let asked: Vec<String> = std::env::args().skip(1).collect();
    let is_part = |word: &String| PARTS.iter().any(|(name, _)| name == word);
    if !asked.iter().all(is_part) {
        eprintln!("usage: bench [ordinary] [growth] [worst] [size] [stack]");
        return ExitCode::from(2);
    }
    for (name, print) in PARTS {
        if asked.is_empty() || asked.iter().any(|word| word == name) {
            print();
            println!();
        }
    }
    ExitCode::SUCCESS
}
