//! `stack [SEED [STORES]]`: the most stack that each call needs, on the worst stores and on so many random ones. It
//! fails where that is over the bound that the header names.

use compare::header;
use compare::marks::Marks;
use std::process::ExitCode;

fn main() -> ExitCode {
    let words: Result<Vec<u64>, _> = std::env::args().skip(1).map(|word| word.parse()).collect();
    let (seed, stores) = match words.as_deref() {
        Ok([]) => (1, 200),
        Ok([seed]) => (*seed, 200),
        Ok([seed, stores]) => (*seed, *stores),
        _ => {
            eprintln!("usage: stack [SEED [STORES]]");
            return ExitCode::from(2);
        }
    };
    let mut marks = Marks::of_worst_stores();
    marks.add_random(seed, stores);
    marks.print();
    let (most, bound) = (marks.most() as u64, header::number("FORMSTORE_STACK"));
    println!("the most is {most} bytes; FORMSTORE_STACK is {bound}");
    ExitCode::from(u8::from(most > bound))
}
