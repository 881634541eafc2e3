//! `vectors FILE..` runs files of vectors and prints each difference.

use second::testing::vectors::{run, run_text};
use std::process::ExitCode;

fn main() -> ExitCode {
    let files: Vec<String> = std::env::args().skip(1).collect();
    if files.is_empty() {
        eprintln!("usage: vectors FILE..");
        return ExitCode::from(2);
    }
    let (mut passed, mut failed) = (0, 0);
    for file in files {
        let text = match std::fs::read_to_string(&file) {
            Ok(text) => text,
            Err(error) => {
                println!("{file}: {error}");
                failed += 1;
                continue;
            }
        };
        let report = run_text(&text, run);
        for (line, difference) in &report.differences {
            println!("{file}:{line}: {difference}");
        }
        passed += report.passed;
        failed += report.differences.len();
    }
    println!("{passed} passed, {failed} failed");
    ExitCode::from(u8::from(failed != 0))
}
