//! How long the library's code is.

use std::path::PathBuf;
use std::process::Command;

const BAR: usize = 96 * 1024;

/// The archive that is linked: see `rust/build.rs`.
fn archive() -> PathBuf {
    let given = std::env::var_os("FORMSTORE_LIB_DIR").map(PathBuf::from);
    let here = concat!(env!("CARGO_MANIFEST_DIR"), "/../target/staticlib");
    given.unwrap_or_else(|| here.into()).join("libformstore.a")
}

/// The text of all members of the archive, constants included, as `size` counts it: the first number of each line but the first.
fn text_length() -> usize {
    let made = Command::new("size").arg(archive()).output();
    let lines = made.expect("binutils' size runs").stdout;
    let lines = String::from_utf8_lossy(&lines).into_owned();
    let lengths = lines.lines().skip(1).filter_map(|line| {
        let word = line.split_whitespace().next()?;
        word.parse::<usize>().ok()
    });
    lengths.sum()
}

pub fn print() {
    let length = text_length();
    assert!(length > 0, "the archive has code");
    let over = if length > BAR { " !" } else { "" };
    println!("Code: {length} bytes of text in libformstore.a{over} (bar {BAR}).");
}
