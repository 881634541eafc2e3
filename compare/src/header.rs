//! The numbers that `include/formstore.h` names.

const HEADER: &str = include_str!("../../include/formstore.h");

/// The number that the header gives to a name, as a macro or as a case of an enum.
pub fn number(name: &str) -> u64 {
    let found = HEADER.lines().find_map(|line| value(line, name));
    found.unwrap_or_else(|| panic!("the header names no number {name}"))
}

fn value(line: &str, name: &str) -> Option<u64> {
    let line = line.trim_start();
    let rest = line.strip_prefix("#define ").unwrap_or(line);
    let rest = rest.strip_prefix(name)?.strip_prefix(' ')?;
    let digits = rest.trim_start_matches(['=', ' ']);
    let end = digits.find(|letter: char| !letter.is_ascii_digit());
    digits[..end.unwrap_or(digits.len())].parse().ok()
}

/// The names of the calls that the header declares, in its order.
pub fn calls() -> Vec<&'static str> {
    let declared = |line: &&str| line.starts_with("struct ") || line.starts_with("uint32_t ");
    let declarations = HEADER.lines().filter(declared);
    let names = declarations.filter_map(|line| line.split_once('(')?.0.rsplit(' ').next());
    names
        .filter_map(|name| name.strip_prefix("formstore_"))
        .collect()
}
