//! A script of changes, one on a line.

use crate::change::{apply, change_file};
use crate::commands::{commands, Action, Change, Command};
use crate::failure::Failure;
use crate::given::{read, Asked, Given};
use crate::output::note;
use crate::suggest::instead;
use std::ffi::OsString;
use std::io::{self, IsTerminal, Read};
use std::os::unix::ffi::OsStringExt;

/// A change of the script, with its line.
struct Step {
    line: usize,
    command: &'static Command,
    change: Change,
    given: Given,
}

pub fn run(given: &Given) -> Result<(), Failure> {
    let steps = steps(&input()?)?;
    change_file(given, |store| {
        for step in &steps {
            apply(step.command, step.change, store, &step.given).map_err(Failure::at(step.line))?;
        }
        Ok(())
    })
}

/// All that is read from the input, without the mark that some programs put before a text.
pub fn input() -> Result<Vec<u8>, Failure> {
    if io::stdin().is_terminal() {
        note("this reads what you type, up to Ctrl-D at the start of a line");
    }
    let mut bytes = Vec::new();
    let read = io::stdin().lock().read_to_end(&mut bytes);
    read.map_err(|error| Failure::Use(format!("the input cannot be read: {error}")))?;
    let plain = bytes.strip_prefix("\u{feff}".as_bytes());
    Ok(plain.map(<[u8]>::to_vec).unwrap_or(bytes))
}

fn steps(script: &[u8]) -> Result<Vec<Step>, Failure> {
    let lines = (1..).zip(script.split(|byte| *byte == b'\n'));
    let steps = lines.filter_map(|(line, text)| {
        let text = text.strip_suffix(b"\r").unwrap_or(text);
        step(line, text).map_err(Failure::at(line)).transpose()
    });
    steps.collect()
}

/// The change of a line; none where the line says nothing.
fn step(line: usize, text: &[u8]) -> Result<Option<Step>, Failure> {
    let mut words = words(text)
        .map_err(|fault| Failure::Use(fault.to_string()))?
        .into_iter();
    let Some(first) = words.next() else {
        return Ok(None);
    };
    let (command, change) = find(&first.to_string_lossy())?;
    // The file is that of the whole script, so that a word without a flag is one too many.
    let inner = Command {
        operands: &[],
        ..*command
    };
    match read(&inner, words)? {
        Asked::Help => Err(Failure::Use("there is no help within a script".to_string())),
        Asked::Run(given) if given.has("yes") || given.has("dry-run") => Err(Failure::Use(
            "--yes and --dry-run are for the whole script: give them to run".to_string(),
        )),
        Asked::Run(given) => Ok(Some(Step {
            line,
            command,
            change,
            given,
        })),
    }
}

/// The change with this name.
fn find(name: &str) -> Result<(&'static Command, Change), Failure> {
    let changes = commands().filter_map(|command| match command.action {
        Action::Change(change) => Some((command, change)),
        _ => None,
    });
    let changes: Vec<_> = changes.collect();
    let found = changes.iter().find(|(command, _)| command.name == name);
    found.copied().ok_or_else(|| {
        let names: Vec<&str> = changes.iter().map(|(command, _)| command.name).collect();
        Failure::Use(format!("{name} is no change; {}", instead(name, &names)))
    })
}

/// The words of a line, as a shell parts them.
fn words(line: &[u8]) -> Result<Vec<OsString>, &'static str> {
    let mut words = Vec::new();
    let mut rest = line.trim_ascii_start();
    if rest.starts_with(b"#") {
        return Ok(words);
    }
    while !rest.is_empty() {
        let (word, behind) = word(rest)?;
        words.push(OsString::from_vec(word));
        rest = behind.trim_ascii_start();
    }
    Ok(words)
}

/// The first word, and what follows it.
fn word(line: &[u8]) -> Result<(Vec<u8>, &[u8]), &'static str> {
    let mut word = Vec::new();
    let mut quote = None;
    let mut at = 0;
    while let Some(byte) = line.get(at) {
        match (quote, byte) {
            (None, b' ' | b'\t') => return Ok((word, &line[at..])),
            (None, b'\'' | b'"') => quote = Some(*byte),
            (Some(open), close) if open == *close => quote = None,
            (None | Some(b'"'), b'\\') => {
                at += 1;
                word.push(*line.get(at).ok_or("the line ends after a \\")?);
            }
            _ => word.push(*byte),
        }
        at += 1;
    }
    match quote {
        Some(_) => Err("a quote is not closed on the line"),
        None => Ok((word, &[])),
    }
}
