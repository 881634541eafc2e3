//! Why a command was not done, and the exit status that says so.

use formstore::Refusal;
use std::fmt;
use std::io;
use std::path::{Path, PathBuf};

pub enum Failure {
    /// The library refused, and why in this case.
    Refused(Refusal, String),
    /// The tool itself refuses: rows would go, or the file is not as it was left.
    Held(String),
    /// The words of the command are wrong.
    Use(String),
    /// A file cannot be read or written.
    File(PathBuf, io::Error),
    /// The output cannot be written.
    Output(io::Error),
    /// It happened at this line of what was read.
    Line(usize, Box<Failure>),
    /// Two stores differ, which was told.
    Differ,
}

impl Failure {
    /// 1 refused or different, 2 wrong use or file error.
    pub fn status(&self) -> u8 {
        match self {
            Failure::Refused(..) | Failure::Held(_) | Failure::Differ => 1,
            Failure::Line(_, failure) => failure.status(),
            _ => 2,
        }
    }

    /// Names the file of an error.
    pub fn of(path: &Path) -> impl Fn(io::Error) -> Failure + '_ {
        |error| Failure::File(path.to_path_buf(), error)
    }

    /// Names the line of a failure.
    pub fn at(line: usize) -> impl Fn(Failure) -> Failure {
        move |failure| Failure::Line(line, Box::new(failure))
    }
}

impl From<Refusal> for Failure {
    fn from(refusal: Refusal) -> Failure {
        Failure::Refused(refusal, refusal.reason().to_string())
    }
}

impl fmt::Display for Failure {
    fn fmt(&self, out: &mut fmt::Formatter<'_>) -> fmt::Result {
        match self {
            Failure::Refused(refusal, reason) => {
                write!(
                    out,
                    "refused ({}, {}): {reason}",
                    refusal.number(),
                    refusal.word()
                )
            }
            Failure::Held(text) => write!(out, "refused: {text}"),
            Failure::Use(text) => write!(out, "boxform: {text}"),
            Failure::File(path, error) => write!(out, "boxform: {}: {error}", path.display()),
            Failure::Output(error) => write!(out, "boxform: the output cannot be written: {error}"),
            Failure::Line(line, failure) => match &**failure {
                Failure::Use(text) => write!(out, "boxform: line {line}: {text}"),
                failure => write!(out, "line {line}: {failure}"),
            },
            Failure::Differ => Ok(()),
        }
    }
}
