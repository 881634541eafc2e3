//! What `--help` prints.

use crate::arguments::Argument;
use crate::commands::{Command, SECTIONS};

const WIDTH: usize = 100;

pub const VERSION: &str = concat!("boxform ", env!("CARGO_PKG_VERSION"));

pub const ABOUT: &str =
    "Works on the form store of a timing box that stands in FILE: a DTD, and the finish lists \
     under it.";

/// What holds for all commands, by subject. The man page has it too.
pub const NOTES: [(&str, &str); 4] = [
    (
        "Changes",
        "Every change says what it did: what it changed in the form, and the rows that it made, took and set. One that \
         takes rows asks first at a terminal; elsewhere \
         it is refused without --yes. --dry-run says what would be done and writes nothing. A refusal has its number \
         in the store's table of refusals, and leaves the \
         file as it was.",
    ),
    (
        "Files",
        "A file is never written in place: a new one is written beside it, brought to the disk and then takes its \
         name, so that a crash leaves the old one or the new \
         one, whole. The file before the last change stays as FILE~, and 'undo' brings it back. FILE.sum has the sums \
         of both, as sha256sum writes and checks \
         them; a file that no longer fits its sum is told, and only 'show' and 'diff' still read it. A file without \
         FILE.sum is read all the same, and gets one with its first change. \
         Owner, group and mode stay (access lists and extended attributes do not); a read-only file is refused. Where \
         FILE is a symbolic link, the file behind it is changed; where it has other names (hard \
         links), those keep the store as it was, which is told. A name may have 251 bytes. While boxform changes a \
         file, its folder is locked for other boxforms, \
         which wait and say so.",
    ),
    (
        "Words",
        "A word that begins with - is an argument; after -- none is. A value stands behind its argument or behind =, \
         as in --text=-. Definitions and attributes \
         go by name or index, elements by serial, members of a model by name or place; 'show' has all these numbers.",
    ),
    ("Exit status", "0 done, 1 refused (the file is as it was), 2 wrong use or file error."),
];

/// The help of the whole tool.
pub fn overview() -> String {
    let mut text = format!("boxform COMMAND FILE [--ARGUMENT VALUE]..\n\n{ABOUT}\n");
    for section in &SECTIONS {
        text += &format!("\n{}\n", section.title);
        for command in section.commands {
            text += &hung(command.name, command.about, 26);
        }
    }
    for (title, note) in NOTES {
        text += &format!("\n{title}\n{}", wrapped(note, 2));
    }
    text + "\n'boxform help COMMAND' tells of one command; 'boxform --version' says which boxform this is.\n"
}

impl Command {
    pub fn usage(&self) -> String {
        let mut text = format!("boxform {}", self.name);
        for operand in self.operands {
            text += &format!(" {operand}");
        }
        for argument in self.arguments() {
            let words = argument.usage();
            text += &if argument.needed {
                format!(" {words}")
            } else {
                format!(" [{words}]")
            };
        }
        text
    }

    pub fn help(&self) -> String {
        let mut text = format!("{}\n\n{}", self.usage(), wrapped(self.about, 0));
        if !self.more.is_empty() {
            text += &format!("\n{}", wrapped(self.more, 0));
        }
        let arguments: Vec<&Argument> = self.arguments().collect();
        if !arguments.is_empty() {
            text.push('\n');
        }
        for argument in arguments {
            text += &hung(&argument.usage(), argument.about, 28);
        }
        let (title, status) = NOTES[NOTES.len() - 1];
        match self.more.contains(title) {
            true => text,
            false => text + &format!("\n{}", wrapped(&format!("{title}: {status}"), 0)),
        }
    }
}

/// A word, and beside it what it is.
fn hung(word: &str, about: &str, indent: usize) -> String {
    let text = wrapped(about, indent);
    format!("  {word:width$}{}", &text[indent..], width = indent - 2)
}

/// The text on lines that are not too long, each behind so many blanks.
fn wrapped(text: &str, indent: usize) -> String {
    let mut lines = vec![String::new()];
    for word in text.split_whitespace() {
        let last = lines.len() - 1;
        if !lines[last].is_empty() && indent + lines[last].len() + 1 + word.len() > WIDTH {
            lines.push(word.to_string());
        } else {
            let between = if lines[last].is_empty() { "" } else { " " };
            lines[last] += &format!("{between}{word}");
        }
    }
    lines
        .iter()
        .map(|line| format!("{:indent$}{line}\n", ""))
        .collect()
}
