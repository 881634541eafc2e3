//! The words of a command as they were given.

use crate::arguments::Argument;
use crate::commands::{Action, Command};
use crate::failure::Failure;
use crate::suggest::instead;
use formstore::Code;
use std::ffi::{OsStr, OsString};
use std::os::unix::ffi::OsStrExt;
use std::path::PathBuf;

pub struct Given {
    pub operands: Vec<OsString>,
    values: Vec<(&'static str, Vec<u8>)>,
}

/// What the words after a command ask for.
pub enum Asked {
    Help,
    Run(Given),
}

/// Reads the words after the command: its operands, and a value after each flag or behind its `=`. After `--` no word
/// is a flag.
pub fn read(command: &Command, words: impl Iterator<Item = OsString>) -> Result<Asked, Failure> {
    let mut words = words;
    let mut given = Given::made(Vec::new());
    while let Some(word) = words.next() {
        if word == "--help" || word == "-h" {
            return Ok(Asked::Help);
        }
        if word == "--" {
            given.operands.extend(words);
            break;
        }
        match word.as_bytes() {
            [b'-', _, ..] => given.values.push(read_flag(command, &word, &mut words)?),
            _ => given.operands.push(word),
        }
    }
    given.count_operands(command)?;
    given.complete(command)?;
    Ok(Asked::Run(given))
}

/// Wrong use of a command, with its usage.
pub fn wrong(command: &Command, text: &str) -> Failure {
    Failure::Use(format!("{text}\nusage: {}", command.usage()))
}

fn read_flag(
    command: &Command,
    word: &OsStr,
    words: &mut impl Iterator<Item = OsString>,
) -> Result<(&'static str, Vec<u8>), Failure> {
    let bytes = word.as_bytes();
    let end = bytes.iter().position(|byte| *byte == b'=');
    let (name, behind) = match end {
        Some(end) => (&bytes[..end], Some(bytes[end + 1..].to_vec())),
        None => (bytes, None),
    };
    let known = |argument: &&Argument| name.strip_prefix(b"--") == Some(argument.flag.as_bytes());
    let Some(argument) = command.arguments().find(known) else {
        return Err(unknown_flag(command, word));
    };
    if argument.switch() {
        return match behind {
            None => Ok((argument.flag, Vec::new())),
            Some(_) => Err(wrong(
                command,
                &format!("--{} takes no value", argument.flag),
            )),
        };
    }
    let value = behind.or_else(|| words.next().map(|next| next.as_bytes().to_vec()));
    let missing = || {
        wrong(
            command,
            &format!("--{} wants a value: {}", argument.flag, argument.about),
        )
    };
    Ok((argument.flag, value.ok_or_else(missing)?))
}

fn unknown_flag(command: &Command, word: &OsStr) -> Failure {
    let word = word.to_string_lossy();
    let flags: Vec<String> = command
        .arguments()
        .map(|argument| format!("--{}", argument.flag))
        .collect();
    let flags: Vec<&str> = flags.iter().map(String::as_str).collect();
    wrong(
        command,
        &format!("unknown argument {word}; {}", instead(&word, &flags)),
    )
}

impl Given {
    /// As if these values had been given.
    pub fn made(values: Vec<(&'static str, Vec<u8>)>) -> Given {
        Given {
            operands: Vec::new(),
            values,
        }
    }

    fn count_operands(&self, command: &Command) -> Result<(), Failure> {
        let most = command.operands.len();
        let least = command
            .operands
            .iter()
            .filter(|name| !name.starts_with('['))
            .count();
        let empty = self.operands.iter().any(|word| word.is_empty());
        if (least..=most).contains(&self.operands.len()) && !empty {
            return Ok(());
        }
        let text = match (command.operands, self.operands.get(most)) {
            ([], Some(word)) => format!(
                "{}: there is nothing to give to {}",
                word.display(),
                command.name
            ),
            (["FILE"], Some(word)) => {
                let input = match command.action {
                    Action::Run | Action::Load => {
                        "; what it reads comes through its input, after <"
                    }
                    _ => "",
                };
                format!("{}: give one FILE{input}", word.display())
            }
            (["FILE"], None) => "FILE is missing: give the file with the store".to_string(),
            (names, _) => format!("give {}", names.join(" and ")),
        };
        Err(wrong(command, &text))
    }

    /// Every argument at most once, and the needed ones there.
    fn complete(&self, command: &Command) -> Result<(), Failure> {
        for argument in command.arguments() {
            let times = self
                .values
                .iter()
                .filter(|(flag, _)| *flag == argument.flag)
                .count();
            let (flag, about) = (argument.flag, argument.about);
            if times > 1 {
                return Err(wrong(command, &format!("--{flag} is given twice")));
            }
            if times == 0 && argument.needed {
                return Err(wrong(command, &format!("--{flag} is missing: {about}")));
            }
        }
        Ok(())
    }

    /// The file that the command works on.
    pub fn file(&self) -> PathBuf {
        self.operand(0)
    }

    pub fn operand(&self, number: usize) -> PathBuf {
        PathBuf::from(self.operands.get(number).cloned().unwrap_or_default())
    }

    pub fn has(&self, flag: &str) -> bool {
        self.values.iter().any(|(name, _)| *name == flag)
    }

    /// The bytes of a name, value or text; none where the argument was not given.
    pub fn bytes(&self, flag: &str) -> &[u8] {
        let found = self.values.iter().find(|(name, _)| *name == flag);
        found.map_or(&[], |(_, value)| value)
    }

    pub fn text(&self, flag: &str) -> String {
        String::from_utf8_lossy(self.bytes(flag)).into_owned()
    }

    pub fn number(&self, flag: &str) -> Result<u32, Failure> {
        number(&self.text(flag))
            .ok_or_else(|| self.wrong(flag, "give a number from 0 to 4294967295"))
    }

    /// A number that need not be given.
    pub fn number_if_given(&self, flag: &str) -> Result<Option<u32>, Failure> {
        self.has(flag).then(|| self.number(flag)).transpose()
    }

    /// A kind, sort or quantifier, by its word.
    pub fn code<C: Code>(&self, flag: &str) -> Result<C, Failure> {
        let text = self.text(flag);
        let known = C::ALL.iter().find(|case| case.word() == text);
        let words = || C::ALL.iter().map(|case| case.word().to_string()).collect();
        known.copied().ok_or_else(|| self.unknown(flag, words()))
    }

    /// Wrong use of an argument, with what was given.
    pub fn wrong(&self, flag: &str, text: &str) -> Failure {
        Failure::Use(format!("--{flag} {}: {text}", self.text(flag)))
    }

    /// What was given is none of these.
    pub fn unknown(&self, flag: &str, known: Vec<String>) -> Failure {
        self.unknown_part(flag, &self.text(flag), known)
    }

    /// A part of what was given is none of these.
    pub fn unknown_part(&self, flag: &str, part: &str, known: Vec<String>) -> Failure {
        let whole = part == self.text(flag);
        let what = if whole {
            "unknown".to_string()
        } else {
            format!("{part} is unknown")
        };
        let known: Vec<&str> = known.iter().map(String::as_str).collect();
        self.wrong(flag, &format!("{what}; {}", instead(part, &known)))
    }
}

/// The words with commas between them, or none.
pub fn listed(words: &[String]) -> String {
    match words {
        [] => "none".to_string(),
        _ => words.join(", "),
    }
}

/// Digits alone, without a sign.
pub fn number(text: &str) -> Option<u32> {
    let digits = text.bytes().all(|byte| byte.is_ascii_digit());
    text.parse().ok().filter(|_| digits)
}
