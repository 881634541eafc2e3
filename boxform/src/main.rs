//! `boxform`: the form store of a timing box in a file, for the crew and for club secretaries. `boxform --help` says
//! how it is used.

mod arguments;
mod change;
mod commands;
mod compare;
mod completions;
mod csv;
mod damage;
mod explain;
mod failure;
mod file;
mod form;
mod given;
mod help;
mod json;
mod lists;
mod load;
mod man;
mod names;
mod output;
mod print;
mod script;
mod sha256;
mod show;
mod suggest;
mod sum;
mod text;

use change::{apply, change_file, undo};
use commands::{commands, Action, Command};
use compare::{Difference, DIFFERS};
use failure::Failure;
use formstore::Store;
use given::{Asked, Given};
use output::{note, put, tell};
use std::ffi::OsString;
use std::io::Write;
use std::path::Path;
use std::process::ExitCode;
use sum::Sum;

fn main() -> ExitCode {
    let Err(failure) = run(std::env::args_os().skip(1)) else {
        return ExitCode::SUCCESS;
    };
    let text = failure.to_string();
    if !text.is_empty() {
        // Where the errors cannot be written, the status still tells.
        let _ = writeln!(std::io::stderr(), "{text}");
    }
    ExitCode::from(failure.status())
}

/// Does what the words say.
fn run(words: impl Iterator<Item = OsString>) -> Result<(), Failure> {
    let mut words = words;
    let Some(first) = words.next() else {
        let text = format!("give a command\n\n{}", help::overview());
        return Err(Failure::Use(text));
    };
    if first == "--help" || first == "-h" {
        return put(help::overview().as_bytes());
    }
    if first == "--version" || first == "-V" {
        return put(format!("{}\n", help::VERSION).as_bytes());
    }
    let words: Vec<OsString> = words.collect();
    let command = find(&first.to_string_lossy(), words.first())?;
    match given::read(command, words.into_iter())? {
        Asked::Help => put(command.help().as_bytes()),
        Asked::Run(given) => act(command, &given),
    }
}

/// The command of this name. Where the next word is one, the two were swapped.
fn find(name: &str, next: Option<&OsString>) -> Result<&'static Command, Failure> {
    let named = |name: &str| commands().find(|command| command.name == name);
    let swapped = next.and_then(|next| named(&next.to_string_lossy()));
    named(name).ok_or_else(|| {
        let names: Vec<&str> = commands().map(|command| command.name).collect();
        let instead = match swapped {
            Some(command) => format!("the command comes first: boxform {} {name}", command.name),
            None => suggest::instead(name, &names),
        };
        Failure::Use(format!("unknown command {name}; {instead}"))
    })
}

fn act(command: &Command, given: &Given) -> Result<(), Failure> {
    let path = &given.file();
    match command.action {
        Action::New => create(path),
        Action::Read => text::read(given),
        Action::Check => check(path),
        Action::Sum => take_sum(path),
        Action::Undo => undo(given),
        Action::Print => put(&print::print(&file::read(path)?, given)?),
        Action::Show => put(show::show(&look(path)?, given)?.as_bytes()),
        Action::Diff => diff(path, &given.operand(1)),
        Action::Change(change) => change_file(given, |store| apply(command, change, store, given)),
        Action::Run => script::run(given),
        Action::Load => load::load(given),
        Action::Help => tell_of(given),
        Action::Man => put(man::page().as_bytes()),
        Action::Completions => put(completions::bash().as_bytes()),
    }
}

fn create(path: &Path) -> Result<(), Failure> {
    file::create(path, &Store::fresh())?;
    let name = path.display();
    tell(&format!(
        "done\n  {name} is new, with nothing in it; its sum is in {name}.sum\n"
    ));
    Ok(())
}

fn check(path: &Path) -> Result<(), Failure> {
    let (_, sum) = file::look(path)?;
    match sum {
        Sum::Fits => put(b"passes; it is as boxform left it\n"),
        Sum::None => put(b"passes; it has no sum yet\n"),
        Sum::Differs => Err(Failure::Held(format!(
            "it passes, but {}",
            file::differs(path)
        ))),
    }
}

fn take_sum(path: &Path) -> Result<(), Failure> {
    let held = file::Held::of(path)?;
    let store = file::passing(path, held.bytes()?)?;
    held.sum(store.as_bytes())?;
    tell(&format!(
        "done\n  {0}.sum has the sum of {0} as it is\n",
        path.display()
    ));
    Ok(())
}

/// The store in a file that a person wants to see, though it may not be as it was left.
fn look(path: &Path) -> Result<Store, Failure> {
    let (store, sum) = file::look(path)?;
    if sum == Sum::Differs {
        note(&file::differs(path));
    }
    Ok(store)
}

fn diff(one: &Path, other: &Path) -> Result<(), Failure> {
    let (one, other) = (look(one)?, look(other)?);
    if one == other {
        return put(b"nothing differs\n");
    }
    let difference = Difference::between(&one, &other);
    put((difference.summary(&DIFFERS) + &difference.rows()).as_bytes())?;
    Err(Failure::Differ)
}

fn tell_of(given: &Given) -> Result<(), Failure> {
    match given.operands.first() {
        None => put(help::overview().as_bytes()),
        Some(name) => put(find(&name.to_string_lossy(), None)?.help().as_bytes()),
    }
}
