//! How a change is made in a file: it says what it does, and asks before rows go.

use crate::commands::{Change, Command};
use crate::compare::{Difference, DONE, WOULD};
use crate::explain::explain;
use crate::failure::Failure;
use crate::file::{passing, Held};
use crate::given::Given;
use crate::output::{put, tell};
use formstore::Store;
use std::io::{self, IsTerminal, Write};
use std::path::Path;

/// Makes one change in a store. A refusal says why in this case.
pub fn apply(
    command: &Command,
    change: Change,
    store: &mut Store,
    given: &Given,
) -> Result<(), Failure> {
    change(store, given).map_err(|failure| match failure {
        Failure::Refused(refusal, _) => {
            Failure::Refused(refusal, explain(command.name, given, store, refusal))
        }
        other => other,
    })
}

/// Makes changes in the file, all or none, and tells what they did.
pub fn change_file(
    given: &Given,
    edit: impl Fn(&mut Store) -> Result<(), Failure>,
) -> Result<(), Failure> {
    let path = given.file();
    let mut held = Held::of(&path)?;
    let before = held.read()?;
    let mut after = before.clone();
    edit(&mut after)?;
    let difference = Difference::between(&before, &after);
    if given.has("dry-run") {
        return dry(&difference);
    }
    if difference.takes() && !given.has("yes") {
        // Others need not wait for the answer.
        drop(held);
        ask(&difference)?;
        held = Held::of(&path)?;
        unchanged(&path, held.read()? == before)?;
    }
    write(&held, before.as_bytes(), &after)?;
    tell(&format!("done\n{}", difference.summary(&DONE)));
    Ok(())
}

/// Where nothing differs nothing is written, so that FILE~ stays the store before the last change.
fn write(held: &Held, before: &[u8], after: &Store) -> Result<(), Failure> {
    match before == after.as_bytes() {
        true => Ok(()),
        false => held.replace(before, after.as_bytes()),
    }
}

fn dry(difference: &Difference) -> Result<(), Failure> {
    put(format!("nothing is written\n{}", difference.summary(&WOULD)).as_bytes())
}

fn unchanged(path: &Path, same: bool) -> Result<(), Failure> {
    let text = || {
        format!(
            "{} was changed by another boxform meanwhile; nothing was done, try again",
            path.display()
        )
    };
    same.then_some(()).ok_or_else(|| Failure::Held(text()))
}

/// Asks the person at the terminal whether rows may go. Where nobody can be asked, they may not.
fn ask(difference: &Difference) -> Result<(), Failure> {
    if !(io::stdin().is_terminal() && io::stderr().is_terminal()) {
        let text = format!(
            "this would take {}; give --yes to do it, or --dry-run to see all that it does",
            difference.loss()
        );
        return Err(Failure::Held(text));
    }
    let mut answer = String::new();
    let asked = write!(
        io::stderr(),
        "{}Do it? (yes or no) ",
        difference.summary(&WOULD)
    );
    asked
        .and_then(|()| io::stdin().read_line(&mut answer))
        .map_err(|error| Failure::Use(format!("nobody could be asked: {error}")))?;
    match answer.trim() {
        "yes" | "y" => Ok(()),
        _ => Err(Failure::Held("not done; the file is as it was".to_string())),
    }
}

/// Brings back the store before the last change. The file itself may be damaged.
pub fn undo(given: &Given) -> Result<(), Failure> {
    let path = given.file();
    let held = Held::of(&path)?;
    let now = held.bytes()?;
    let back = held.before()?;
    if now == back.as_bytes() {
        return Err(Failure::Held(format!(
            "there is nothing to take back: {0} and {0}~ are the same",
            path.display()
        )));
    }
    let difference = passing(&path, now.clone()).map(|now| Difference::between(&now, &back));
    match &difference {
        Ok(difference) if given.has("dry-run") => return dry(difference),
        Err(_) if given.has("dry-run") => {
            return put(
                b"nothing is written\n  would bring back a store that passes, in \
                  the place of one that does not\n",
            )
        }
        _ => held.replace(&now, back.as_bytes())?,
    }
    let said = difference.map_or(
        "  a store that passes is in the place of one that does not\n".to_string(),
        |difference| difference.summary(&DONE),
    );
    tell(&format!(
        "done: {0} is as it was before the last change; {0}~ has what was taken back\n{said}",
        path.display()
    ));
    Ok(())
}
