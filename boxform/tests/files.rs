//! Files: what stays, what is refused, and who waits.

mod common;

use common::{club, Desk};
use std::fs::{self, File, Permissions};
use std::io::{BufRead, BufReader};
use std::os::unix::fs::{chown, symlink, MetadataExt, PermissionsExt};
use std::process::Stdio;

const FILE_ERRORS: &[(&str, &str)] = &[
    ("check absent.form", "absent.form: No such file"),
    (
        "set-text absent.form --element 3 --text a",
        "absent.form: No such file",
    ),
    ("check .", ".: Is a directory"),
    (
        "set-text folder --element 3 --text a",
        "folder: this is no file with a store",
    ),
    (
        "new club.form",
        "club.form: the file is there already, and stays as it is",
    ),
    (
        "new folder",
        "folder: the file is there already, and stays as it is",
    ),
    ("new nowhere/club.form", "nowhere/club.form: No such file"),
    ("undo absent.form", "absent.form: No such file"),
    ("sum absent.form", "absent.form: No such file"),
    ("diff club.form absent.form", "absent.form: No such file"),
];

#[test]
fn file_errors() {
    let desk = club();
    fs::create_dir(desk.path("folder")).unwrap();
    for (line, message) in FILE_ERRORS.iter().copied() {
        desk.fails(line, 2, &format!("boxform: {message}"));
    }
    fs::remove_file(desk.path("club.form")).unwrap();
    let before = "the store before, club.form~, is there and can be copied\n";
    for line in ["check club.form", "undo club.form"] {
        desk.fails(
            line,
            2,
            &format!("boxform: club.form: No such file or directory (os error 2); {before}"),
        );
    }
    symlink("nobody", desk.path("dangling")).unwrap();
    desk.fails(
        "new dangling",
        2,
        "boxform: dangling: the file is there already, and stays as it is",
    );
}

/// Folders where FILE~ or FILE.sum should be.
#[test]
fn what_stands_beside_is_in_the_way() {
    let desk = Desk::new();
    desk.done("new x.form");
    let line = "create-definition x.form --name a --kind empty";
    fs::create_dir(desk.path("x.form~")).unwrap();
    let message = "boxform: x.form: x.form~: Is a directory (os error 21); the file is as it was\n";
    desk.fails(line, 2, message);
    fs::remove_dir(desk.path("x.form~")).unwrap();
    fs::remove_file(desk.path("x.form.sum")).unwrap();
    fs::create_dir(desk.path("x.form.sum")).unwrap();
    for line in [line, "check x.form"] {
        let message = "boxform: x.form: its .sum cannot be read: Is a directory (os error 21)\n";
        desk.fails(line, 2, message);
    }
}

/// Root may write any file, so that this is told by the mode.
#[test]
fn a_read_only_file_is_refused() {
    let desk = club();
    fs::set_permissions(desk.path("club.form"), Permissions::from_mode(0o444)).unwrap();
    for line in [
        "set-text club.form --element 3 --text 8",
        "destroy-element club.form --element 2 --yes",
        "undo club.form",
        "sum club.form",
    ] {
        desk.fails(
            line,
            2,
            "boxform: club.form: the file is read-only, so it stays as it is",
        );
    }
    desk.done("print club.form");
    desk.fails(
        "set-text /proc/version --element 3 --text 8",
        2,
        "boxform: /proc/version: ",
    );
}

#[test]
fn owner_group_and_mode_stay() {
    let desk = club();
    fs::set_permissions(desk.path("club.form"), Permissions::from_mode(0o640)).unwrap();
    let owned = chown(desk.path("club.form"), Some(12), Some(34)).is_ok();
    if !owned {
        println!("owner and group not tried: only root can give a file away");
    }
    let before = fs::metadata(desk.path("club.form")).unwrap();
    desk.done("set-text club.form --element 3 --text 8");
    desk.done("undo club.form");
    for name in desk.names() {
        let after = fs::metadata(desk.path(&name)).unwrap();
        assert_eq!(
            (after.mode(), after.uid(), after.gid()),
            (before.mode(), before.uid(), before.gid()),
            "{name}"
        );
    }
}

/// A file of another person in a folder where both may write: its owner could not be kept, so it stays.
#[test]
fn the_file_of_another_stays() {
    let desk = club();
    let all = Permissions::from_mode(0o777);
    fs::set_permissions(&desk.folder, all).unwrap();
    fs::set_permissions(desk.path("club.form"), Permissions::from_mode(0o666)).unwrap();
    let line = "cp $boxform tool && chmod 755 tool && \
                su nobody -s /bin/sh -c './tool set-text club.form --element 3 --text 8'";
    if desk.shell("su nobody -s /bin/sh -c true").status != Some(0) {
        println!("not tried: only root can work for another person");
        return;
    }
    let before = desk.bytes("club.form");
    let done = desk.shell(line);
    let message = "boxform: club.form: the new file could not be given to the owner and group of the old one: ";
    assert!(done.err.starts_with(message), "{}", done.err);
    assert!(desk.bytes("club.form") == before);
    assert_eq!(
        desk.names(),
        ["club.form", "club.form.sum", "club.form~", "tool"]
    );
}

/// A symbolic link stays one; other names of the file (hard links) keep the store as it was, and that is told.
#[test]
fn links() {
    let desk = club();
    symlink("club.form", desk.path("link")).unwrap();
    desk.done("set-text link --element 3 --text 8");
    assert!(desk.path("link").is_symlink());
    assert_eq!(
        desk.names(),
        ["club.form", "club.form.sum", "club.form~", "link"]
    );
    assert!(desk.done("print club.form").contains("<bib>8</bib>"));
    fs::hard_link(desk.path("club.form"), desk.path("other.form")).unwrap();
    let done = desk.run("set-text club.form --element 3 --text 9");
    assert_eq!(done.status, Some(0));
    assert_eq!(
        done.err,
        "boxform: club.form has other names (hard links), which keep the store as it was\n"
    );
    assert!(desk.done("print club.form").contains("<bib>9</bib>"));
    assert!(desk.done("print other.form").contains("<bib>8</bib>"));
    desk.done("set-text club.form --element 3 --text 10");
}

#[test]
fn long_names() {
    let desk = Desk::new();
    let (long, longer, longest) = ("n".repeat(251), "n".repeat(252), "n".repeat(255));
    desk.done(&format!("new {long}"));
    desk.done(&format!("create-definition {long} --name a --kind empty"));
    desk.done(&format!("undo {long}"));
    for name in [&longer, &longest] {
        let length = name.len();
        let message = format!(
            "boxform: {name}: the name has {length} bytes; with .sum behind it, at most 251 can be\n"
        );
        desk.fails(&format!("new {name}"), 2, &message);
        fs::copy(desk.path(&long), desk.path(name)).unwrap();
        desk.fails(
            &format!("create-definition {name} --name a --kind empty"),
            2,
            &message,
        );
        assert_eq!(
            desk.done(&format!("check {name}")),
            "passes; it has no sum yet\n"
        );
    }
}

/// A name that is no UTF-8 is a name all the same.
#[test]
fn names_of_any_bytes() {
    let desk = Desk::new();
    let line =
        "name=$(printf 'L\\344ufer') && $boxform new \"$name\" && $boxform check \"$name\" && \
                sha256sum --status -c \"$name.sum\"";
    let done = desk.shell(line);
    assert_eq!(done.status, Some(0), "{}", done.err);
    assert!(
        done.out.ends_with("passes; it is as boxform left it\n"),
        "{}",
        done.out
    );
}

/// A boxform that must wait says so, and goes on when the other is done. Reading waits for nobody.
#[test]
fn waiting_is_told() {
    let desk = club();
    let folder = File::open(&desk.folder).unwrap();
    folder.lock().unwrap();
    desk.done("print club.form");
    let mut command = desk.boxform("set-text club.form --element 3 --text 8");
    let mut child = command
        .stdout(Stdio::null())
        .stderr(Stdio::piped())
        .spawn()
        .unwrap();
    let mut line = String::new();
    BufReader::new(child.stderr.take().unwrap())
        .read_line(&mut line)
        .unwrap();
    assert!(
        line.starts_with("boxform: waiting for another boxform that works in "),
        "{line}"
    );
    assert!(child.try_wait().unwrap().is_none(), "it waits");
    folder.unlock().unwrap();
    assert!(child.wait().unwrap().success());
    assert!(desk.done("print club.form").contains("<bib>8</bib>"));
}
