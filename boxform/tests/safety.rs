//! Nothing goes quietly, and what was done can be taken back.

mod common;

use common::{club, Desk, Done, BOXFORM};
use std::fs;
use std::io::{Read, Write};
use std::process::Stdio;

/// Runs a line of the shell at a terminal, does something when the question has come, and types the answer.
fn at_a_terminal(desk: &Desk, line: &str, meanwhile: impl FnOnce(), answer: &str) -> Done {
    let mut command = desk.command("script", &["-qec", line, "/dev/null"]);
    command.stdin(Stdio::piped()).stdout(Stdio::piped());
    let mut child = command.env("boxform", BOXFORM).spawn().unwrap();
    let mut screen = child.stdout.take().unwrap();
    let mut shown = Vec::new();
    let mut byte = [0];
    while !shown.ends_with(b"(yes or no) ") && screen.read(&mut byte).unwrap() > 0 {
        shown.extend(byte);
    }
    meanwhile();
    let mut keys = child.stdin.take().unwrap();
    keys.write_all(answer.as_bytes()).unwrap();
    screen.read_to_end(&mut shown).unwrap();
    let status = child.wait().unwrap().code();
    let (out, err) = (String::from_utf8(shown).unwrap(), String::new());
    Done { status, out, err }
}

/// The club's file with 580 finishers more.
fn full_club() -> Desk {
    let desk = club();
    let lines: String = (0..580)
        .map(|bib| format!("{bib},-,1:{:02}\n", bib % 60))
        .collect();
    let said = desk.done_with("load club.form --parent 1 --columns bib,club,time", &lines);
    assert_eq!(
        said,
        "done\n  made 2,320 elements, 4,060 rows in all: serials 9 to 4068\n"
    );
    desk
}

#[test]
fn a_change_that_takes_rows_wants_a_yes() {
    let desk = full_club();
    let line = "remove-element club.form --place finisher/time";
    desk.fails(
        line,
        1,
        "refused: this would take 581 elements, 1,162 rows in all; give --yes to do it, or \
         --dry-run to see all that it does\n",
    );
    let files = desk.files();
    assert_eq!(
        desk.done(&format!("{line} --dry-run")),
        "nothing is written\n  definition finisher was (bib,club,time?) and is (bib,club)\n  \
         would take 581 elements, 1,162 rows in all\n"
    );
    assert!(files == desk.files());
    assert_eq!(
        desk.done(&format!("{line} --yes")),
        "done\n  definition finisher was (bib,club,time?) and is (bib,club)\n  took 581 elements, 1,162 rows in all\n"
    );
    let done = desk.done("destroy-element club.form --element 1 --yes");
    assert_eq!(
        done,
        "done\n  took 1,744 elements, 2,906 rows in all: race 1\n"
    );
}

#[test]
fn a_person_at_a_terminal_is_asked() {
    let desk = club();
    let before = desk.files();
    let line = "$boxform destroy-element club.form --element 2";
    let asked = "would take 4 elements, 7 rows in all: finisher 2\r\nDo it? (yes or no) ";
    let no = at_a_terminal(&desk, line, || {}, "no\n");
    assert_eq!(no.status, Some(1));
    assert!(no.out.contains(asked), "{}", no.out);
    assert!(
        no.out.contains("refused: not done; the file is as it was"),
        "{}",
        no.out
    );
    assert!(before == desk.files());
    let yes = at_a_terminal(&desk, line, || {}, "yes\n");
    assert_eq!(yes.status, Some(0), "{}", yes.out);
    assert!(yes.out.contains(asked), "{}", yes.out);
    assert!(
        yes.out
            .contains("took 4 elements, 7 rows in all: finisher 2"),
        "{}",
        yes.out
    );
}

/// A change by another boxform while the person thinks: it need not wait, and the person is told.
#[test]
fn the_file_changes_while_a_person_thinks() {
    let desk = club();
    let other = || {
        desk.done("set-text club.form --element 3 --text 8");
    };
    let line = "$boxform destroy-element club.form --element 2";
    let done = at_a_terminal(&desk, line, other, "yes\n");
    assert_eq!(done.status, Some(1), "{}", done.out);
    assert!(
        done.out
            .contains("was changed by another boxform meanwhile; nothing was done"),
        "{}",
        done.out
    );
    assert!(desk.done("print club.form").contains("<bib>8</bib>"));
}

/// Every change has a dry run.
#[test]
fn every_change_has_a_dry_run() {
    let desk = club();
    desk.done("add-attribute club.form --owner finisher --name sex --sort implied");
    desk.done("set-attribute club.form --element 2 --attribute sex --value f");
    let files = desk.files();
    for line in [
        "create-definition club.form --name x --kind empty",
        "insert-element club.form --place race/0 --definition club --quantifier star",
        "remove-element club.form --place finisher/club",
        "change-quantifier club.form --place finisher/club --quantifier star",
        "convert-to-group club.form --place finisher/club --count 1 --sort list",
        "add-attribute club.form --owner race --name x --sort implied",
        "destroy-attribute club.form --attribute sex",
        "add-document club.form --definition race",
        "add-element club.form --parent 1 --child end --definition finisher",
        "destroy-element club.form --element 2",
        "set-attribute club.form --element 2 --attribute sex --value m",
        "destroy-attribute-row club.form --element 2 --attribute sex",
        "set-text club.form --element 3 --text 8",
        "undo club.form",
    ] {
        let said = desk.done(&format!("{line} --dry-run"));
        assert!(said.starts_with("nothing is written\n  "), "{line}: {said}");
        assert!(!said.contains("nothing differs"), "{line}: {said}");
        assert!(files == desk.files(), "{line}");
    }
    let told = |line, input| desk.done_with(line, input);
    assert!(
        told("load club.form --parent 1 --dry-run", "bib,club\n1,a\n")
            .contains("would make 3 elements")
    );
    assert!(
        told("run club.form --dry-run", "destroy-element --element 2\n")
            .contains("would take 4 elements")
    );
    assert!(files == desk.files());
}

/// A change after which nothing differs leaves the files alone, so that undo still takes back the one before.
#[test]
fn a_change_that_changes_nothing() {
    let desk = club();
    let files = desk.files();
    assert_eq!(
        desk.done("set-text club.form --element 3 --text 7"),
        "done\n  nothing differs\n"
    );
    assert!(files == desk.files());
}

#[test]
fn undo_takes_back_the_last_change_and_itself() {
    let desk = club();
    let before = desk.bytes("club.form");
    desk.done("destroy-element club.form --element 2 --yes");
    let after = desk.bytes("club.form");
    assert!(desk.bytes("club.form~") == before);
    assert_eq!(
        desk.done("undo club.form"),
        "done: club.form is as it was before the last change; club.form~ has what was taken back\n  \
         made 4 elements, 7 rows in all: serials 2 to 8\n"
    );
    assert!(desk.bytes("club.form") == before && desk.bytes("club.form~") == after);
    desk.done("undo club.form");
    assert!(desk.bytes("club.form") == after && desk.bytes("club.form~") == before);
    assert_eq!(
        desk.done("check club.form"),
        "passes; it is as boxform left it\n"
    );
    assert_eq!(desk.names(), ["club.form", "club.form.sum", "club.form~"]);
}

#[test]
fn undo_where_there_is_nothing() {
    let desk = Desk::new();
    desk.done("new x.form");
    desk.fails(
        "undo x.form",
        1,
        "refused: there is nothing to take back: x.form~ is not there\n",
    );
    fs::copy(desk.path("x.form"), desk.path("x.form~")).unwrap();
    desk.fails(
        "undo x.form",
        1,
        "refused: there is nothing to take back: x.form and x.form~ are the same",
    );
    fs::write(desk.path("x.form~"), b"damaged").unwrap();
    desk.fails(
        "undo x.form",
        1,
        "refused: x.form~ is not as boxform left it",
    );
    fs::remove_file(desk.path("x.form.sum")).unwrap();
    desk.fails(
        "undo x.form",
        1,
        "refused (1, bad store): x.form~: this is no form store",
    );
}

/// The way back from a damaged file is told, and goes.
#[test]
fn undo_brings_back_a_store_from_damage() {
    let desk = club();
    let before = desk.bytes("club.form~");
    for damaged in [&b""[..], b"<race/>", &[1; 300_000]] {
        fs::write(desk.path("club.form"), damaged).unwrap();
        let done = desk.run("print club.form");
        assert_eq!(done.status, Some(1));
        assert!(
            done.err
                .contains("; 'boxform undo club.form' brings back the store before"),
            "{}",
            done.err
        );
        assert!(desk
            .done("undo club.form --dry-run")
            .contains("would bring back a store that passes"));
        assert!(desk
            .done("undo club.form")
            .contains("a store that passes is in the place of one that does not"));
        assert!(desk.bytes("club.form") == before);
        fs::write(desk.path("club.form~"), &before).unwrap();
        desk.done("sum club.form");
    }
}

/// Bits all over the file are flipped, one at a time. Some give another store that passes; the sum tells all of them.
#[test]
fn every_flipped_bit_is_told() {
    let desk = club();
    let whole = desk.bytes("club.form");
    let (mut by_check, mut by_sum) = (0, 0);
    for bit in (0..whole.len() * 8).step_by(11) {
        let mut bytes = whole.clone();
        bytes[bit / 8] ^= 1 << (bit % 8);
        fs::write(desk.path("club.form"), bytes).unwrap();
        let done = desk.run("check club.form");
        assert_eq!((done.status, done.out.as_str()), (Some(1), ""), "bit {bit}");
        match done.err.starts_with("refused (1, bad store): club.form: ") {
            true => by_check += 1,
            false => {
                assert!(
                    done.err
                        .starts_with("refused: it passes, but club.form is not as boxform left it"),
                    "{}",
                    done.err
                );
                by_sum += 1;
            }
        }
    }
    assert!(by_check > 50 && by_sum > 5, "{by_check} {by_sum}");
    println!(
        "of {} flipped bits the check told {by_check}, the sum alone {by_sum}",
        by_check + by_sum
    );
}

/// A time that has become another: only show and diff still read it, and a person decides.
#[test]
fn a_file_that_is_not_as_it_was_left() {
    let desk = club();
    fs::copy(desk.path("club.form"), desk.path("copy.form")).unwrap();
    let mut bytes = desk.bytes("club.form");
    let at = bytes.windows(5).position(|part| part == b"19:04").unwrap();
    bytes[at] = b'3';
    fs::write(desk.path("club.form"), bytes).unwrap();
    let text = "club.form is not as boxform left it, by its sum in club.form.sum";
    for line in [
        "check club.form",
        "print club.form",
        "set-text club.form --element 3 --text 8",
        "destroy-element club.form --element 2 --yes",
    ] {
        let done = desk.run(line);
        assert_eq!((done.status, done.out.as_str()), (Some(1), ""), "{line}");
        assert!(done.err.contains(text), "{line}: {}", done.err);
    }
    for (line, status) in [("show club.form", 0), ("diff copy.form club.form", 1)] {
        let done = desk.run(line);
        assert_eq!(done.status, Some(status), "{line}");
        assert!(
            done.err.starts_with(&format!("boxform: {text}")),
            "{line}: {}",
            done.err
        );
        assert!(done.out.contains("\"39:04\""), "{line}: {}", done.out);
    }
    assert_eq!(
        desk.done("sum club.form"),
        "done\n  club.form.sum has the sum of club.form as it is\n"
    );
    assert!(desk.done("print club.form").contains("39:04"));
}

/// The sums are those of sha256sum, which checks them too.
#[test]
fn sha256sum_reads_the_sums() {
    let desk = club();
    let done = desk.shell("sha256sum -c club.form.sum");
    assert_eq!(
        (done.status, done.out.as_str()),
        (Some(0), "club.form: OK\nclub.form~: OK\n")
    );
    for name in ["a b", "a\\b", "line\nbreak"] {
        let made = Done::from(desk.command(BOXFORM, &["new", name]).output().unwrap());
        assert_eq!(made.status, Some(0));
        let done = Done::from(
            desk.command("sha256sum", &["-c", &format!("{name}.sum")])
                .output()
                .unwrap(),
        );
        assert_eq!(done.status, Some(0), "{}", done.err);
    }
    // A file of each length around the blocks of the sum.
    for length in (50..70).chain(110..130) {
        fs::write(desk.path("x"), vec![1; length]).unwrap();
        fs::copy(desk.path("club.form"), desk.path("y")).unwrap();
        fs::copy(desk.path("x"), desk.path("y~")).unwrap();
        desk.done("sum y");
        let done = desk.shell("sha256sum -c y.sum");
        assert_eq!(done.status, Some(0), "{length}: {}", done.err);
    }
}

/// A file that came from elsewhere has no sum; it gets one with its first change.
#[test]
fn a_file_without_a_sum() {
    let desk = club();
    fs::copy(desk.path("club.form"), desk.path("copy.form")).unwrap();
    assert_eq!(desk.done("check copy.form"), "passes; it has no sum yet\n");
    desk.done("set-text copy.form --element 3 --text 8");
    assert_eq!(
        desk.done("check copy.form"),
        "passes; it is as boxform left it\n"
    );
}

/// A store and its sums can be renamed together, and the store before can be copied back by hand.
#[test]
fn renamed_and_restored_by_hand() {
    let desk = club();
    for (from, to) in [
        ("club.form", "b.form"),
        ("club.form.sum", "b.form.sum"),
        ("club.form~", "b.form~"),
    ] {
        fs::rename(desk.path(from), desk.path(to)).unwrap();
    }
    assert_eq!(
        desk.done("check b.form"),
        "passes; it is as boxform left it\n"
    );
    fs::copy(desk.path("b.form~"), desk.path("b.form")).unwrap();
    assert_eq!(
        desk.done("check b.form"),
        "passes; it is as boxform left it\n"
    );
}
