//! What is shown: show, print and diff.

mod common;

use common::{club, Desk, Done, RACE};
use std::process::Stdio;

const SHOWN: &str = r#"definitions 5 of 64, 59 left
members of models 5 of 256, 251 left
attributes 3 of 64, 61 left
rows 11 of 4,096, 4,085 left
next serial 12

index  place  definitions, what they hold, and their attributes
    0         race (finisher*)
           1    finisher*
    0           @day #REQUIRED, fill "12 \"May\""
    1         finisher (bib,(club,time?))
           1    bib
           2    (club,time?)
         2-1      club
         2-2      time?
    1           @sex #IMPLIED
    2           @unit #FIXED "a\\b"
    2         bib (#PCDATA)
    3         time (#PCDATA)
    4         club (#PCDATA)

serial  child  row
     1         race  document 1
     9           @day="12 \"May\""
     2      0    finisher
    10             @sex="f"
    11             @unit="a\\b"
     3      0      bib
     4               "7"
     7      1      club
     8               "none"
     5      2      time
     6               "19:04"
"#;

/// The club's file with attributes, quotes in values and a group.
fn dressed() -> Desk {
    let desk = club();
    desk.done_with(
        "run club.form",
        r#"
        add-attribute --owner race --name day --sort required --value '12 "May"'
        add-attribute --owner finisher --name sex --sort implied
        add-attribute --owner 1 --name unit --sort=fixed --value=a\\b
        set-attribute --element 2 --attribute finisher.sex --value f
        set-attribute --element 2 --attribute 2 --value a\\b
        convert-to-group --place finisher/club --count 2 --sort list
        "#,
    );
    desk
}

#[test]
fn show_tells_all_numbers() {
    let desk = dressed();
    assert_eq!(desk.done("show club.form"), SHOWN);
    desk.validate(&desk.done("print club.form"));
}

#[test]
fn show_one_document_or_element() {
    let desk = dressed();
    desk.done("add-document club.form --definition bib --text 9");
    assert_eq!(
        desk.done("show club.form --document 2"),
        "serial  child  row\n    12         bib  document 2\n    13           \"9\"\n"
    );
    assert_eq!(
        desk.done("show club.form --element 5"),
        "serial  child  row\n     5      2      time\n     6               \"19:04\"\n"
    );
    for (line, message) in [
        (
            "show club.form --document 3",
            "--document 3: there are documents 1 to 2",
        ),
        (
            "show club.form --document 0",
            "--document 0: there are documents 1 to 2",
        ),
        (
            "show club.form --element 6",
            "--element 6: no element has this serial",
        ),
        (
            "show club.form --element 1 --document 1",
            "give --document or --element, not both",
        ),
    ] {
        desk.fails(line, 2, &format!("boxform: {message}"));
    }
}

const JSON: &str = concat!(
    r#"{"next_serial":12,"rows_used":11,"rows_left":4085,"definitions":["#,
    r#"{"index":0,"name":"race","kind":"complex","content":"(finisher*)","#,
    r#""places":[{"place":"1","element":"finisher","quantifier":"star"}],"#,
    r#""attributes":[{"index":0,"name":"day","sort":"required","value":"12 \"May\""}]},"#,
    r#"{"index":1,"name":"finisher","kind":"complex","content":"(bib,(club,time?))","#,
    r#""places":[{"place":"1","element":"bib","quantifier":"none"},"#,
    r#"{"place":"2","group":"list","quantifier":"none"},"#,
    r#"{"place":"2-1","element":"club","quantifier":"none"},"#,
    r#"{"place":"2-2","element":"time","quantifier":"qmark"}],"#,
    r#""attributes":[{"index":1,"name":"sex","sort":"implied","value":""},"#,
    r#"{"index":2,"name":"unit","sort":"fixed","value":"a\\b"}]},"#,
    r#"{"index":2,"name":"bib","kind":"pcdata","content":"(#PCDATA)","places":[],"attributes":[]},"#,
    r#"{"index":3,"name":"time","kind":"pcdata","content":"(#PCDATA)","places":[],"attributes":[]},"#,
    r#"{"index":4,"name":"club","kind":"pcdata","content":"(#PCDATA)","places":[],"attributes":[]}],"#,
    r#""documents":[{"serial":1,"name":"race","#,
    r#""attributes":[{"serial":9,"name":"day","value":"12 \"May\""}],"children":["#,
    r#"{"serial":2,"name":"finisher","attributes":[{"serial":10,"name":"sex","value":"f"},"#,
    r#"{"serial":11,"name":"unit","value":"a\\b"}],"children":["#,
    r#"{"serial":3,"name":"bib","attributes":[],"text":{"serial":4,"value":"7"}},"#,
    r#"{"serial":7,"name":"club","attributes":[],"text":{"serial":8,"value":"none"}},"#,
    r#"{"serial":5,"name":"time","attributes":[],"text":{"serial":6,"value":"19:04"}}]}]}]}"#,
    "\n"
);

#[test]
fn show_as_json() {
    let desk = dressed();
    assert_eq!(desk.done("show club.form --json"), JSON);
    let one = desk.done("show club.form --json --element 5");
    let element = r#""elements":[{"serial":5,"name":"time","attributes":[],"text":{"serial":6,"value":"19:04"}}]}"#;
    assert!(one.ends_with(&format!("{element}\n")), "{one}");
    desk.done("add-document club.form --definition bib --text 9");
    let second = desk.done("show club.form --json --document 2");
    let document = r#""documents":[{"serial":12,"name":"bib","attributes":[],"text":{"serial":13,"value":"9"}}]}"#;
    assert!(second.ends_with(&format!("{document}\n")), "{second}");
}

/// A whole document goes straight into xmllint.
#[test]
fn print_a_whole_document() {
    let desk = dressed();
    assert!(desk
        .done("print club.form")
        .contains("<!ELEMENT race (finisher*)>"));
    desk.done("add-document club.form --definition bib --text '<9>'");
    for (number, root) in [(1, "race"), (2, "bib")] {
        let line = format!("print club.form --document {number} --doctype");
        assert!(desk.done(&line).starts_with(&format!(
            "<!DOCTYPE {root} [\n<!ELEMENT race (finisher*)>\n"
        )));
        let done = desk.shell(&format!("$boxform {line} | xmllint --noout --valid -"));
        assert_eq!((done.status, done.err.as_str()), (Some(0), ""));
    }
    assert_eq!(
        desk.done("print club.form --document 2"),
        "<bib>&lt;9&gt;</bib>\n"
    );
    for (line, message) in [
        (
            "print club.form --doctype",
            "--doctype: give --document too; there are 2 documents",
        ),
        (
            "print club.form --document 3",
            "--document 3: there are documents 1 to 2",
        ),
    ] {
        desk.fails(line, 2, &format!("boxform: {message}"));
    }
}

/// A #FIXED attribute that a document does not have is supplied by who reads the DTD, as the help says.
#[test]
fn absent_fixed_attributes_are_supplied_by_readers() {
    let desk = club();
    desk.done("add-attribute club.form --owner race --name unit --sort fixed --value min");
    assert_eq!(desk.done("print club.form --document 1"), RACE);
    let read = desk.shell("$boxform print club.form --doctype | xmllint --valid --dtdattr -");
    assert!(read.out.contains("<race unit=\"min\">"), "{}", read.out);
    assert!(desk
        .done("help print")
        .replace('\n', " ")
        .contains("supplied by every reader of the DTD"));
}

/// A store can come through a pipe.
#[test]
fn a_pipe_is_read() {
    let desk = club();
    let done = desk.shell("cat club.form | $boxform print /dev/stdin --document 1");
    assert_eq!((done.status, done.out.as_str()), (Some(0), RACE));
}

const CHANGES: &str = "
    remove-element --place finisher/time
    destroy-definition --definition time
    create-definition --name team --kind empty
    add-attribute --owner race --name day --sort required --value 1
    set-text --element 7 --text 'LG \"Nord\"'
    change-quantifier --place race/finisher --quantifier plus --text -
    add-element --parent 1 --child end --definition finisher --text 8
";

const DIFFERENCE: &str = r#"  definition race was (finisher*) and is (finisher+)
  definition finisher was (bib,club,time?) and is (bib,club)
  definition time is gone: (#PCDATA)
  definition team is new: EMPTY
  attribute race.day is new: #REQUIRED, fill "1"
  only the first has 1 element, 2 rows in all: time 5
  only the second has 3 elements, 6 rows in all: serials 9 to 14
  both have, with another value, club 7 from "none" to "LG \"Nord\""
-      5  time in finisher 2
-      6  text in time 5 "19:04"
!      8  text in club 7 "none" is now "LG \"Nord\""
+      9  @day in race 1 "1"
+     10  finisher in race 1
+     11  bib in finisher 10
+     12  text in bib 11 "8"
+     13  club in finisher 10
+     14  text in club 13 "8"
"#;

#[test]
fn diff_says_what_differs_by_serial() {
    let desk = club();
    std::fs::copy(desk.path("club.form"), desk.path("old.form")).unwrap();
    assert_eq!(desk.done("diff old.form club.form"), "nothing differs\n");
    desk.done_with("run club.form --yes", CHANGES);
    let done = desk.run("diff old.form club.form");
    assert_eq!((done.status, done.err.as_str()), (Some(1), ""));
    assert_eq!(done.out, DIFFERENCE);
    let back = desk.run("diff club.form old.form").out;
    assert!(
        back.contains("  the next serial was 15 and is 9\n"),
        "{back}"
    );
}

/// Files that never were one store can differ in ways that no change makes.
#[test]
fn diff_of_strangers() {
    let desk = Desk::new();
    for (file, kind) in [("c", "complex"), ("e", "empty")] {
        desk.done(&format!("new {file}"));
        desk.done(&format!("create-definition {file} --name x --kind {kind}"));
    }
    let out = "  definition x was EMPTY (complex, no members yet) and is EMPTY\n";
    assert_eq!(desk.run("diff c e").out, out);
    for (file, names) in [("a", ["x", "y"]), ("b", ["y", "x"])] {
        desk.done(&format!("new {file}"));
        for name in names {
            desk.done(&format!(
                "create-definition {file} --name {name} --kind empty"
            ));
        }
        desk.done(&format!("add-document {file} --definition x"));
    }
    let done = desk.run("diff a b");
    assert_eq!(
        done.out,
        "  the definitions that are in both stand in another order\n"
    );
    desk.done("add-document a --definition x");
    desk.done("destroy-element a --element 2 --yes");
    assert_eq!(
        desk.run("diff b a").out.lines().count(),
        2,
        "the next serial differs"
    );
    for file in ["a", "b"] {
        desk.done(&format!("add-document {file} --definition y"));
    }
    desk.done("destroy-element b --element 1 --yes");
    let out = desk.run("diff b a").out;
    assert!(
        out.contains("-      2  y\n") && out.contains("+      1  x\n"),
        "{out}"
    );
    assert_eq!(desk.run("diff a nowhere").status, Some(2));
}

#[test]
fn what_cannot_be_printed_is_an_error() {
    let desk = club();
    let full = "No space left on device (os error 28)";
    for (to, why) in [(">/dev/full", full), (">&-", "the output is closed")] {
        for line in [
            "print club.form",
            "show club.form",
            "help",
            "diff club.form club.form",
        ] {
            let done = desk.shell(&format!("$boxform {line} {to}"));
            assert_eq!(done.status, Some(2), "{line} {to}");
            let message = format!("boxform: the output cannot be written: {why}\n");
            assert_eq!(done.err, message, "{line} {to}");
        }
    }
    let done = desk.shell("$boxform check club.form 2>&-");
    assert_eq!(
        (done.status, done.out.as_str()),
        (Some(0), "passes; it is as boxform left it\n")
    );
}

/// The status says that it is done, so that nobody does it again.
#[test]
fn a_change_is_done_though_it_cannot_be_told() {
    let desk = club();
    for (to, text) in [(">/dev/full", "8"), (">&-", "9")] {
        let line = format!("$boxform set-text club.form --element 3 --text {text} {to}");
        let done = desk.shell(&line);
        assert_eq!(done.status, Some(0));
        let message = "boxform: it is done, but what was done cannot be told: ";
        assert!(done.err.starts_with(message), "{}", done.err);
        let printed = desk.done("print club.form");
        assert!(printed.contains(&format!("<bib>{text}</bib>")));
    }
}

#[test]
fn the_reader_of_a_pipe_has_gone() {
    let desk = club();
    let (reader, writer) = std::io::pipe().unwrap();
    drop(reader);
    let mut command = desk.boxform("print club.form");
    let done = Done::from(
        command
            .stdout(writer)
            .stderr(Stdio::piped())
            .output()
            .unwrap(),
    );
    assert_eq!(done.status, Some(2));
    assert_eq!(
        done.err,
        "boxform: the output cannot be written: Broken pipe (os error 32)\n"
    );
}
