//! A printed text is read into a new file.

mod common;

use common::{club, Desk, DTD, RACE};
use std::fs;

#[test]
fn what_was_printed_is_read() {
    let desk = club();
    fs::write(desk.path("club.txt"), desk.done("print club.form")).unwrap();
    assert_eq!(
        desk.done("read club.txt new.form"),
        "done\n  new.form is new, with 5 definitions, 1 document and 8 rows; its sum is in new.form.sum\n"
    );
    assert_eq!(desk.done("print new.form"), format!("{DTD}{RACE}"));
    assert_eq!(
        desk.done("check new.form"),
        "passes; it is as boxform left it\n"
    );
    assert!(!desk.path("new.form~").exists());
    // Its serials are in document order now: the club was made last and stands before the time.
    assert!(desk.done("show new.form --element 5").contains("club"));
    desk.done("set-text new.form --element 5 --text 'LG Nord'");
    let changed = RACE.replace("none", "LG Nord");
    assert_eq!(desk.done("print new.form"), format!("{DTD}{changed}"));
    let piped = desk.shell("$boxform print new.form | $boxform read /dev/stdin third.form");
    assert_eq!(
        (piped.status, piped.err.as_str()),
        (Some(0), ""),
        "{}",
        piped.out
    );
    assert_eq!(desk.bytes("third.form"), desk.bytes("new.form"));
}

#[test]
fn the_empty_text() {
    let desk = Desk::new();
    fs::write(desk.path("empty.txt"), "").unwrap();
    let said = desk.done("read empty.txt empty.form");
    assert!(
        said.contains("with 0 definitions, 0 documents and 0 rows"),
        "{said}"
    );
    desk.done("new new.form");
    assert_eq!(desk.bytes("empty.form"), desk.bytes("new.form"));
}

/// A text, and what is said of it.
const REFUSED: &[(&str, &str)] = &[
    (
        "<a></a>\n",
        "line 1, <a></a>: no store with this form prints it",
    ),
    (
        "<!ELEMENT a EMPTY>\n<!ELEMENT b (a , c)>\n<!ELEMENT c EMPTY>\n",
        "line 2, <!ELEMENT b (a , c)>: no store with these definitions prints it",
    ),
    (
        "<!ELEMENT b (c)>\n<!ELEMENT c EMPTY>\n<!ATTLIST c i ID #IMPLIED>\n",
        "line 3, <!ATTLIST c i ID #IMPLIED>: no store with these definitions prints it",
    ),
    (
        "<!ELEMENT b (c)>\n<!ELEMENT c EMPTY>\n<!ELEMENT b EMPTY>\n",
        "line 3, <!ELEMENT b EMPTY>: it is no definition, one too many, or its name stands twice",
    ),
    (
        "<!DOCTYPE a [\n<!ELEMENT a EMPTY>\n]>\n<a></a>\n",
        "line 1, <!DOCTYPE a [: it is no definition, one too many, or its name stands twice",
    ),
    (
        "<!ELEMENT a (b?)>\n<!ELEMENT b (a?)>\n",
        "its definitions stand in each other in a circle, or they have too many members or attributes\n",
    ),
    (
        "<!ELEMENT a EMPTY>\n<a></a>\n<a/>\n",
        "line 3, <a/>: no store with this form prints it",
    ),
    (
        "<!ELEMENT a EMPTY>\r\n<a></a>\r\n",
        "line 1, <!ELEMENT a EMPTY>: it ends in CR LF, as on Windows; a printed line ends in LF alone",
    ),
    (
        "<!ELEMENT a EMPTY>\n<a></a>",
        "line 2, <a></a>: it does not end in a line feed",
    ),
    (
        "<!ELEMENT a EMPTY>\n\n<a></a>\n",
        "line 2, : no store with this form prints it",
    ),
];

#[test]
fn a_text_that_no_store_prints() {
    let desk = Desk::new();
    for (text, reason) in REFUSED {
        fs::write(desk.path("club.txt"), text).unwrap();
        let message = format!("refused (19, bad text): club.txt: {reason}");
        desk.fails("read club.txt club.form", 1, &message);
    }
    let rows = "<!ELEMENT a EMPTY>\n".to_string() + &"<a></a>\n".repeat(4097);
    fs::write(desk.path("club.txt"), rows).unwrap();
    let message = "refused (19, bad text): club.txt: its documents have more than 4,096 rows\n";
    desk.fails("read club.txt club.form", 1, message);
}

#[test]
fn files() {
    let desk = club();
    fs::write(desk.path("club.txt"), desk.done("print club.form")).unwrap();
    for (line, status, message) in [
        (
            "read club.txt club.form",
            2,
            "boxform: club.form: the file is there already, and stays as it is",
        ),
        (
            "read absent.txt new.form",
            2,
            "boxform: absent.txt: No such file",
        ),
        ("read . new.form", 2, "boxform: .: Is a directory"),
        ("read club.txt", 2, "boxform: give TEXT and FILE\nusage: "),
        (
            "read club.form new.form",
            1,
            "refused (19, bad text): club.form: this is a form store and no text",
        ),
        (
            "check club.txt",
            1,
            "refused (1, bad store): club.txt: this is a text of XML and no form store; 'boxform read TEXT FILE' makes",
        ),
    ] {
        desk.fails(line, status, message);
    }
    fs::write(desk.path("long.txt"), vec![b'\n'; 2_000_000]).unwrap();
    desk.fails(
        "read long.txt new.form",
        1,
        "refused (19, bad text): long.txt: line 1",
    );
}
