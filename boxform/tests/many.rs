//! Many changes at once: scripts and tables, all or nothing.

mod common;

use common::{club, Desk, DTD, RACE, STORY};
use std::time::{Duration, Instant};

/// The story of clubform is a script as well.
#[test]
fn the_story_as_a_script() {
    let desk = Desk::new();
    desk.done("new club.form");
    let lines = STORY[1..]
        .iter()
        .map(|(line, _)| line.replace(" club.form", "") + "\r\n");
    let script: String = ["\u{feff}# the story\r\n\r\n".to_string()]
        .into_iter()
        .chain(lines)
        .collect();
    let said = desk.done_with("run club.form", &script);
    assert!(
        said.ends_with("\n  made 5 elements, 8 rows in all: serials 1 to 8\n"),
        "{said}"
    );
    assert_eq!(desk.done("print club.form"), format!("{DTD}{RACE}"));
    assert!(
        desk.bytes("club.form~").len() == 40,
        "all changes are one to undo"
    );
}

/// The words of a line are parted as a shell parts them.
#[test]
fn quotes_in_a_script() {
    let desk = club();
    for (text, printed) in [
        ("'LG  Nord'", "LG  Nord"),
        ("\"LG 'Nord'\"", "LG 'Nord'"),
        ("LG\\ Nord", "LG Nord"),
        ("\"a\\\"b\\\\\"", "a&quot;b\\"),
        ("'a\\b'", "a\\b"),
        ("a'b c'd", "ab cd"),
        ("''", ""),
        ("#1", "#1"),
    ] {
        desk.done_with(
            "run club.form",
            &format!("\t set-text --element 7 --text {text} "),
        );
        assert!(
            desk.done("print club.form")
                .contains(&format!("<club>{printed}</club>")),
            "{text}"
        );
    }
}

/// Lines that fail, with the status and what is said.
const BAD_LINES: &[(&str, i32, &str)] = &[
    (
        "set-text --element 2 --text 7",
        1,
        "line 3: refused (9, wrong kind): --element 2: finisher 2 holds elements",
    ),
    (
        "set-text --element 3 --text ü",
        1,
        "line 3: refused (3, bad value): --text ü: only plain ASCII, no ü",
    ),
    (
        "set-text --element 3",
        2,
        "boxform: line 3: --text is missing: the new text\nusage: boxform set-text --element SERIAL",
    ),
    (
        "set-text club.form --element 3 --text 8",
        2,
        "boxform: line 3: club.form: there is nothing to give to set-text",
    ),
    (
        "set-txt --element 3 --text 8",
        2,
        "boxform: line 3: set-txt is no change; did you mean set-text?",
    ),
    (
        "show",
        2,
        "boxform: line 3: show is no change; there are: create-definition, ",
    ),
    (
        "set-text --element 3 --text 'a",
        2,
        "boxform: line 3: a quote is not closed on the line",
    ),
    (
        "set-text --element 3 --text \\",
        2,
        "boxform: line 3: the line ends after a \\",
    ),
    (
        "set-text --help",
        2,
        "boxform: line 3: there is no help within a script",
    ),
    (
        "destroy-element --element 2 --yes",
        2,
        "boxform: line 3: --yes and --dry-run are for the whole script",
    ),
];

#[test]
fn a_script_fails_with_its_line_and_changes_nothing() {
    let desk = club();
    for (second, status, message) in BAD_LINES.iter().copied() {
        let script = format!("set-text --element 3 --text 8\n# next\n{second}\n");
        desk.fails_with("run club.form", &script, status, message);
    }
    desk.fails_with(
        "run club.form",
        "destroy-element --element 2",
        1,
        "refused: this would take 4 elements, 7 rows in all",
    );
    assert_eq!(
        desk.done_with("run club.form", "# nothing\n"),
        "done\n  nothing differs\n"
    );
}

/// Rows that come and go within a script are nobody's loss.
#[test]
fn what_a_script_makes_and_takes() {
    let desk = club();
    let script = "add-element --parent 1 --child 0 --definition finisher --text 8\ndestroy-element --element 9\n";
    assert_eq!(
        desk.done_with("run club.form", script),
        "done\n  the next serial was 9 and is 14\n"
    );
}

/// A race without finishers.
const RACE_FORM: &str = "create-definition --name race --kind complex
         create-definition --name finisher --kind complex
         create-definition --name bib --kind pcdata
         create-definition --name name --kind pcdata
         create-definition --name time --kind pcdata
         insert-element --owner race --place 0 --definition finisher --quantifier star
         insert-element --owner finisher --place 0 --definition bib --quantifier none --text -
         insert-element --owner finisher --place bib --definition name --quantifier none --text -
         insert-element --owner finisher --place name --definition time --quantifier none --text -
         add-document --definition race";

/// 500 finishers of a club with bib, name and time.
#[test]
fn five_hundred_finishers() {
    let desk = Desk::new();
    desk.done("new race.form");
    desk.done_with("run race.form", RACE_FORM);
    let table: String = (1..=500)
        .map(|bib| {
            format!(
                "{bib},\"Runner, {bib}\",1:{:02}:{:02}\n",
                bib / 60,
                bib % 60
            )
        })
        .collect();
    let start = Instant::now();
    let said = desk.done_with("load race.form --parent 1 --columns bib,name,time", &table);
    let took = start.elapsed();
    println!("500 finishers in {} ms", took.as_millis());
    // It is well under a second on an idle machine; this one may be busy.
    assert!(took < Duration::from_secs(15), "{took:?}");
    assert_eq!(
        said,
        "done\n  made 2,000 elements, 3,500 rows in all: serials 2 to 3501\n"
    );
    let printed = desk.done("print race.form");
    assert_eq!(printed.matches("<finisher>").count(), 500);
    let first = "<race><finisher><bib>1</bib><name>Runner, 1</name><time>1:00:01</time></finisher>\
                 <finisher><bib>2</bib>";
    assert!(printed.contains(first));
    assert!(printed.ends_with("<name>Runner, 500</name><time>1:08:20</time></finisher></race>\n"));
    desk.validate(&printed);
    let line = "load race.form --parent 1 --columns bib,name,time";
    desk.fails_with(
        line,
        &table,
        1,
        "line 86: refused (16, ceiling): the rows do not suffice: 4,096 of 4,096 are used, 0 \
         are left",
    );
}

/// The lists that a table leaves, below the race of the club.
fn loaded(line: &str, table: &str) -> String {
    let desk = club();
    desk.done("add-attribute club.form --owner finisher --name sex --sort implied");
    desk.done("create-definition club.form --name note --kind pcdata");
    desk.done("insert-element club.form --place finisher/time --definition note --quantifier star");
    desk.done_with(&format!("load club.form --parent 1 {line}"), table);
    let printed = desk.done("print club.form");
    desk.validate(&printed);
    let race = printed.lines().last().unwrap().to_string();
    let old = RACE
        .trim()
        .strip_prefix("<race>")
        .unwrap()
        .strip_suffix("</race>")
        .unwrap();
    race.replace(old, "OLD")
}

#[test]
fn fields_become_what_their_columns_say() {
    for (line, table, race) in [
        // Quotes, separators and quotes within them; the first line names the columns.
        (
            "",
            "bib,club\n8,\"LG \"\"Nord\"\", B\"\n",
            "OLD<finisher><bib>8</bib><club>LG &quot;Nord&quot;, B</club></finisher>",
        ),
        // Columns in any order, optional elements where they stand in the model, an empty field leaves one out.
        (
            "--columns note,time,bib,club",
            "x,1:00,8,a\n,,9,b\ny,,,c\r\n",
            "OLD<finisher><bib>8</bib><club>a</club><time>1:00</time><note>x</note></finisher>\
             <finisher><bib>9</bib><club>b</club></finisher>\
             <finisher><bib></bib><club>c</club><note>y</note></finisher>",
        ),
        // What no column is for is empty; an attribute; another separator; nothing on a line.
        (
            "--columns @sex,bib --separator ;",
            "f;8\n\n;9",
            "OLD<finisher \
             sex=\"f\"><bib>8</bib><club></club></finisher><finisher><bib>9</bib><club></club></finisher>",
        ),
        // Before those that stand, in the order of the table.
        (
            "--columns club,bib --child 0",
            "a,1\nb,2\n",
            "<finisher><bib>1</bib><club>a</club></finisher><finisher><bib>2</bib><club>b</club></finisher>OLD",
        ),
        ("--columns bib --child end", "", "OLD"),
    ] {
        assert_eq!(loaded(line, table), format!("<race>{race}</race>"), "{line}");
    }
}

/// A list of texts: the children are the column itself.
#[test]
fn a_column_of_its_own() {
    let desk = club();
    desk.done("insert-element club.form --place race/finisher --definition club --quantifier star");
    desk.done_with(
        "load club.form --parent 1 --definition club --columns club",
        "a\nb\n",
    );
    assert!(desk
        .done("print club.form")
        .ends_with("</finisher><club>a</club><club>b</club></race>\n"));
}

/// Arguments and tables that fail, with the status and what is said.
const BAD_TABLES: &[(&str, &str, i32, &str)] = &[
    (
        "--columns bib,club,bib",
        "8,a,9\n",
        2,
        "boxform: column bib: it stands twice",
    ),
    (
        "--columns bib,@unit",
        "8,\n9,h\n",
        1,
        "line 2: refused (15, no match): --value h: the attribute is fixed to \"min\"",
    ),
    (
        "--columns bib,club",
        "8,a\n9\n",
        2,
        "boxform: line 2: it has 1 fields, and there are 2 columns: bib,club",
    ),
    (
        "--columns bib,club",
        "8,a\n\n9,Köln\n",
        1,
        "line 3: refused (3, bad value): club Köln: only plain ASCII, no ö",
    ),
    (
        "--columns bib,club",
        "8,\"a\nb\"\n",
        1,
        "line 1: refused (3, bad value): club a\nb: only plain ASCII, no line break",
    ),
    (
        "--columns bib,club",
        "8,\"a\"b\n",
        2,
        "boxform: line 1: after the closing quote of a field comes the separator",
    ),
    (
        "--columns bib,club",
        "7,x\n8,\"a\n",
        2,
        "boxform: line 2: a quote is not closed",
    ),
    (
        "--columns bib,club",
        "bib,club\n8,a\n",
        2,
        "boxform: --columns bib,club: line 1 of the table names the columns itself",
    ),
    (
        "--columns bib,team",
        "8,a\n",
        2,
        "boxform: give --definition: of what race can hold (finisher), not one alone has the \
         columns bib,team",
    ),
    (
        "--columns bib,team --definition finisher",
        "8,a\n",
        2,
        "boxform: column team: finisher has none, it is (bib,club,time?)",
    ),
    (
        "--columns bib --definition walker",
        "8\n",
        2,
        "boxform: column bib: walker has none, it is EMPTY",
    ),
    (
        "--columns bib --child 7",
        "8\n",
        1,
        "line 1: refused (8, no place): --child 7: race 1 has 1 elements in it",
    ),
    (
        "--columns bib --separator ab",
        "8\n",
        2,
        "boxform: --separator ab: give one character of plain ASCII",
    ),
    (
        "--columns club --definition club",
        "8\n",
        1,
        "line 1: refused (15, no match): club is not in (finisher*)",
    ),
];

#[test]
fn a_table_fails_with_its_line_and_changes_nothing() {
    let desk = club();
    desk.done("create-definition club.form --name walker --kind complex");
    desk.done("add-attribute club.form --owner finisher --name unit --sort fixed --value min");
    for (line, table, status, message) in BAD_TABLES.iter().copied() {
        desk.fails_with(
            &format!("load club.form --parent 1 {line}"),
            table,
            status,
            message,
        );
    }
    desk.fails_with(
        "load club.form --parent 99 --columns bib",
        "8\n",
        1,
        "refused (7, no row): --parent 99: no element has this serial",
    );
    desk.fails_with(
        "load club.form --columns bib",
        "8\n",
        2,
        "boxform: --parent is missing",
    );
}
