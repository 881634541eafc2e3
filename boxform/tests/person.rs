//! The tool as a person uses it: the story of clubform, the other changes, and what is said when one is refused.

mod common;

use common::{club, Desk, DTD, RACE};
use std::fs;

#[test]
fn the_story_of_clubform() {
    let desk = club();
    assert_eq!(desk.bytes("club.form").len(), 508);
    assert_eq!(
        desk.done("check club.form"),
        "passes; it is as boxform left it\n"
    );
    let printed = desk.done("print club.form");
    assert_eq!(printed, format!("{DTD}{RACE}"));
    desk.validate(&printed);
}

/// The changes that the story does not make, with what each says.
const OTHER_CHANGES: &[(&str, &str)] = &[
    (
        "add-attribute club.form --owner finisher --name sex --sort implied",
        "attribute finisher.sex is new: #IMPLIED",
    ),
    (
        "set-attribute club.form --element 2 --attribute sex --value f",
        "made 1 attribute: serial 9",
    ),
    (
        "set-attribute club.form --element 2 --attribute finisher.sex --value m",
        "set @sex of finisher 2 from \"f\" to \"m\"",
    ),
    (
        "destroy-attribute-row club.form --element 2 --attribute sex --yes",
        "took 1 attribute: @sex \"m\" of finisher 2",
    ),
    (
        "destroy-attribute club.form --attribute sex",
        "attribute finisher.sex is gone: #IMPLIED",
    ),
    (
        "convert-to-group club.form --owner finisher --place club --count 2 --sort list",
        "definition finisher was (bib,club,time?) and is (bib,(club,time?))",
    ),
    (
        "change-group-quantifier club.form --place finisher/club/.. --quantifier qmark",
        "definition finisher was (bib,(club,time?)) and is (bib,(club,time?)?)",
    ),
    (
        "remove-element club.form --place finisher/time --yes",
        "definition finisher was (bib,(club,time?)?) and is (bib,(club)?)\n  took 1 element, 2 \
         rows in all: time 5",
    ),
    (
        "change-group-quantifier club.form --owner finisher --place 2 --quantifier none --text \
         none",
        "definition finisher was (bib,(club)?) and is (bib,(club))",
    ),
    (
        "flatten-group club.form --owner race --place finisher/2",
        "definition finisher was (bib,(club)) and is (bib,club)",
    ),
    (
        "destroy-definition club.form --definition time",
        "definition time is gone: (#PCDATA)",
    ),
    (
        "destroy-element club.form --element 2 --yes",
        "took 3 elements, 5 rows in all: finisher 2",
    ),
    ("set-text club.form --element 1 --text a", ""),
];

#[test]
fn the_other_changes() {
    let desk = club();
    for (line, said) in OTHER_CHANGES.iter().copied() {
        let done = desk.run(line);
        let wanted = if said.is_empty() {
            String::new()
        } else {
            format!("done\n  {said}\n")
        };
        assert_eq!(done.out, wanted, "{line}: {}", done.err);
    }
    let left = "<!ELEMENT race (finisher*)>\n<!ELEMENT finisher (bib,club)>\n\
                <!ELEMENT bib (#PCDATA)>\n<!ELEMENT club (#PCDATA)>\n<race></race>\n";
    assert_eq!(desk.done("print club.form"), left);
    desk.validate(left);
}

/// Changes that the store of clubform refuses, and what is said.
const REFUSALS: &[(&str, &str)] = &[
    (
        "create-definition club.form --name 9 --kind empty",
        "(2, bad name): --name 9: a name begins with a letter or _, not with 9",
    ),
    (
        "create-definition club.form --name Läufer --kind empty",
        "(2, bad name): --name Läufer: only plain ASCII, no ä",
    ),
    (
        "create-definition club.form --name 'a b' --kind empty",
        "(2, bad name): --name a b: a name has only letters, digits, _, - and ., no blank",
    ),
    (
        "create-definition club.form --name abcdefghijklmnopq --kind empty",
        "(2, bad name): --name abcdefghijklmnopq: it has 17 characters, and at most 16 can be",
    ),
    (
        "create-definition club.form --name '' --kind empty",
        "(2, bad name): --name : it is empty",
    ),
    (
        "create-definition club.form --name xmlTime --kind empty",
        "(2, bad name): --name xmlTime: no new name begins with xml, in either case: XML 1.0 (2.3) \
         reserves those",
    ),
    (
        "add-attribute club.form --owner bib --name XML --sort implied",
        "(2, bad name): --name XML: no new name begins with xml",
    ),
    (
        "set-text club.form --element 3 --text 123456789-123456789-123456789-123",
        "(3, bad value): --text 123456789-123456789-123456789-123: it has 33 characters, and at \
         most 32 can be",
    ),
    (
        "set-text club.form --element 3 --text Müller",
        "(3, bad value): --text Müller: only plain ASCII, no ü",
    ),
    (
        "create-definition club.form --name bib --kind empty",
        "(5, taken): --name bib: a definition of this name is there already",
    ),
    (
        "add-attribute club.form --owner race --name day --sort implied",
        "(5, taken): --name day: it has an attribute of this name already",
    ),
    (
        "destroy-definition club.form --definition 5",
        "(6, unknown): --definition 5: no definition has this index; there are: race, finisher, \
         bib, time, club",
    ),
    (
        "destroy-attribute club.form --attribute 2",
        "(6, unknown): --attribute 2: no attribute has this index; there are: race.day, \
         finisher.unit",
    ),
    (
        "set-attribute club.form --element 2 --attribute race.day --value x",
        "(6, unknown): --attribute race.day: finisher 2 cannot have it; its attributes are: \
         finisher.unit",
    ),
    (
        "destroy-element club.form --element 99",
        "(7, no row): --element 99: no row has had this serial yet; the next is 10",
    ),
    (
        "destroy-element club.form --element 4",
        "(7, no row): --element 4: this is the text \"7\"; give its element, bib 3",
    ),
    (
        "destroy-attribute-row club.form --element 2 --attribute unit",
        "(7, no row): --attribute unit: finisher 2 has no finisher.unit",
    ),
    (
        "add-element club.form --parent 1 --child 5 --definition finisher",
        "(8, no place): --child 5: race 1 has 1 elements in it, so 0 to 1 or end can be",
    ),
    (
        "remove-element club.form --owner race --place 1-1",
        "(8, no place): --place 1-1: 1 is the element finisher* and no group",
    ),
    (
        "remove-element club.form --owner finisher --place 4",
        "(8, no place): --place 4: the model of finisher, (bib,club,time?), has 3 members, so 1 \
         to 3 can be",
    ),
    (
        "flatten-group club.form --place finisher/bib",
        "(8, no place): --place finisher/bib: this is the element bib and no group",
    ),
    (
        "convert-to-group club.form --place finisher/club --count 3 --sort list",
        "(8, no place): --count 3: from place 2 on there are 2 members",
    ),
    (
        "set-text club.form --element 2 --text 7",
        "(9, wrong kind): --element 2: finisher 2 holds elements, no text; those below it that \
         hold one: bib 3, club 7, time 5",
    ),
    (
        "insert-element club.form --owner bib --place 0 --definition club --quantifier star",
        "(9, wrong kind): bib holds a text, so it has no model",
    ),
    (
        "destroy-definition club.form --definition bib",
        "(10, in use): --definition bib: it is in the model of finisher; 'remove-element \
         --place finisher/bib' comes first",
    ),
    (
        "destroy-definition club.form --definition race",
        "(10, in use): --definition race: documents have it at the root: race 1",
    ),
    (
        "insert-element club.form --owner finisher --place 0 --definition time --quantifier star",
        "(10, in use): --definition time: it is in (bib,club,time?) already, at place 3",
    ),
    (
        "insert-element club.form --owner finisher --place 0 --definition race --quantifier star",
        "(11, round): --definition race: finisher stands below it: race > finisher",
    ),
    (
        "insert-element club.form --owner race --place 0 --definition race --quantifier star",
        "(11, round): --definition race: race cannot stand in itself",
    ),
    (
        "change-quantifier club.form --owner finisher --place time --quantifier none",
        "(12, default): --text is missing or empty: it must come now",
    ),
    (
        "add-attribute club.form --owner race --name x --sort required",
        "(12, default): --value is missing or empty: a required attribute",
    ),
    (
        "add-attribute club.form --owner race --name x --sort implied --value y",
        "(12, default): --value y: an implied attribute takes no value",
    ),
    (
        "convert-to-group club.form --owner finisher --place 1 --count 2 --sort choice",
        "(14, grouping): --sort choice: the members stand in a list",
    ),
    (
        "destroy-element club.form --element 3",
        "(15, no match): --element 3: finisher 2 must keep it: (bib,club,time?) would not fit \
         without bib; 'change-quantifier --place finisher/bib --quantifier qmark' lets it be \
         absent",
    ),
    (
        "add-element club.form --parent 2 --child end --definition time",
        "(15, no match): time may come once in (bib,club,time?); in finisher 2 it is there \
         already, time 5",
    ),
    (
        "add-element club.form --parent 2 --child end --definition race",
        "(15, no match): race is not in (bib,club,time?), which is what finisher 2 holds",
    ),
    (
        "add-element club.form --parent 3 --child 0 --definition time",
        "(15, no match): time is not in (#PCDATA)",
    ),
    (
        "set-attribute club.form --element 2 --attribute unit --value h",
        "(15, no match): --value h: the attribute is fixed to \"min\"",
    ),
    (
        "destroy-attribute-row club.form --element 1 --attribute day",
        "(15, no match): --attribute day: it is required, so race 1 keeps it",
    ),
];

#[test]
fn refusals_name_the_argument_and_say_what_now() {
    let desk = club();
    desk.done("add-attribute club.form --owner race --name day --sort required --value '12 May'");
    desk.done("add-attribute club.form --owner finisher --name unit --sort fixed --value min");
    for (line, message) in REFUSALS.iter().copied() {
        desk.fails(line, 1, &format!("refused {message}"));
    }
}

/// Refusals that want a model with a group, (time?|gun), and what is said.
const GROUP_REFUSALS: &[(&str, &str)] = &[
    (
        "change-quantifier club.form --place finisher/time --quantifier none --text -",
        "(13, off spine): --quantifier none: 1 finisher stands in the lists, and the group \
         (time?|gun) at place 3 may be left out, repeated or not chosen in them",
    ),
    (
        "insert-element club.form --place finisher/3-1 --definition race --quantifier none \
         --text x",
        "(11, round)",
    ),
    (
        "remove-element club.form --owner finisher --place 3",
        "(8, no place): --place 3: this is the group (time?|gun) and no element; its members \
         are 3-1 time?, 3-2 gun",
    ),
    (
        "remove-element club.form --place finisher/time",
        "(15, no match): --place finisher/time: 1 finisher stands in the lists and may have \
         chosen it, and (time?|gun) must hold one of its members; 'change-group-quantifier \
         --place finisher/3 --quantifier qmark' lets it be absent",
    ),
    (
        "flatten-group club.form --place finisher/gun/..",
        "(14, grouping): --place finisher/gun/..: this is the group (time?|gun): it has several \
         members and stands in a list of the other sort",
    ),
];

/// The same with (time?|gun)*.
const MANY_REFUSALS: &[(&str, &str)] = &[
    (
        "flatten-group club.form --place finisher/3",
        "(14, grouping): --place finisher/3: this is the group (time?|gun)*: it has the \
         quantifier '*'",
    ),
    (
        "change-group-quantifier club.form --place finisher/3 --quantifier qmark",
        "(13, off spine): --quantifier qmark: 1 finisher stands in the lists, each may have the \
         group many times, and nothing says which to keep",
    ),
];

#[test]
fn refusals_about_groups() {
    let desk = club();
    let refused = |table: &[(&str, &str)]| {
        for (line, message) in table {
            desk.fails(line, 1, &format!("refused {message}"));
        }
    };
    desk.done("destroy-element club.form --element 5 --yes");
    refused(&[(
        "add-element club.form --parent 2 --child 0 --definition time --text x",
        "(15, no match): --child 0: time does not fit there in (bib,club,time?); in finisher 2 \
         it fits as child 2",
    )]);
    desk.done("convert-to-group club.form --place finisher/time --count 1 --sort choice");
    desk.done("create-definition club.form --name gun --kind empty");
    desk.done("insert-element club.form --place finisher/time --definition gun --quantifier none --text x");
    refused(GROUP_REFUSALS);
    desk.done("change-group-quantifier club.form --place finisher/gun/.. --quantifier star");
    refused(MANY_REFUSALS);
    desk.done("remove-element club.form --place finisher/time");
    refused(&[(
        "remove-element club.form --place finisher/gun",
        "(14, grouping): --place finisher/gun: it is the last member of group 3",
    )]);
}

#[test]
fn ceilings_are_told_with_what_is_full() {
    let desk = Desk::new();
    desk.done("new x.form");
    let create: String = (0..64)
        .map(|index| format!("create-definition --name d{index} --kind complex\n"))
        .collect();
    desk.done_with("run x.form", &create);
    desk.fails(
        "create-definition x.form --name e --kind empty",
        1,
        "refused (16, ceiling): the store has 64 definitions already",
    );
    let attributes: String = (0..64)
        .map(|index| format!("add-attribute --owner d0 --name a{index} --sort implied\n"))
        .collect();
    desk.done_with("run x.form", &attributes);
    desk.fails(
        "add-attribute x.form --owner d0 --name b --sort implied",
        1,
        "refused (16, ceiling): the store has 64 attributes already",
    );
    desk.done("insert-element x.form --owner d0 --place 0 --definition d1 --quantifier star");
    for depth in 1..=4 {
        let place = ["1", "1-1", "1-1-1", "1-1-1-1"][depth - 1];
        desk.done(&format!(
            "convert-to-group x.form --owner d0 --place {place} --count 1 --sort list"
        ));
    }
    desk.fails(
        "convert-to-group x.form --owner d0 --place d1 --count 1 --sort list",
        1,
        "refused (16, ceiling): the groups would stand in each other more than 4 deep",
    );
}

/// A form with legs in a team.
const RELAY: &str = "create-definition --name team --kind complex
         create-definition --name legs --kind complex
         create-definition --name leg --kind pcdata
         create-definition --name name --kind pcdata
         create-definition --name gap --kind pcdata
         insert-element --owner team --place 0 --definition name --quantifier none --text -
         insert-element --place team/name --definition legs --quantifier none --text -
         insert-element --place legs/0 --definition leg --quantifier star
         add-document --definition team --text A";

/// Places that are none, and what is said.
const WRONG_PLACES: &[(&str, &str)] = &[
    (
        "remove-element relay.form --place leg",
        "--owner is missing: give the definition whose model it is, or the place as OWNER/PLACE",
    ),
    (
        "remove-element relay.form --owner team --place leg",
        "--place leg: leg is not in the model of team, (name,legs)",
    ),
    (
        "remove-element relay.form --owner name --place legs/leg",
        "--place legs/leg: legs is not in the model of name, (#PCDATA)",
    ),
    (
        "remove-element relay.form --place legs/lge",
        "--place legs/lge: lge is unknown; did you mean leg?",
    ),
    (
        "remove-element relay.form --place lges/leg",
        "--place lges/leg: lges is unknown; did you mean legs?",
    ),
    (
        "flatten-group relay.form --place legs/leg/..",
        "--place legs/leg/..: leg stands in no such group of (leg+,gap?)",
    ),
    (
        "remove-element relay.form --owner 9 --place leg",
        "--owner 9: no definition has this index",
    ),
    (
        "remove-element relay.form --owner legs --place 1-",
        "--place 1-: give a name, or one to five numbers with - between them",
    ),
];

/// A club that groups its relay legs, by names alone.
#[test]
fn places_by_name() {
    let desk = Desk::new();
    desk.done("new relay.form");
    desk.done_with("run relay.form", RELAY);
    desk.done("insert-element relay.form --owner team --place legs/leg --definition gap --quantifier qmark");
    desk.done(
        "change-quantifier relay.form --owner team --place legs/leg --quantifier plus --text \
         0:00",
    );
    assert_eq!(
        desk.done("print relay.form --document 1"),
        "<team><name>A</name><legs><leg>0:00</leg></legs></team>\n"
    );
    for (line, message) in WRONG_PLACES.iter().copied() {
        desk.fails(line, 2, &format!("boxform: {message}"));
    }
}

/// Names may have dots in them.
#[test]
fn an_attribute_that_two_names_could_mean() {
    let desk = Desk::new();
    for line in [
        "new x.form",
        "create-definition x.form --name a --kind empty",
        "create-definition x.form --name a.b --kind empty",
        "add-attribute x.form --owner a --name b.c --sort implied",
        "add-attribute x.form --owner a.b --name c --sort implied",
        "add-attribute x.form --owner a.b --name d --sort implied",
        "add-attribute x.form --owner a --name d --sort implied",
    ] {
        desk.done(line);
    }
    for (line, message) in [
        (
            "destroy-attribute x.form --attribute a.b.c",
            "--attribute a.b.c: it can be a.b.c (index 0) or a.b.c (index 2); give the index",
        ),
        (
            "destroy-attribute x.form --attribute d",
            "--attribute d: it can be a.d (index 1) or a.b.d (index 3); give the index",
        ),
    ] {
        desk.fails(line, 2, &format!("boxform: {message}"));
    }
    desk.done("destroy-attribute x.form --attribute a.b.d");
    desk.done("destroy-attribute x.form --attribute 2");
    desk.done("destroy-attribute x.form --attribute a.b.c");
    desk.done("destroy-attribute x.form --attribute d");
}

/// Bytes of the store of clubform that are changed, and what is said: 5 definitions stand from byte 40, 4 particles
/// from 140, 8 rows from 156.
const DAMAGES: &[(usize, u8, &str)] = &[
    (4, 0, "the next serial is 0"),
    (
        12,
        6,
        "the table of contents is damaged: 4 particles at byte 140",
    ),
    (41, b'9', "the form is damaged: the record of definition 0"),
    (142, 7, "the form is damaged: a model"),
    (
        156 + 2 * 44 + 2,
        4,
        "document 1 does not fit the form: finisher 2, (bib,club,time?)",
    ),
    (
        156 + 3 * 44 + 10,
        7,
        "document 1 does not fit the form: bib 3, (#PCDATA)",
    ),
    (
        156 + 3 * 44 + 4,
        8,
        "the rows' serials are damaged: one stands twice",
    ),
];

#[test]
fn why_a_file_does_not_pass() {
    let desk = club();
    let whole = desk.bytes("club.form");
    let refused = |bytes: Vec<u8>, message: &str| {
        fs::write(desk.path("bad.form"), bytes).unwrap();
        let message = format!("refused (1, bad store): bad.form: {message}");
        for command in ["check", "print", "show", "sum"] {
            desk.fails(&format!("{command} bad.form"), 1, &message);
        }
        desk.fails(
            "destroy-definition bad.form --definition nobody",
            1,
            &message,
        );
    };
    refused(vec![], "the file is empty");
    refused(whole[..30].to_vec(), "cut short at byte 30 of 40 or more");
    refused(whole[..507].to_vec(), "cut short at byte 507 of 508");
    refused(
        [&whole[..], b"x"].concat(),
        "it has 509 bytes, and the store in it ends at byte 508",
    );
    refused(
        vec![1; 1 << 20],
        "this is no form store: it does not begin with version 1",
    );
    refused(
        b"<race></race>".to_vec(),
        "this is a text of XML and no form store",
    );
    for (at, byte, message) in DAMAGES {
        let mut bytes = whole.clone();
        bytes[*at] = *byte;
        refused(bytes, message);
    }
}

/// Words that are wrong use, and what is said.
const WRONG_USE: &[(&str, &str)] = &[
    (
        "club.form show",
        "unknown command club.form; the command comes first: boxform show club.form",
    ),
    (
        "load club.form list.csv --parent 1",
        "list.csv: give one FILE; what it reads comes through its input, after <",
    ),
    ("", "give a command"),
    (
        "paint club.form",
        "unknown command paint; did you mean print?",
    ),
    (
        "xyzzy club.form",
        "unknown command xyzzy; there are: new, read, check, sum, undo, print",
    ),
    ("shwo club.form", "unknown command shwo; did you mean show?"),
    (
        "help set-txt",
        "unknown command set-txt; did you mean set-text?",
    ),
    (
        "check",
        "FILE is missing: give the file with the store\nusage: boxform check FILE",
    ),
    ("check club.form other.form", "other.form: give one FILE"),
    ("check ''", "FILE is missing"),
    ("diff club.form", "give A and B"),
    ("check club.form --force yes", "unknown argument --force"),
    (
        "set-text club.form --elment 3 --text a",
        "unknown argument --elment; did you mean --element?",
    ),
    ("check -v club.form", "unknown argument -v"),
    ("check -- -v", "-v: No such file"),
    ("show club.form --json=yes", "--json takes no value"),
    (
        "set-text club.form --element 3",
        "--text is missing: the new text",
    ),
    (
        "set-text club.form --element 3 --text",
        "--text wants a value: the new text",
    ),
    (
        "set-text club.form --element 3 --text a --text b",
        "--text is given twice",
    ),
    (
        "set-text club.form --element +3 --text a",
        "--element +3: give a number",
    ),
    (
        "set-text club.form --element 4294967296 --text a",
        "--element 4294967296: give a number",
    ),
    (
        "add-element club.form --parent 1 --child last --definition finisher",
        "--child last: give a number from 0, or end",
    ),
    (
        "remove-element club.form --owner race --place 1.1",
        "--place 1.1: give a name, or one to five numbers",
    ),
    (
        "remove-element club.form --owner race --place 1-1-1-1-1-1",
        "--place 1-1-1-1-1-1: give a name, or one to five numbers",
    ),
    (
        "destroy-definition club.form --definition Bib",
        "--definition Bib: unknown; did you mean bib?",
    ),
    (
        "destroy-definition club.form --definition chip",
        "--definition chip: unknown; there are: race, finisher, bib, time, club",
    ),
    (
        "create-definition club.form --name team --kind any",
        "--kind any: unknown; there are: empty, pcdata, complex",
    ),
    (
        "destroy-attribute club.form --attribute race.day",
        "--attribute race.day: unknown; there are: none",
    ),
    (
        "add-attribute club.form --owner race --name day --sort fixed",
        "--sort fixed: give the value with --value; --value '' is the empty one",
    ),
];

#[test]
fn wrong_use() {
    let desk = club();
    for (line, message) in WRONG_USE.iter().copied() {
        desk.fails(line, 2, &format!("boxform: {message}"));
    }
    desk.done("add-attribute club.form --owner race --name day --sort fixed --value ''");
}
