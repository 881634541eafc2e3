//! The examples of the source (Article.dtd and its sample document, `id` as
//! CDATA REQUIRED), with the outcomes that paper 01 gives them.

use second::testing::play::Play;
use second::*;

const NONE: u32 = 0;
const QMARK: u32 = 1;
const STAR: u32 = 2;
const PLUS: u32 = 3;
const LIST: u32 = 1;

const ARTICLE: u32 = 0;
const TITLE: u32 = 1;
const AUTHOR: u32 = 2;
const NAME: u32 = 3;
const FIRST: u32 = 4;
const LAST: u32 = 5;
const RELATED: u32 = 6;
const MONOGRAPH: u32 = 7;
const EDITOR: u32 = 8;
const MIDDLE: u32 = 9;

const DOCUMENT: &str = "<article><title>XML Evolution Manager</title>\
<author id=\"dk\"><name><first>Diane</first><last>Kramer</last></name></author>\
<author id=\"er\"><name><first>Elke</first><last>Rundensteiner</last></name></author>\
<related><monograph><title>Modern Database Systems</title>\
<editor name=\"Won Kim\"></editor></monograph></related></article>";

/// The form of Article.dtd.
fn article_form() -> Play {
    let mut play = Play { bytes: fresh() };
    let definitions = [
        ("article", 2),
        ("title", 1),
        ("author", 2),
        ("name", 2),
        ("first", 1),
        ("last", 1),
        ("related", 2),
        ("monograph", 2),
        ("editor", 0),
    ];
    for (name, kind) in definitions {
        play.accept(|s, o| create_definition(s, name.as_bytes(), kind, o));
    }
    let members = [
        (ARTICLE, 0, TITLE, NONE),
        (ARTICLE, 1, AUTHOR, PLUS),
        (ARTICLE, 2, RELATED, QMARK),
        (AUTHOR, 0, NAME, NONE),
        (NAME, 0, FIRST, NONE),
        (NAME, 1, LAST, NONE),
        (RELATED, 0, MONOGRAPH, NONE),
        (MONOGRAPH, 0, TITLE, NONE),
        (MONOGRAPH, 1, EDITOR, NONE),
    ];
    for (owner, place, member, quantifier) in members {
        play.accept(|s, o| insert_element(s, owner, &[place], member, quantifier, b"-", o));
    }
    play.accept(|s, o| convert_to_group(s, RELATED, &[1], 1, LIST, o));
    play.accept(|s, o| change_group_quantifier(s, RELATED, &[1], STAR, b"", o));
    play.accept(|s, o| add_attribute(s, AUTHOR, b"id", 1, b"-", o));
    play.accept(|s, o| add_attribute(s, EDITOR, b"name", 0, b"", o));
    play
}

/// The serials of the element rows of a name, in document order.
fn serials(play: &Play, name: &str) -> Vec<u32> {
    let mut rows = rows(&play.bytes).expect("it passes");
    rows.retain(|row| row.sort == RowSort::Element && row.name.as_deref() == Some(name.as_bytes()));
    rows.iter().map(|row| row.serial).collect()
}

fn article() -> Play {
    let mut play = article_form();
    play.accept(|s, o| add_document(s, ARTICLE, b"", o));
    let root = serials(&play, "article")[0];
    play.accept(|s, o| add_element(s, root, 2, AUTHOR, b"", o));
    play.accept(|s, o| add_element(s, root, 3, RELATED, b"", o));
    let related = serials(&play, "related")[0];
    play.accept(|s, o| add_element(s, related, 0, MONOGRAPH, b"", o));
    let texts = [
        ("title", 0, "XML Evolution Manager"),
        ("title", 1, "Modern Database Systems"),
        ("first", 0, "Diane"),
        ("first", 1, "Elke"),
        ("last", 0, "Kramer"),
        ("last", 1, "Rundensteiner"),
    ];
    for (name, number, text) in texts {
        let serial = serials(&play, name)[number];
        play.accept(|s, o| set_text(s, serial, text.as_bytes(), o));
    }
    for (number, id) in ["dk", "er"].iter().enumerate() {
        let author = serials(&play, "author")[number];
        play.accept(|s, o| set_attribute(s, author, 0, id.as_bytes(), o));
    }
    let editor = serials(&play, "editor")[0];
    play.accept(|s, o| set_attribute(s, editor, 1, b"Won Kim", o));
    play
}

fn row_count(play: &Play) -> usize {
    rows(&play.bytes).expect("it passes").len()
}

#[test]
fn sample_document() {
    let play = article();
    assert_eq!(play.line("<article"), DOCUMENT);
    let declared = "<!ELEMENT article (title,author+,related?)>
<!ELEMENT title (#PCDATA)>
<!ELEMENT author (name)>
<!ATTLIST author id CDATA #REQUIRED>
<!ELEMENT name (first,last)>
<!ELEMENT first (#PCDATA)>
<!ELEMENT last (#PCDATA)>
<!ELEMENT related ((monograph)*)>
<!ELEMENT monograph (title,editor)>
<!ELEMENT editor EMPTY>
<!ATTLIST editor name CDATA #IMPLIED>
";
    assert!(play.text().starts_with(declared));
}

#[test]
fn example_1_and_2() {
    let mut play = article();
    let before = play.bytes.clone();
    play.accept(|s, o| create_definition(s, b"middle", 0, o));
    play.accept(|s, o| destroy_definition(s, MIDDLE, o));
    assert!(play.bytes == before);
}

#[test]
fn example_3_13_and_14() {
    let mut play = article();
    play.accept(|s, o| create_definition(s, b"middle", 1, o));
    play.accept(|s, o| insert_element(s, NAME, &[1], MIDDLE, QMARK, b"", o));
    let line = play.line("<!ELEMENT name");
    assert_eq!(line, "<!ELEMENT name (first,middle?,last)>");
    assert_eq!(play.line("<article"), DOCUMENT);
    let name = serials(&play, "name")[0];
    play.accept(|s, o| add_element(s, name, 1, MIDDLE, b"S", o));
    let wanted = DOCUMENT.replacen("</first>", "</first><middle>S</middle>", 1);
    assert_eq!(play.line("<article"), wanted);
    let middle = serials(&play, "middle")[0];
    play.accept(|s, o| destroy_element(s, middle, o));
    assert_eq!(play.line("<article"), DOCUMENT);
}

#[test]
fn example_4() {
    let mut play = article();
    let before = row_count(&play);
    play.accept(|s, o| remove_element(s, MONOGRAPH, &[2], o));
    assert_eq!(row_count(&play), before - 2);
    let wanted = DOCUMENT.replace("<editor name=\"Won Kim\"></editor>", "");
    assert_eq!(play.line("<article"), wanted);
}

#[test]
fn example_5() {
    let mut play = article();
    play.accept(|s, o| change_quantifier(s, ARTICLE, &[2], NONE, b"", o));
    let line = play.line("<!ELEMENT article");
    assert_eq!(line, "<!ELEMENT article (title,author,related?)>");
    assert_eq!(serials(&play, "author").len(), 1);
    assert_eq!(serials(&play, "first").len(), 1);
    assert!(play.line("<article").contains("Diane"));
}

#[test]
fn example_6_and_7() {
    let mut play = article();
    let before = play.bytes.clone();
    play.accept(|s, o| convert_to_group(s, ARTICLE, &[2], 1, LIST, o));
    let line = play.line("<!ELEMENT article");
    assert_eq!(line, "<!ELEMENT article (title,(author+),related?)>");
    play.accept(|s, o| flatten_group(s, ARTICLE, &[2], o));
    assert!(play.bytes == before);
}

#[test]
fn example_8() {
    let mut play = article();
    let number = play.call(|s, o| change_group_quantifier(s, RELATED, &[1], QMARK, b"", o));
    assert_eq!(number, 13);
}

#[test]
fn example_9_and_10() {
    let mut play = article();
    let before = play.bytes.clone();
    play.accept(|s, o| add_attribute(s, ARTICLE, b"published", 1, b"TRUE", o));
    let line = play.line("<article");
    assert!(line.starts_with("<article published=\"TRUE\"><title>"));
    play.accept(|s, o| destroy_attribute(s, 0, o));
    let next = |bytes: &[u8]| second::layout::u32_at(bytes, 4);
    assert_eq!(next(&play.bytes), next(&before) + 1);
    assert!(play.bytes[8..] == before[8..]);
}

#[test]
fn example_11_and_12() {
    let mut play = article();
    play.accept(|s, o| add_attribute(s, AUTHOR, b"primary", 0, b"", o));
    let authors = serials(&play, "author");
    play.accept(|s, o| set_attribute(s, authors[0], 1, b"TRUE", o));
    play.accept(|s, o| set_attribute(s, authors[1], 1, b"FALSE", o));
    let line = play.line("<article");
    assert!(line.contains("<author id=\"dk\" primary=\"TRUE\">"));
    assert!(line.contains("<author id=\"er\" primary=\"FALSE\">"));
    play.accept(|s, o| destroy_attribute_row(s, authors[1], 1, o));
    assert!(play.line("<article").contains("<author id=\"er\"><name>"));
}
