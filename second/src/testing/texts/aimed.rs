//! Texts aimed at a rule of reading each.

/// What is counted, a text at its ceiling, and a text one past it.
pub type Ceiling = (&'static str, String, String);

fn repeated(count: usize, part: impl Fn(usize) -> String) -> String {
    (0..count).map(part).collect()
}

/// A pair of texts, one for each count.
fn pair(what: &'static str, ceiling: usize, text: impl Fn(usize) -> String) -> Ceiling {
    (what, text(ceiling), text(ceiling + 1))
}

fn empties(count: usize) -> String {
    repeated(count, |number| format!("<!ELEMENT n{number} EMPTY>\n"))
}

/// Models over 32 names, a new one after every 32 particles.
fn particles(count: usize) -> String {
    let model = |start: usize| {
        let names: Vec<String> = (start..count.min(start + 32))
            .map(|number| format!("n{}*", number % 32))
            .collect();
        format!("<!ELEMENT m{start} ({})>\n", names.join(","))
    };
    let models: String = (0..count).step_by(32).map(model).collect();
    models + &empties(32)
}

/// Groups of one member count as particles, too.
fn grouped_particles(count: usize) -> String {
    particles(count - 4).replacen("(n0*,", "(((((n0*)))),", 1)
}

fn attributes(count: usize) -> String {
    "<!ELEMENT a EMPTY>\n".to_string() + &repeated(count, attribute_line)
}

fn attribute_line(number: usize) -> String {
    format!("<!ATTLIST a a{number} CDATA #IMPLIED>\n")
}

/// Half of the attributes have another owner.
fn attributes_of_two(count: usize) -> String {
    let line = |number| format!("<!ATTLIST b b{number} CDATA #REQUIRED>\n");
    attributes(32) + "<!ELEMENT b EMPTY>\n" + &repeated(count - 32, line)
}

/// The model of `a` with so many groups around `b`.
fn groups(depth: usize) -> String {
    let (open, close) = ("(".repeat(depth), ")?".repeat(depth));
    format!("<!ELEMENT a (c,{open}b{close})>\n<!ELEMENT b EMPTY>\n<!ELEMENT c EMPTY>\n")
}

/// Two rows of a PCDATA, pairs of an element and its attribute, and single
/// elements.
fn rows(count: usize) -> String {
    let form = "<!ELEMENT a EMPTY>\n<!ATTLIST a r CDATA #REQUIRED>\n<!ELEMENT e EMPTY>\n\
                <!ELEMENT t (#PCDATA)>\n<t>&gt;</t>\n";
    let pairs = "<a r=\"\"></a>\n".repeat((count - 2) / 2);
    [form, &pairs, &"<e></e>\n".repeat(count % 2)].concat()
}

/// Nested in one document.
fn nested_rows(count: usize) -> String {
    let form = "<!ELEMENT a (b*)>\n<!ELEMENT b EMPTY>\n";
    format!("{form}<a>{}</a>\n", "<b></b>".repeat(count - 1))
}

/// At every ceiling; the second text of each must be refused.
pub fn ceilings() -> Vec<Ceiling> {
    let name = |length: usize| "n".repeat(length);
    vec![
        pair("definitions", 64, empties),
        pair("particles", 256, particles),
        pair("particles in groups", 256, grouped_particles),
        pair("attributes", 64, attributes),
        pair("attributes of two", 64, attributes_of_two),
        pair("groups around a particle", 4, groups),
        pair("name of a definition", 16, |length| {
            let name = name(length);
            format!("<!ELEMENT {name} EMPTY>\n<{name}></{name}>\n")
        }),
        pair("name of an attribute", 16, |length| {
            format!(
                "<!ELEMENT a EMPTY>\n<!ATTLIST a {} CDATA #IMPLIED>\n",
                name(length)
            )
        }),
        pair("value of FIXED", 32, |length| {
            let value = "&quot;".repeat(length);
            format!("<!ELEMENT a EMPTY>\n<!ATTLIST a f CDATA #FIXED \"{value}\">\n")
        }),
        pair("value of an attribute", 32, |length| {
            let form = "<!ELEMENT a EMPTY>\n<!ATTLIST a i CDATA #IMPLIED>\n";
            format!("{form}<a i=\"{}\"></a>\n", "&amp;".repeat(length))
        }),
        pair("text", 32, |length| {
            format!("<!ELEMENT a (#PCDATA)>\n<a>{}</a>\n", "~".repeat(length))
        }),
        pair("rows", 4096, rows),
        pair("rows of one document", 4096, nested_rows),
    ]
}

/// A form with all sorts of lines, and a document.
const FORM: &str = "<!ELEMENT a (b,(c|d)*)>\n<!ATTLIST a r CDATA #REQUIRED>\n<!ATTLIST a f CDATA #FIXED \"&lt;\">\n\
                    <!ELEMENT b (#PCDATA)>\n<!ELEMENT c EMPTY>\n<!ELEMENT d (c?)>\n";
const DOCUMENT: &str = "<a r=\"\" f=\"&lt;\"><b>x y</b><d><c></c></d><c></c></a>\n";

/// Parts of that text, each with one in its place that no store prints there.
const WORSE: &[(&str, &str)] = &[
    // Other texts for the same, as XML has them.
    ("<c></c></d>", "<c/></d>"),
    ("<c></c></d>", "<c></c ></d>"),
    ("(c?)", "(c)?"),
    ("(c?)", "( c?)"),
    ("(c?)", "(c ?)"),
    ("EMPTY", "()"),
    ("EMPTY", "(EMPTY)"),
    ("(#PCDATA)", "#PCDATA"),
    ("(#PCDATA)", "(#PCDATA)*"),
    ("(c|d)*", "(c | d)*"),
    ("<a r=\"\" f", "<a  r=\"\" f"),
    ("<a r=\"\" f", "<a r='' f"),
    ("<a r=\"\" f", "<a r = \"\" f"),
    ("r=\"\" f=\"&lt;\"", "f=\"&lt;\" r=\"\""),
    ("f=\"&lt;\">", "f=\"&#60;\">"),
    ("f=\"&lt;\">", "f=\"&LT;\">"),
    ("#FIXED \"&lt;\"", "#FIXED '&lt;'"),
    ("#FIXED \"&lt;\"", "#FIXED  \"&lt;\""),
    ("#FIXED \"&lt;\"", "\"&lt;\""),
    ("<!ATTLIST a f", "f"),
    ("x y", "x>y"),
    ("x y", "x\"y"),
    ("x y", "&apos;"),
    ("x y", "&#120;"),
    ("x y", "&ltx"),
    ("x y", "x&y"),
    ("x y", "x<!-- -->y"),
    ("x y", "<![CDATA[x]]>"),
    ("x y", "x\ty"),
    ("x y", "x\ny"),
    ("x y", "\u{e9}"),
    ("<b>x", "\n<b>x"),
    ("</a>\n", "</a>"),
    ("</a>\n", "</a>\r\n"),
    ("</a>\n", "</a>\n\n"),
    ("</a>\n", "</a>\n\0"),
    ("<!ELEMENT a", "<!ELEMENT  a"),
    ("<!ELEMENT a", " <!ELEMENT a"),
    ("<!ELEMENT a", "<?xml version=\"1.0\"?>\n<!ELEMENT a"),
    ("<!ELEMENT a", "\u{feff}<!ELEMENT a"),
    ("<!ELEMENT a", "<!element a"),
    ("CDATA #REQ", "cdata #REQ"),
    ("CDATA #REQ", "ID #REQ"),
    // No form that passes.
    ("(c?)", "(c|b)"),
    ("(c?)", "(c?|b?)"),
    ("(c?)", "(c?,b|a)"),
    ("(c?)", "(c?,(b|c))"),
    ("(c?)", "(c?,())"),
    ("(c?)", "(c?,e?)"),
    ("(c?)", "(c?,d?)"),
    ("(c?)", "(c?,a?)"),
    ("(c?)", "(c?,c?)"),
    ("(c?)", "(c?,)"),
    ("(c?)", "(,c?)"),
    ("(c?)", "(c??)"),
    ("(c?)", "(c?"),
    ("(c?)", "c?)"),
    ("T d", "T b"),
    ("T d", "T "),
    ("T d", "T 1"),
    ("T d", "T d:d"),
    ("<!ATTLIST a f", "<!ATTLIST a r"),
    ("<!ATTLIST a f", "<!ATTLIST b f"),
    ("<!ATTLIST a f", "<!ATTLIST a -f"),
    // No document that conforms.
    ("<b>x y</b>", ""),
    ("<b>x y</b>", "<b></b><b></b>"),
    ("<b>x y</b>", "<b><c></c></b>"),
    ("<b>x y</b>", "<b>x<c></c></b>"),
    ("<b>x y</b>", "<b>x y</b> "),
    ("<b>x y</b>", "<c></c><b>x y</b>"),
    ("<c></c></d>", "<c> </c></d>"),
    ("<c></c></d>", "<c></c><c></c></d>"),
    ("<c></c></d>", "<c></d></c>"),
    ("<c></c></d>", "<e></e></d>"),
    ("<c></c></d>", "<c></c></d></d>"),
    ("<c></c></d>", "<c r=\"\"></c></d>"),
    ("<a r=\"\"", "<a"),
    ("<a r=\"\"", "<a r=\"\" r=\"\""),
    ("<a r=\"\"", "<a s=\"\""),
    ("f=\"&lt;\">", "f=\"&gt;\">"),
    ("f=\"&lt;\">", "f=\"\">"),
];

/// A text that is read, and texts near it that no store prints.
pub fn refused() -> (String, Vec<String>) {
    let good = [FORM, DOCUMENT].concat();
    let replaced = |(part, other): &(&str, &str)| {
        let at = good.rfind(part).expect("a part of it");
        [&good[..at], other, &good[at + part.len()..]].concat()
    };
    let mut refused: Vec<String> = WORSE.iter().map(replaced).collect();
    // Declarations where none may stand.
    let rest = "<!ATTLIST c i CDATA #IMPLIED>\n";
    refused.push([FORM, rest, DOCUMENT].concat());
    refused.push([FORM, DOCUMENT, "<!ELEMENT e EMPTY>\n"].concat());
    refused.push([rest, FORM, DOCUMENT].concat());
    refused.push(DOCUMENT.to_string());
    (good, refused)
}

/// Long texts that no store prints, made to cost much where a reader goes on
/// too long or too deep.
pub fn hostile() -> Vec<Vec<u8>> {
    const MANY: usize = 100_000;
    let after = |start: &str, part: &str| [start, &part.repeat(MANY)].concat().into_bytes();
    let inner = "<!ELEMENT a (b?)>\n<!ELEMENT b (c?)>\n<!ELEMENT c EMPTY>\n";
    let circle = "<!ELEMENT a (b?)>\n<!ELEMENT b (a?)>\n";
    let attribute = "<!ELEMENT a EMPTY>\n<!ATTLIST a i CDATA #IMPLIED>\n";
    vec![
        after("", "\n"),
        after("", "<"),
        after("", "<a>"),
        after("", "<!ELEMENT a EMPTY>\n"),
        after("<!ELEMENT a EMPTY>\n", "<a></a>\n"),
        after("<!ELEMENT a EMPTY>\n", "<a>"),
        after(inner, "<a>"),
        after(inner, "<a><b>"),
        after(circle, "<a><b>"),
        after("<!ELEMENT ", "a"),
        after("<!ELEMENT a ", "("),
        after("<!ELEMENT a ((((", "b,"),
        after("<!ELEMENT a (", "a|"),
        after("<!ELEMENT a (a", ")*"),
        after("<!ELEMENT a EMPTY>\n", "<!ATTLIST a i CDATA #IMPLIED>\n"),
        after("<!ELEMENT a EMPTY>\n<!ATTLIST a i CDATA #FIXED \"", "v"),
        after("<!ELEMENT a EMPTY>\n<!ATTLIST a i CDATA #FIXED \"", "&amp;"),
        after(attribute, "<a i=\"\"></a>\n"),
        after(&[attribute, "<a"].concat(), " i=\"\""),
        after("<!ELEMENT a (#PCDATA)>\n<a>", "&lt;"),
        after("<!ELEMENT a (#PCDATA)>\n<a>", "\0"),
        empties(MANY).into_bytes(),
        [attribute, &repeated(MANY, attribute_line)]
            .concat()
            .into_bytes(),
    ]
}
