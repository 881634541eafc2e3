//! The vectors: each line names a call and has what it reads, its arguments and
//! what it must answer. This is the one reader of them.

use crate::call::{apply, Call};
use crate::{check, look_up, print, read_text, Answer};
use std::io::Write;
use std::path::{Path, PathBuf};

/// The words of a line, taken from the front.
pub struct Words<'a>(std::str::Split<'a, char>);

impl<'a> Words<'a> {
    pub fn of(line: &'a str) -> Words<'a> {
        Words(line.split(' '))
    }

    /// The next word; where none is left an empty one, as which nothing is
    /// written.
    pub fn word(&mut self) -> &'a str {
        self.0.next().unwrap_or_default()
    }

    fn number(&mut self) -> Result<u32, String> {
        parse_number(self.word())
    }

    /// `x` and two digits for each byte.
    fn bytes(&mut self) -> Result<Vec<u8>, String> {
        let digits = self.word().strip_prefix('x').ok_or("no byte string")?;
        if digits.len() % 2 != 0 || !digits.is_ascii() {
            return Err("half a byte".to_string());
        }
        (0..digits.len())
            .step_by(2)
            .map(|at| u8::from_str_radix(&digits[at..at + 2], 16).map_err(|e| e.to_string()))
            .collect()
    }

    /// `p` and the numbers with dots between them.
    fn place(&mut self) -> Result<Vec<u32>, String> {
        let numbers = self.word().strip_prefix('p').ok_or("no place")?;
        if numbers.is_empty() {
            return Ok(Vec::new());
        }
        numbers.split('.').map(parse_number).collect()
    }

    fn end(&mut self) -> Result<(), String> {
        match self.0.next() {
            None => Ok(()),
            Some(_) => Err("a word too many".to_string()),
        }
    }
}

fn parse_number(word: &str) -> Result<u32, String> {
    word.parse().map_err(|_| format!("no number: {word}"))
}

/// A line that was read.
pub struct Line<'a> {
    /// Of the call.
    pub name: &'a str,
    /// What the call reads: a store, or the text of `read_text`.
    pub input: Vec<u8>,
    pub asked: Asked,
}

/// What a line asks of its input, and what must come out.
pub enum Asked {
    Check { passes: bool },
    LookUp { serial: u32, found: Found },
    Print(Output),
    ReadText(Output),
    Change(Call, Output),
}

/// What a look-up finds: the number, and where the value starts and ends.
pub type Found = (u32, usize, usize);

/// What a call that writes must answer and leave.
pub struct Output {
    /// The buffer before the call.
    before: Vec<u8>,
    number: u32,
    length: usize,
    /// The buffer after it.
    after: Vec<u8>,
}

impl<'a> Line<'a> {
    pub fn read(line: &'a str) -> Result<Line<'a>, String> {
        let mut words = Words::of(line);
        let name = words.word();
        let input = words.bytes()?;
        let asked = Asked::read(name, &mut words)?;
        words.end()?;
        Ok(Line { name, input, asked })
    }
}

impl Asked {
    fn read(name: &str, words: &mut Words) -> Result<Asked, String> {
        Ok(match name {
            // The vectors write 1 for a store that passes, the call answers 0.
            "check" => Asked::Check {
                passes: match words.number()? {
                    0 => false,
                    1 => true,
                    other => return Err(format!("no answer of a check: {other}")),
                },
            },
            "look_up" => Asked::LookUp {
                serial: words.number()?,
                found: (
                    words.number()?,
                    words.number()? as usize,
                    words.number()? as usize,
                ),
            },
            "print" => Asked::Print(Output::read(words)?),
            "read_text" => Asked::ReadText(Output::read(words)?),
            _ => {
                let call = read_call(name, words)?;
                Asked::Change(call, Output::read(words)?)
            }
        })
    }
}

/// Reads the arguments of the change with this name.
pub fn read_call(name: &str, words: &mut Words) -> Result<Call, String> {
    Ok(match name {
        "create_definition" => Call::CreateDefinition {
            name: words.bytes()?,
            kind: words.number()?,
        },
        "destroy_definition" => Call::DestroyDefinition {
            definition: words.number()?,
        },
        "insert_element" => Call::InsertElement {
            owner: words.number()?,
            place: words.place()?,
            definition: words.number()?,
            quantifier: words.number()?,
            text: words.bytes()?,
        },
        "remove_element" => Call::RemoveElement {
            owner: words.number()?,
            place: words.place()?,
        },
        "change_quantifier" => Call::ChangeQuantifier {
            owner: words.number()?,
            place: words.place()?,
            quantifier: words.number()?,
            text: words.bytes()?,
        },
        "convert_to_group" => Call::ConvertToGroup {
            owner: words.number()?,
            place: words.place()?,
            count: words.number()?,
            sort: words.number()?,
        },
        "flatten_group" => Call::FlattenGroup {
            owner: words.number()?,
            place: words.place()?,
        },
        "change_group_quantifier" => Call::ChangeGroupQuantifier {
            owner: words.number()?,
            place: words.place()?,
            quantifier: words.number()?,
            text: words.bytes()?,
        },
        "add_attribute" => Call::AddAttribute {
            owner: words.number()?,
            name: words.bytes()?,
            sort: words.number()?,
            value: words.bytes()?,
        },
        "destroy_attribute" => Call::DestroyAttribute {
            attribute: words.number()?,
        },
        "add_document" => Call::AddDocument {
            definition: words.number()?,
            text: words.bytes()?,
        },
        "add_element" => Call::AddElement {
            parent: words.number()?,
            child: words.number()?,
            definition: words.number()?,
            text: words.bytes()?,
        },
        "destroy_element" => Call::DestroyElement {
            element: words.number()?,
        },
        "set_attribute" => Call::SetAttribute {
            element: words.number()?,
            attribute: words.number()?,
            value: words.bytes()?,
        },
        "destroy_attribute_row" => Call::DestroyAttributeRow {
            element: words.number()?,
            attribute: words.number()?,
        },
        "set_text" => Call::SetText {
            element: words.number()?,
            text: words.bytes()?,
        },
        _ => return Err("no such call".to_string()),
    })
}

/// The error says what is there and what was wanted.
pub fn same<T: PartialEq + std::fmt::Debug>(given: T, wanted: T) -> Result<(), String> {
    if given == wanted {
        Ok(())
    } else {
        Err(format!("{given:?}, wanted {wanted:?}"))
    }
}

impl Output {
    fn read(words: &mut Words) -> Result<Output, String> {
        Ok(Output {
            before: words.bytes()?,
            number: words.number()?,
            length: words.number()? as usize,
            after: words.bytes()?,
        })
    }

    /// Compares number, length and the whole buffer with what `run`, which
    /// gives number and length, answers and leaves.
    pub fn compare(&self, run: impl FnOnce(&mut [u8]) -> (u32, usize)) -> Result<(), String> {
        let mut out = self.before.clone();
        let (number, length) = run(&mut out);
        if (number, length) != (self.number, self.length) {
            return Err(format!(
                "number {number} and length {length}, wanted {} and {}",
                self.number, self.length
            ));
        }
        if out.len() != self.after.len() {
            return Err("the buffer before and after differ in length".to_string());
        }
        match out.iter().zip(&self.after).position(|(a, b)| a != b) {
            None => Ok(()),
            Some(at) => Err(format!(
                "byte {at} of the buffer is {:02x}, wanted {:02x}",
                out[at], self.after[at]
            )),
        }
    }
}

/// Runs a line on this implementation; the error says what differs.
pub fn run(line: &Line) -> Result<(), String> {
    let input = &line.input;
    let pair = |answer: Answer| (answer.number, answer.length);
    match &line.asked {
        Asked::Check { passes } => same(check(input) == 0, *passes),
        Asked::LookUp { serial, found } => compare_look_up(input, *serial, *found),
        Asked::Print(output) => output.compare(|out| pair(print(input, out))),
        Asked::ReadText(output) => output.compare(|out| pair(read_text(input, out))),
        Asked::Change(call, output) => output.compare(|out| pair(apply(call, input, out))),
    }
}

/// Where a value is empty its place is free.
fn compare_look_up(store: &[u8], serial: u32, wanted: Found) -> Result<(), String> {
    let mut number = u32::MAX;
    let part = look_up(store, serial, &mut number);
    if part.is_empty() && wanted.1 == wanted.2 {
        return same(number, wanted.0);
    }
    let start = part.as_ptr() as usize - store.as_ptr() as usize;
    same((number, start, start + part.len()), wanted)
}

/// How many lines of a text agree, and each difference with its line number.
#[derive(Debug, Default)]
pub struct Report {
    pub passed: usize,
    pub differences: Vec<(usize, String)>,
}

/// Runs all lines of a text; empty lines count for nothing. A line that cannot
/// be read is a difference.
pub fn run_text(text: &str, mut run: impl FnMut(&Line) -> Result<(), String>) -> Report {
    let mut report = Report::default();
    for (line, number) in text.lines().zip(1..).filter(|(line, _)| !line.is_empty()) {
        let name = Words::of(line).word();
        match Line::read(line).and_then(|line| run(&line)) {
            Ok(()) => report.passed += 1,
            Err(difference) => report
                .differences
                .push((number, format!("{name}: {difference}"))),
        }
    }
    report
}

/// Runs all lines of all files, panics where one differs, and says how many
/// there are.
pub fn run_files(mut run: impl FnMut(&Line) -> Result<(), String>) -> usize {
    let mut lines = 0;
    for file in files() {
        let text = std::fs::read_to_string(&file).expect("the file can be read");
        let report = run_text(&text, &mut run);
        for (line, difference) in &report.differences {
            println!("{}:{line}: {difference}", file.display());
        }
        assert!(report.differences.is_empty(), "see the differences");
        assert!(report.passed >= 60, "{} is short", file.display());
        println!("{}: {} passed", file.display(), report.passed);
        lines += report.passed;
    }
    lines
}

/// How many of paper 02's requests are done: their vectors hold, too.
const REQUESTS: usize = 3;

/// Whether a file has the vectors of a request that is done: its name begins with the request's number.
fn is_of_done(path: &Path) -> bool {
    let name = path
        .file_name()
        .and_then(|name| name.to_str())
        .unwrap_or_default();
    let number = name
        .split('-')
        .next()
        .and_then(|number| number.parse().ok());
    number.is_some_and(|number: usize| number <= REQUESTS)
}

/// The text files of a folder.
fn texts(folder: &Path) -> std::io::Result<Vec<PathBuf>> {
    let entries = std::fs::read_dir(folder)?;
    let paths = entries.map(|entry| entry.expect("the folder can be read").path());
    Ok(paths
        .filter(|path| path.extension().is_some_and(|end| end == "txt"))
        .collect())
}

/// The sample in the repository, and the files of the folder FORM_VECTORS, or of
/// `shared/vectors` beside the repository if there is one, with those of its `requests`.
fn files() -> Vec<PathBuf> {
    let root = Path::new(env!("CARGO_MANIFEST_DIR")).join("..");
    let given = std::env::var_os("FORM_VECTORS");
    let folder = match &given {
        Some(path) => PathBuf::from(path),
        None => root.join("../shared/vectors"),
    };
    let mut files = vec![root.join("second/tests/sample.txt")];
    match texts(&folder) {
        Ok(paths) => {
            files.extend(paths);
            assert!(files.len() > 1, "no vectors in {}", folder.display());
            let requests = texts(&folder.join("requests")).unwrap_or_default();
            files.extend(requests.into_iter().filter(|path| is_of_done(path)));
        }
        Err(_) => {
            assert!(given.is_none(), "FORM_VECTORS names no folder");
            // Straight to the error stream: the test harness holds back prints.
            let text = format!("\n*** SKIPPED: no vectors at {} ***\n\n", folder.display());
            let _ = std::io::stderr().write_all(text.as_bytes());
        }
    }
    files
}
