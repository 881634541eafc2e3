//! What the tests share: a folder in which a person works, and the store of clubform in it.
#![allow(dead_code)]

use std::fs;
use std::io::Write;
use std::path::PathBuf;
use std::process::{Command, Output, Stdio};
use std::sync::atomic::{AtomicUsize, Ordering};

pub const BOXFORM: &str = env!("CARGO_BIN_EXE_boxform");

/// A folder in which a person works.
pub struct Desk {
    pub folder: PathBuf,
}

impl Drop for Desk {
    fn drop(&mut self) {
        let _ = fs::remove_dir_all(&self.folder);
    }
}

#[derive(Debug, PartialEq)]
pub struct Done {
    pub status: Option<i32>,
    pub out: String,
    pub err: String,
}

impl From<Output> for Done {
    fn from(run: Output) -> Done {
        Done {
            status: run.status.code(),
            out: String::from_utf8(run.stdout).unwrap(),
            err: String::from_utf8(run.stderr).unwrap(),
        }
    }
}

/// Cuts a line into words; a word between `'` may hold blanks.
fn words(line: &str) -> Vec<String> {
    let mut words = Vec::new();
    for (number, part) in line.split('\'').enumerate() {
        match number % 2 {
            0 => words.extend(part.split_whitespace().map(str::to_string)),
            _ => words.push(part.to_string()),
        }
    }
    words
}

impl Desk {
    pub fn new() -> Desk {
        static DESKS: AtomicUsize = AtomicUsize::new(0);
        let number = DESKS.fetch_add(1, Ordering::Relaxed);
        let name = format!("boxform-{}-{number}", std::process::id());
        let folder = std::env::temp_dir().join(name);
        fs::create_dir_all(&folder).unwrap();
        Desk { folder }
    }

    /// A program that is to run in the folder.
    pub fn command(&self, program: &str, words: &[&str]) -> Command {
        let mut command = Command::new(program);
        command
            .args(words)
            .current_dir(&self.folder)
            .stdin(Stdio::null());
        command
    }

    /// Boxform with the words of a line.
    pub fn boxform(&self, line: &str) -> Command {
        let words = words(line);
        self.command(
            BOXFORM,
            &words.iter().map(String::as_str).collect::<Vec<_>>(),
        )
    }

    pub fn run(&self, line: &str) -> Done {
        self.boxform(line).output().unwrap().into()
    }

    /// Runs boxform, which reads this.
    pub fn run_with(&self, line: &str, input: &[u8]) -> Done {
        let mut command = self.boxform(line);
        command.stdin(Stdio::piped());
        command.stdout(Stdio::piped()).stderr(Stdio::piped());
        let mut child = command.spawn().unwrap();
        // One that fails early need not read it all.
        let _ = child.stdin.take().unwrap().write_all(input);
        child.wait_with_output().unwrap().into()
    }

    /// Runs a line of the shell in which `$boxform` is the tool.
    pub fn shell(&self, line: &str) -> Done {
        let mut command = self.command("sh", &["-c", line]);
        command.env("boxform", BOXFORM).output().unwrap().into()
    }

    /// Runs boxform, which does it, and hands back what it printed.
    #[track_caller]
    pub fn done(&self, line: &str) -> String {
        let done = self.run(line);
        assert_eq!((done.status, done.err.as_str()), (Some(0), ""), "{line}");
        done.out
    }

    /// Runs boxform with an input, which does it, and hands back what it printed.
    #[track_caller]
    pub fn done_with(&self, line: &str, input: &str) -> String {
        let done = self.run_with(line, input.as_bytes());
        assert_eq!((done.status, done.err.as_str()), (Some(0), ""), "{line}");
        done.out
    }

    /// Runs boxform, which ends with this status and a message that starts so; the files stay as they are, and no other
    /// comes.
    #[track_caller]
    pub fn fails(&self, line: &str, status: i32, message: &str) {
        self.fails_with(line, "", status, message);
    }

    #[track_caller]
    pub fn fails_with(&self, line: &str, input: &str, status: i32, message: &str) {
        let before = self.files();
        let done = self.run_with(line, input.as_bytes());
        assert_eq!(
            (done.status, done.out.as_str()),
            (Some(status), ""),
            "{line}: {}",
            done.err
        );
        assert!(done.err.starts_with(message), "{line}: {}", done.err);
        assert!(before == self.files(), "{line} changed a file");
    }

    /// All files of the folder with their bytes.
    pub fn files(&self) -> Vec<(String, Vec<u8>)> {
        let mut files: Vec<_> = fs::read_dir(&self.folder)
            .unwrap()
            .map(|entry| entry.unwrap())
            .filter(|entry| entry.path().is_file())
            .map(|entry| {
                (
                    entry.file_name().into_string().unwrap(),
                    fs::read(entry.path()).unwrap(),
                )
            })
            .collect();
        files.sort();
        files
    }

    /// The names of all files of the folder.
    pub fn names(&self) -> Vec<String> {
        self.files().into_iter().map(|(name, _)| name).collect()
    }

    pub fn path(&self, name: &str) -> PathBuf {
        self.folder.join(name)
    }

    pub fn bytes(&self, name: &str) -> Vec<u8> {
        fs::read(self.path(name)).unwrap()
    }

    /// Has xmllint validate each printed document against the printed DTD.
    #[track_caller]
    pub fn validate(&self, printed: &str) {
        let (declared, documents): (Vec<&str>, Vec<&str>) =
            printed.lines().partition(|line| line.starts_with("<!"));
        fs::write(self.path("form.dtd"), declared.join("\n")).unwrap();
        for document in documents {
            fs::write(self.path("list.xml"), document).unwrap();
            let words = ["--noout", "--dtdvalid", "form.dtd", "list.xml"];
            let done = Done::from(self.command("xmllint", &words).output().unwrap());
            assert_eq!(done.status, Some(0), "{document}: {}", done.err);
        }
    }
}

/// The story of clubform with what boxform says to each line.
pub const STORY: [(&str, &str); 14] = [
    (
        "new club.form",
        "club.form is new, with nothing in it; its sum is in club.form.sum",
    ),
    (
        "create-definition club.form --name race --kind complex",
        "definition race is new: EMPTY (complex, no members yet)",
    ),
    (
        "create-definition club.form --name finisher --kind complex",
        "definition finisher is new: EMPTY (complex, no members yet)",
    ),
    (
        "create-definition club.form --name bib --kind pcdata",
        "definition bib is new: (#PCDATA)",
    ),
    (
        "create-definition club.form --name time --kind pcdata",
        "definition time is new: (#PCDATA)",
    ),
    (
        "insert-element club.form --owner race --place 0 --definition finisher --quantifier star",
        "definition race was EMPTY (complex, no members yet) and is (finisher*)",
    ),
    (
        "insert-element club.form --owner finisher --place 0 --definition bib --quantifier none \
         --text 0",
        "definition finisher was EMPTY (complex, no members yet) and is (bib)",
    ),
    (
        "insert-element club.form --owner finisher --place 1 --definition time --quantifier \
         none --text -",
        "definition finisher was (bib) and is (bib,time)",
    ),
    (
        "add-document club.form --definition race",
        "made 1 element: serial 1",
    ),
    (
        "add-element club.form --parent 1 --child 0 --definition finisher --text 7",
        "made 3 elements, 5 rows in all: serials 2 to 6",
    ),
    (
        "set-text club.form --element 5 --text 19:04",
        "set time 5 from \"7\" to \"19:04\"",
    ),
    (
        "create-definition club.form --name club --kind pcdata",
        "definition club is new: (#PCDATA)",
    ),
    (
        "insert-element club.form --owner finisher --place 1 --definition club --quantifier \
         none --text none",
        "definition finisher was (bib,time) and is (bib,club,time)\n  made 1 element, 2 rows in \
         all: serials 7 to 8",
    ),
    (
        "change-quantifier club.form --owner finisher --place 3 --quantifier qmark",
        "definition finisher was (bib,club,time) and is (bib,club,time?)",
    ),
];

/// A desk with the file that the story leaves.
#[track_caller]
pub fn club() -> Desk {
    let desk = Desk::new();
    for (line, said) in STORY {
        assert_eq!(desk.done(line), format!("done\n  {said}\n"), "{line}");
    }
    desk
}

pub const DTD: &str = "<!ELEMENT race (finisher*)>
<!ELEMENT finisher (bib,club,time?)>
<!ELEMENT bib (#PCDATA)>
<!ELEMENT time (#PCDATA)>
<!ELEMENT club (#PCDATA)>
";
pub const RACE: &str =
    "<race><finisher><bib>7</bib><club>none</club><time>19:04</time></finisher></race>\n";
