//! Calls in a row, each on the store that the last accepted one wrote.

use super::random::history::LONGEST;
use crate::*;

pub struct Play {
    pub bytes: Vec<u8>,
}

/// The program clubform of the paper: a club shapes its form while a finish
/// list stands in the box.
pub fn clubform() -> Play {
    const NONE: u32 = 0;
    const QMARK: u32 = 1;
    const STAR: u32 = 2;
    let mut play = Play { bytes: fresh() };
    for (name, kind) in [("race", 2), ("finisher", 2), ("bib", 1), ("time", 1)] {
        play.accept(|s, o| create_definition(s, name.as_bytes(), kind, o));
    }
    play.accept(|s, o| insert_element(s, 0, &[0], 1, STAR, b"", o));
    play.accept(|s, o| insert_element(s, 1, &[0], 2, NONE, b"0", o));
    play.accept(|s, o| insert_element(s, 1, &[1], 3, NONE, b"-", o));
    play.accept(|s, o| add_document(s, 0, b"", o));
    play.accept(|s, o| add_element(s, 1, 0, 1, b"7", o));
    play.accept(|s, o| set_text(s, 5, b"19:04", o));
    play.accept(|s, o| create_definition(s, b"club", 1, o));
    play.accept(|s, o| insert_element(s, 1, &[1], 4, NONE, b"none", o));
    play.accept(|s, o| change_quantifier(s, 1, &[3], QMARK, b"", o));
    play
}

impl Play {
    /// Runs a call; where it is accepted its store is the next one's.
    pub fn call(&mut self, call: impl FnOnce(&[u8], &mut [u8]) -> Answer) -> u32 {
        let mut out = vec![0xee; LONGEST];
        let answer = call(&self.bytes, &mut out);
        if answer.number == 0 {
            out.truncate(answer.length);
            self.bytes = out;
        }
        answer.number
    }

    /// Runs a call that is accepted.
    #[track_caller]
    pub fn accept(&mut self, call: impl FnOnce(&[u8], &mut [u8]) -> Answer) {
        assert_eq!(self.call(call), 0);
    }

    pub fn text(&self) -> String {
        let mut out = vec![0; 1 << 20];
        let answer = print(&self.bytes, &mut out);
        assert_eq!(answer.number, 0);
        String::from_utf8(out[..answer.length].to_vec()).expect("the text is ASCII")
    }

    /// The printed line that begins so.
    pub fn line(&self, start: &str) -> String {
        let text = self.text();
        let line = text.lines().find(|line| line.starts_with(start));
        line.expect("such a line").to_string()
    }
}
