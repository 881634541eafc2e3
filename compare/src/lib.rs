//! The proved library's exported functions, as the crate `formstore` calls them. Every call runs on a copy of its input
//! with guard bytes around it, and panics where a guard byte or the input has changed.

pub mod asked;
pub mod changes;
pub mod header;
pub mod histories;
pub mod hostile;
pub mod marks;
pub mod reading_out;
pub mod stack;
pub mod texts;
pub mod threads;
pub mod worst;

use formstore::raw;
pub use formstore::raw::{Answer, Found};
use second::Call;

const GUARD: usize = 64;

/// A byte string with guard bytes before and after it.
struct Guarded {
    bytes: Vec<u8>,
    length: usize,
}

impl Guarded {
    fn new(content: &[u8]) -> Guarded {
        let mut bytes = vec![0xA5; GUARD];
        bytes.extend_from_slice(content);
        bytes.extend_from_slice(&[0x5A; GUARD]);
        Guarded {
            bytes,
            length: content.len(),
        }
    }

    fn content(&self) -> &[u8] {
        &self.bytes[GUARD..GUARD + self.length]
    }

    fn content_mut(&mut self) -> &mut [u8] {
        &mut self.bytes[GUARD..GUARD + self.length]
    }

    fn verify_guards(&self) {
        assert!(
            self.bytes[..GUARD].iter().all(|&b| b == 0xA5),
            "bytes before the buffer were written"
        );
        assert!(
            self.bytes[GUARD + self.length..].iter().all(|&b| b == 0x5A),
            "bytes past the buffer were written"
        );
    }

    fn verify(&self, content: &[u8]) {
        self.verify_guards();
        assert_eq!(
            &self.bytes[GUARD..GUARD + self.length],
            content,
            "what is read was written"
        );
    }
}

/// 0 if the store passes, else 1.
pub fn check(store: &[u8]) -> u32 {
    let guarded = Guarded::new(store);
    let number = raw::check(guarded.content());
    guarded.verify(store);
    number
}

/// The number, and where the value stands.
pub fn look_up(store: &[u8], serial: u32) -> Found {
    let guarded = Guarded::new(store);
    let found = raw::look_up(guarded.content(), serial);
    guarded.verify(store);
    found
}

/// Runs a call that writes into `out`, of which every byte is the caller's to compare.
fn guarded(store: &[u8], out: &mut [u8], run: impl FnOnce(&[u8], &mut [u8]) -> Answer) -> Answer {
    let guarded = Guarded::new(store);
    let mut room = Guarded::new(out);
    let answer = run(guarded.content(), room.content_mut());
    guarded.verify(store);
    room.verify_guards();
    out.copy_from_slice(room.content());
    answer
}

pub fn print(store: &[u8], out: &mut [u8]) -> Answer {
    guarded(store, out, raw::print)
}

pub fn read_text(text: &[u8], out: &mut [u8]) -> Answer {
    guarded(text, out, raw::read_text)
}

/// Runs a change.
pub fn apply(call: &Call, store: &[u8], out: &mut [u8]) -> Answer {
    let given = call.clone();
    let answer = guarded(store, out, |store, out| changes::apply(&given, store, out));
    assert_eq!(&given, call, "the arguments were written");
    answer
}

/// Runs a change on the library and on the second implementation, each with a buffer of this content, panics where
/// number, length or a byte of the buffer differ, and hands back the answer and the buffer.
pub fn agreed(call: &Call, store: &[u8], buffer: &[u8]) -> (Answer, Vec<u8>) {
    let own = |out: &mut [u8]| apply(call, store, out);
    let second = |out: &mut [u8]| second::apply(call, store, out);
    same_answer(buffer, own, second)
        .unwrap_or_else(|why| panic!("{call:?} {why}; store {store:02x?}"))
}

/// Reads a text with both, as `agreed` runs a change.
pub fn agreed_text(text: &[u8], buffer: &[u8]) -> (Answer, Vec<u8>) {
    let own = |out: &mut [u8]| read_text(text, out);
    let second = |out: &mut [u8]| second::read_text(text, out);
    let shown = || String::from_utf8_lossy(text).to_string();
    same_answer(buffer, own, second)
        .unwrap_or_else(|why| panic!("read_text {why}; text {}", shown()))
}

/// The answer and the buffer that both leave, or what differs.
fn same_answer(
    buffer: &[u8],
    own: impl FnOnce(&mut [u8]) -> Answer,
    second: impl FnOnce(&mut [u8]) -> second::Answer,
) -> Result<(Answer, Vec<u8>), String> {
    let (mut out, mut other) = (buffer.to_vec(), buffer.to_vec());
    let (answer, expected) = (own(&mut out), second(&mut other));
    if (answer.number, answer.length) == (expected.number, expected.length) && out == other {
        return Ok((answer, out));
    }
    let byte = out.iter().zip(&other).position(|(a, b)| a != b);
    Err(format!(
        "into {} bytes: {answer:?}, wanted {expected:?}; first byte that differs: {byte:?}",
        buffer.len()
    ))
}
