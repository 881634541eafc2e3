//! What tests of histories share: the seed, what is counted, and one step of a
//! history with its book.

use super::calls;
use crate::layout;
use crate::rng::Rng;
use crate::store::Store;
use crate::{apply, check, rows, Answer, Book, Call, Row};
use std::fmt::Debug;
use std::sync::OnceLock;

/// The longest store that the ceilings allow.
pub const LONGEST: usize = 40 + 64 * 20 + 256 * 4 + 64 * 52 + 4096 * 44;

/// The seed of this run, from FORM_SEED or from the clock.
pub fn seed() -> u64 {
    let given = std::env::var("FORM_SEED").ok();
    let seed = match given.and_then(|text| text.parse().ok()) {
        Some(seed) => seed,
        None => {
            let now = std::time::SystemTime::now();
            let since = now.duration_since(std::time::UNIX_EPOCH);
            since.map_or(1, |duration| duration.as_nanos() as u64 % 1_000_000_000)
        }
    };
    println!("seed: run again with FORM_SEED={seed}");
    seed
}

/// Names the seed of one history, so that it can be run first and alone.
pub struct Named(pub u64);

impl Drop for Named {
    fn drop(&mut self) {
        if std::thread::panicking() {
            println!("it fails at once with FORM_SEED={}", self.0);
        }
    }
}

/// How often each change gave each number.
#[derive(Default)]
pub struct Counts {
    pub answers: [[usize; 19]; 17],
}

impl Counts {
    pub fn new() -> Counts {
        Counts::default()
    }

    pub fn note(&mut self, call: &Call, answer: Answer) {
        self.answers[call.number()][answer.number as usize] += 1;
    }

    pub fn add(&mut self, other: &Counts) {
        for (own, more) in self.answers.iter_mut().zip(&other.answers) {
            for (count, more) in own.iter_mut().zip(more) {
                *count += more;
            }
        }
    }

    /// How often the change was accepted.
    pub fn accepted(&self, change: usize) -> usize {
        self.answers[change][0]
    }

    /// How often the number was given, by any change.
    pub fn given(&self, number: usize) -> usize {
        self.answers.iter().map(|numbers| numbers[number]).sum()
    }

    pub fn print(&self) {
        println!("answers 0 to 18 of the changes");
        for (change, numbers) in self.answers.iter().enumerate() {
            if numbers.iter().any(|count| *count > 0) {
                let columns = numbers.map(|count| format!("{count:>7}"));
                println!("{change:>2}: {}", columns.concat());
            }
        }
    }
}

/// A store as bytes and as trees, and the book of how it came to be.
#[derive(Clone)]
pub struct Moment {
    pub bytes: Vec<u8>,
    pub store: Store,
    pub book: Book,
}

/// What the output buffers hold before a call.
fn background() -> &'static [u8] {
    static BYTES: OnceLock<Vec<u8>> = OnceLock::new();
    BYTES.get_or_init(|| Rng::new(1).bytes(LONGEST))
}

impl Moment {
    pub fn fresh() -> Moment {
        Moment::at(Store::fresh())
    }

    /// The start of a history at a store that was built.
    pub fn at(store: Store) -> Moment {
        let bytes = layout::encode(&store);
        assert_eq!(check(&bytes), 0, "a built store passes");
        let lines = rows(&bytes).expect("it passes");
        Moment {
            book: Book::starting(store.next_serial, store.form.clone(), lines),
            bytes,
            store,
        }
    }

    /// The start of a history at a text, of which this store was read.
    pub fn at_text(text: &[u8], read: Vec<u8>) -> Moment {
        let book = Book::of_text(text).expect("an accepted text starts a book");
        let store = agreeing(&read, &book, &"reading");
        let bytes = read;
        Moment { bytes, store, book }
    }

    pub fn random_call(&self, rng: &mut Rng) -> Call {
        calls::call(rng, &self.store)
    }

    /// Runs the call with a buffer of this length; the part of the buffer that
    /// the answer does not speak of keeps its content.
    pub fn run(&self, call: &Call, length: usize) -> (Answer, Vec<u8>) {
        let mut out = background()[..length].to_vec();
        let answer = apply(call, &self.bytes, &mut out);
        assert!(answer.number == 0 || answer.length == 0, "{call:?}");
        let kept = &out[answer.length..];
        let before = &background()[answer.length..length];
        assert!(kept == before, "{call:?} wrote past its length");
        out.truncate(answer.length);
        (answer, out)
    }

    /// Runs the call, takes the store it wrote and compares it with the book.
    pub fn step(&mut self, rng: &mut Rng, call: &Call) -> Answer {
        let (mut answer, mut written) = self.run(call, LONGEST);
        if answer.number == 0 && rng.chance(10) {
            let (exact, bytes) = self.run(call, answer.length);
            assert_eq!((exact, &bytes), (answer, &written), "{call:?}");
            let short = match rng.below(2) {
                0 => answer.length - 1,
                _ => rng.below(answer.length),
            };
            (answer, written) = self.run(call, short);
            assert_eq!(answer.number, 18, "{call:?} in a buffer of {short} bytes");
        }
        self.note(call, (answer.number == 0).then_some(written));
        answer
    }

    /// Feeds the book. The store that an accepted call wrote is compared with
    /// it, and the history goes on there; a refused one wrote none.
    pub fn note(&mut self, call: &Call, written: Option<Vec<u8>>) {
        let before = self.book.rows();
        self.book.note(call, written.is_some());
        let Some(written) = written else {
            return;
        };
        let left = agreeing(&written, &self.book, call);
        kept_and_made(call, &before, &self.book.rows(), self.store.next_serial);
        self.store = left;
        self.bytes = written;
    }

    /// No serial was used again, and none below the next one left out. The
    /// history began at the fresh store or at a text.
    pub fn each_serial_made_once(&self) {
        let mut serials: Vec<u32> = self.book.lines().map(|line| line.row.serial).collect();
        serials.sort();
        assert!(serials.into_iter().eq(1..self.book.next_serial));
    }
}

/// The trees of the store that a call left, which is what the book says.
fn agreeing(written: &[u8], book: &Book, call: &impl Debug) -> Store {
    assert_eq!(check(written), 0, "{call:?} left a bad store");
    let left = layout::decode(written).expect("it passes");
    assert!(layout::encode(&left) == written, "{call:?}");
    assert_eq!(left.next_serial, book.next_serial, "{call:?}");
    assert_eq!(left.form, book.form, "{call:?}");
    let rows = rows(written).expect("it passes");
    assert_eq!(rows, book.rows(), "{call:?}");
    left
}

/// What the taking rule says of any accepted call, whatever the book holds:
/// rows that stay keep their order and content, but for one value that 14 or
/// 16 sets; only five changes take rows; new ones have the next serials in
/// document order.
fn kept_and_made(call: &Call, before: &[Row], after: &[Row], next_serial: u32) {
    let (kept, made): (Vec<&Row>, Vec<&Row>) =
        after.iter().partition(|row| row.serial < next_serial);
    let mut old = before.iter();
    let mut values = 0;
    for row in &kept {
        let same = old.find(|old| old.serial == row.serial);
        let mut same = same.expect("a row that was there, in its order").clone();
        values += usize::from(same.value != row.value);
        same.value.clone_from(&row.value);
        assert_eq!(&same, *row, "{call:?}");
    }
    let sets = usize::from(matches!(call.number(), 14 | 16));
    assert!(values <= sets, "{call:?} set {values} values");
    let takes = matches!(call.number(), 4 | 5 | 10 | 13 | 15);
    assert!(takes || kept.len() == before.len(), "{call:?} took rows");
    let serials = made.iter().map(|row| u64::from(row.serial));
    assert!(
        serials.eq((u64::from(next_serial)..).take(made.len())),
        "{call:?}"
    );
}
