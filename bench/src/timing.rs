//! Times of works that are done in turn, so that a machine that is slow for a while is slow for all of them. They are what the thread takes of its
//! processor, so that what other programs take does not count.

use std::ffi::c_int;
use std::fmt;

/// Where the turns take long, in microseconds, there are fewer of them.
const LONG: f64 = 150_000.0;
const LEAST_TURNS: usize = 3;

/// Of Linux with 64 bits.
#[repr(C)]
struct Moment {
    seconds: i64,
    nanoseconds: i64,
}

extern "C" {
    fn clock_gettime(clock: c_int, moment: *mut Moment) -> c_int;
}

/// What this thread has taken, in microseconds.
fn taken() -> f64 {
    const THREAD: c_int = 3;
    let (seconds, nanoseconds) = (0, 0);
    let mut moment = Moment {
        seconds,
        nanoseconds,
    };
    // SAFETY: the moment is there to be written.
    let answer = unsafe { clock_gettime(THREAD, &mut moment) };
    assert_eq!(answer, 0, "there is such a clock");
    moment.seconds as f64 * 1e6 + moment.nanoseconds as f64 / 1e3
}

/// A work whose time counts.
pub struct Work<'a> {
    is_warm: bool,
    run: Box<dyn FnMut() + 'a>,
}

impl<'a> Work<'a> {
    /// Once in a turn, after the works before it.
    pub fn once(run: impl FnMut() + 'a) -> Work<'a> {
        let (is_warm, run) = (false, Box::new(run));
        Work { is_warm, run }
    }

    /// Twice in a turn, of which the second counts: what it reads and writes was just used.
    pub fn warm(run: impl FnMut() + 'a) -> Work<'a> {
        let (is_warm, run) = (true, Box::new(run));
        Work { is_warm, run }
    }

    /// Without what looking at the clock takes.
    fn time(&mut self) -> f64 {
        if self.is_warm {
            (self.run)();
        }
        let [before, start] = [(); 2].map(|_| taken());
        (self.run)();
        (taken() - start) - (start - before)
    }
}

/// The times of some works, turn by turn.
pub fn times<const N: usize>(turns: usize, mut works: [Work; N]) -> [Vec<f64>; N] {
    let mut times = [(); N].map(|_| Vec::with_capacity(turns));
    let start = taken();
    for turn in 0..turns {
        if turn >= LEAST_TURNS && taken() - start > LONG {
            break;
        }
        for (work, times) in works.iter_mut().zip(&mut times) {
            times.push(work.time());
        }
    }
    times
}

/// The median of some numbers, and the ends of the middle half of them.
pub struct Spread {
    pub median: f64,
    low: f64,
    high: f64,
}

impl Spread {
    pub fn of(numbers: impl IntoIterator<Item = f64>) -> Spread {
        let mut numbers: Vec<f64> = numbers.into_iter().collect();
        numbers.sort_by(f64::total_cmp);
        let at = |part: usize| numbers[(numbers.len() - 1) * part / 4];
        Spread {
            median: at(2),
            low: at(1),
            high: at(3),
        }
    }

    /// Of what each work took by so many times what the other took in the same turn.
    pub fn ratio(times: &[f64], count: f64, others: &[f64]) -> Spread {
        let turns = times.iter().zip(others);
        Spread::of(turns.map(|(time, other)| time / (count * other)))
    }

    /// With a mark if it is over the bar.
    pub fn marked(&self, bar: f64) -> String {
        let over = if self.is_over(bar) { '!' } else { ' ' };
        format!("{self} {over}")
    }

    pub fn is_over(&self, bar: f64) -> bool {
        self.median > bar
    }
}

impl fmt::Display for Spread {
    fn fmt(&self, out: &mut fmt::Formatter<'_>) -> fmt::Result {
        let digits = if self.median < 10.0 { 2 } else { 0 };
        let text = format!(
            "{:.digits$} ({:.digits$}-{:.digits$})",
            self.median, self.low, self.high
        );
        out.pad(&text)
    }
}
