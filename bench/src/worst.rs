//! Stores that make the calls work the most, against libxml2 on an ordinary list, and how the calls grow on them.

mod cases;
mod stores;

use crate::timing::{times, Spread, Work};
use crate::{libxml2, ordinary, LENGTH};
use cases::{Case, CASES};
use compare::asked::{value_serial, Asked};
use compare::changes;
use second::layout::encode;
use second::print::text_of;
use second::store::Store;
use std::time::Instant;

/// At most so many times what libxml2 takes to parse and validate the ordinary list of 4,096 rows.
const BAR: f64 = 8.0;
/// At most so many times as fast as the rows: once, and some for the machine.
const GROWTH_BAR: f64 = 1.2;
/// At most.
const TURNS: usize = 15;

/// A store, its text, and the calls on them.
struct Stage {
    rows: usize,
    bytes: Vec<u8>,
    text: Vec<u8>,
    calls: Vec<Asked>,
}

impl Stage {
    fn of(case: &Case, rows: usize) -> Stage {
        let store = (case.store)(rows);
        let bytes = encode(&store);
        assert_eq!(Asked::Check.run(&bytes, &mut []), 0, "{}", case.name);
        let look_up = Asked::LookUp(value_serial(&store));
        let reading = [Asked::Check, look_up, Asked::Print, Asked::ReadText];
        let changes = case.changes.iter().map(|line| change(line, &store));
        Stage {
            rows: store.row_count(),
            text: text_of(&store),
            bytes,
            calls: reading.into_iter().chain(changes).collect(),
        }
    }

    fn input(&self, call: usize) -> &[u8] {
        match self.calls[call] {
            Asked::ReadText => &self.text,
            _ => &self.bytes,
        }
    }

    fn run(&self, call: usize, out: &mut [u8]) -> u32 {
        self.calls[call].run(self.input(call), out)
    }

    /// What both implementations answer: accepted, or refused at the end.
    fn answer(&self, call: usize, out: &mut [u8]) -> u32 {
        let (asked, number) = (&self.calls[call], self.run(call, out));
        let refusal = match asked {
            Asked::LookUp(_) => 7,
            Asked::ReadText => 0,
            _ => 16,
        };
        assert_eq!(number, asked.run_second(self.input(call), out));
        assert!([0, refusal].contains(&number), "{}", asked.name());
        number
    }
}

fn change(line: &str, store: &Store) -> Asked {
    let mut last = 0;
    store.for_each_element(&mut |element| last = element.serial);
    let children = store.documents[0].content.len();
    let line = line.replace("LAST", &last.to_string());
    let line = line.replace("CHILDREN", &children.to_string());
    Asked::Change(changes::of_line(&line))
}

/// What a call took on the largest of the stores.
struct Measured {
    answer: u32,
    time: f64,
    /// To libxml2 on the text.
    ratio: Spread,
    /// From the first store to the second, by that of the rows; none where the answers differ.
    growth: Option<Spread>,
}

impl Measured {
    fn of([small, grown, large]: &[Stage; 3], call: usize, text: &[u8]) -> Measured {
        let [mut out, mut second, mut third] = [(); 3].map(|_| vec![0; LENGTH]);
        let answer = large.answer(call, &mut out);
        let is_same = small.answer(call, &mut second) == grown.answer(call, &mut third);
        let works = [
            Work::warm(|| _ = large.run(call, &mut out)),
            Work::warm(|| _ = small.run(call, &mut second)),
            Work::warm(|| _ = grown.run(call, &mut third)),
            Work::warm(|| libxml2::validate(text)),
        ];
        let [times, smaller, larger, libxml2] = times(TURNS, works);
        let rows = grown.rows as f64 / small.rows as f64;
        Measured {
            answer,
            ratio: Spread::ratio(&times, 1.0, &libxml2),
            growth: is_same.then(|| Spread::ratio(&larger, rows, &smaller)),
            time: Spread::of(times).median,
        }
    }

    fn is_over(&self) -> bool {
        let growth = self.growth.as_ref();
        self.ratio.is_over(BAR) || growth.is_some_and(|growth| growth.is_over(GROWTH_BAR))
    }

    fn print(&self, store: &str, rows: usize, call: &str) {
        let growth = self.growth.as_ref();
        let growth = growth.map_or("-  ".to_string(), |growth| growth.marked(GROWTH_BAR));
        let Measured { answer, time, .. } = self;
        let ratio = self.ratio.marked(BAR);
        println!("{store:34}{rows:>6}  {call:24}{answer:>6}{time:>10.0}{ratio:>22}{growth:>22}");
    }
}

pub fn print() {
    println!("Worst stores: microseconds of the processor, the ratio to what libxml2 takes to parse and validate the ordinary list of 4,096 rows (bar {BAR}), and the growth");
    println!("from a store of 506 rows to one of 4,006, by the growth of the rows (bar {GROWTH_BAR}; - where the two answer different numbers). All are warm, each run twice in");
    println!("a turn; medians of up to {TURNS} turns. Answers: 0 accepted, else the number of the refusal.\n");
    println!(
        "{:34}{:>6}  {:24}{:>6}{:>10}{:>20}{:>22}",
        "store", "rows", "call", "answer", "time", "libxml2", "growth"
    );
    let (start, text) = (Instant::now(), ordinary::full_document());
    let (mut calls, mut over) = (0, 0);
    for case in CASES {
        let sizes = case.rows.map(|rows| Stage::of(&case, rows));
        let large = &sizes[2];
        for (call, asked) in large.calls.iter().enumerate() {
            let measured = Measured::of(&sizes, call, &text);
            measured.print(case.name, large.rows, asked.name());
            calls += 1;
            over += usize::from(measured.is_over());
        }
    }
    let seconds = start.elapsed().as_secs();
    println!("\n{over} of {calls} calls are over a bar; {seconds} seconds");
}
