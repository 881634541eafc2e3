//! All calls on finish lists as they stand in a box: what they take beside others on a list of 4,096 rows, and how they grow from 64 rows on.

use crate::libxml2;
use crate::lists::{document, list, printed, Room};
use crate::timing::{times, Spread, Work};
use crate::LENGTH;
use compare::asked::Asked;
use compare::changes;
use second::Call;
use std::hint::black_box;

const SIZES: [usize; 4] = [64, 256, 1024, FULL];
const FULL: usize = 4096;
const TURNS: usize = 51;
/// So many in a row, as one takes little.
const COPIES: usize = 16;

/// A change as the vectors write it, without buffers, and the list that it is made on: its room, and changes of the form before there are finishers.
struct Change {
    line: &'static str,
    room: Room,
    before: &'static [&'static str],
}

/// On a list with room for one more finisher.
const fn one(line: &'static str) -> Change {
    let (room, before) = (Room::One, &[]);
    Change { line, room, before }
}

/// On a list with room for one more row in each finisher.
const fn each(line: &'static str, before: &'static [&'static str]) -> Change {
    let room = Room::Each;
    Change { line, room, before }
}

/// The finisher with serial 2 was made first, so it is the last in the list; LAST stands for the number of finishers. Changes 3, 5, 8 and 9 make a row in
/// each finisher, 4 takes two.
const CHANGES: [Change; 16] = [
    one("create_definition x7465616d 2"),
    one("destroy_definition 4"),
    each("insert_element 1 p2 4 0 x2d", &[]),
    one("remove_element 1 p2"),
    each(
        "change_quantifier 1 p3 0 x2d",
        &["insert_element 1 p2 4 1 x"],
    ),
    one("convert_to_group 1 p1 2 1"),
    each("flatten_group 1 p1", &["convert_to_group 1 p1 2 1"]),
    each(
        "change_group_quantifier 1 p3 0 x2d",
        &[
            "insert_element 1 p2 4 0 x2d",
            "convert_to_group 1 p3 1 1",
            "change_group_quantifier 1 p3 1 x",
        ],
    ),
    each("add_attribute 1 x6e6f 1 x2d", &[]),
    one("destroy_attribute 0"),
    one("add_document 1 x31393a3035"),
    one("add_element 1 LAST 1 x31393a3035"),
    one("destroy_element 2"),
    one("set_attribute 27 0 x31393a3035"),
    one("destroy_attribute_row 2 0"),
    one("set_text 3 x31393a3035"),
];

/// A call and the list that it is made on.
struct Case {
    asked: Asked,
    store: Vec<u8>,
    /// What the call reads: the list's store, or its text.
    input: Vec<u8>,
}

impl Change {
    fn case(&self, rows: usize) -> Case {
        let finishers = self.room.finishers(rows);
        let line = self.line.replace("LAST", &finishers.to_string());
        let before = self.before.iter().map(|line| changes::of_line(line));
        let before: Vec<Call> = before.collect();
        let asked = Asked::Change(changes::of_line(&line));
        Case::of(asked, list(finishers, &before))
    }
}

/// The list that the calls which only read are made on.
fn plain_list(rows: usize) -> Vec<u8> {
    list(Room::One.finishers(rows), &[])
}

/// The text of the full list.
pub fn full_document() -> Vec<u8> {
    document(&plain_list(FULL))
}

/// All calls on lists of at most so many rows.
fn cases(rows: usize) -> Vec<Case> {
    let store = plain_list(rows);
    let reading = [
        Asked::Check,
        Asked::LookUp(4),
        Asked::Print,
        Asked::ReadText,
    ];
    let reading = reading.map(|asked| Case::of(asked, store.clone()));
    let changes = CHANGES.iter().map(|change| change.case(rows));
    reading.into_iter().chain(changes).collect()
}

/// What a call may take at most, by what libxml2 takes, by what the check of its own store takes and by what the second
/// implementation takes.
fn bars(asked: &Asked) -> [f64; 3] {
    const ANY: f64 = f64::INFINITY;
    match asked {
        Asked::Check => [0.15, ANY, ANY],
        Asked::LookUp(_) => [ANY; 3],
        Asked::Print => [0.35, ANY, ANY],
        Asked::ReadText => [0.5, ANY, 1.0],
        Asked::Change(_) => [0.35, 2.5, ANY],
    }
}

impl Case {
    fn of(asked: Asked, store: Vec<u8>) -> Case {
        let input = match asked {
            Asked::ReadText => printed(&store),
            _ => store.clone(),
        };
        Case {
            asked,
            store,
            input,
        }
    }

    fn run(&self, out: &mut [u8]) {
        let number = self.asked.run(&self.input, out);
        assert_eq!(number, 0, "{}", self.asked.name());
    }

    fn run_second(&self, out: &mut [u8]) {
        let number = self.asked.run_second(&self.input, out);
        assert_eq!(number, 0, "{}", self.asked.name());
    }

    fn run_libxml2(&self, text: &[u8]) {
        match &self.asked {
            Asked::Check | Asked::LookUp(_) | Asked::ReadText => libxml2::validate(text),
            _ => assert!(libxml2::rewrite(text) > 0),
        }
    }

    fn run_check(&self) {
        assert_eq!(Asked::Check.run(&self.store, &mut []), 0);
    }

    fn run_copies(&self, out: &mut [u8]) {
        for _ in 0..COPIES {
            black_box(&mut *out)[..self.store.len()].copy_from_slice(&self.store);
        }
    }

    fn print_ratios(&self) {
        let [mut out, mut other, mut copy] = [(); 3].map(|_| vec![0; LENGTH]);
        let text = document(&self.store);
        let [own, check, second, libxml2, copies] = times(
            TURNS,
            [
                Work::once(|| self.run(&mut out)),
                Work::once(|| self.run_check()),
                Work::once(|| self.run_second(&mut other)),
                Work::once(|| self.run_libxml2(&text)),
                Work::warm(|| self.run_copies(&mut copy)),
            ],
        );
        let to = |other: &[f64]| Spread::ratio(&own, 1.0, other);
        let [check, second, libxml2] = [&check, &second, &libxml2].map(|other| to(other));
        let copy = Spread::ratio(&own, 1.0 / COPIES as f64, &copies);
        let [most, most_checks, most_second] = bars(&self.asked);
        println!(
            "{:24}{:>8.0}{:>20}{:>20}{:>20}{copy:>20}",
            self.asked.name(),
            Spread::of(own).median,
            libxml2.marked(most),
            check.marked(most_checks),
            second.marked(most_second),
        );
    }
}

pub fn print_ratios() {
    println!("Finish lists of at most 4,096 rows: microseconds of the processor, and the ratio to what others take in the same turn; medians of {TURNS} turns, in brackets the");
    println!("middle half. libxml2 parses and validates the printed text, and beside print and the changes it writes it out again too. The check is that of the");
    println!("call's own store, of read_text that of the store which was printed. The copy of the store is warm: a loop of {COPIES} into a buffer that was just used.");
    println!("Bars, and ! for what is over its bar: of libxml2 0.15 for the check, 0.35 for print and each change and 0.5 for read_text; of the check 2.5 for each");
    println!("change; of second 1.0 for read_text.\n");
    println!(
        "{:24}{:>8}{:>18}{:>20}{:>20}{:>22}",
        "call", "time", "libxml2", "check", "second", "warm copy"
    );
    for case in cases(FULL) {
        case.print_ratios();
    }
}

/// The sizes are measured in turn.
pub fn print_growth() {
    let sizes = SIZES.map(cases);
    let [a, b, c, d] = SIZES;
    println!("Finish lists of at most so many rows: microseconds of the processor, and the last by the first; the rows grow 64-fold.\n");
    println!("{:24}{a:>10}{b:>10}{c:>10}{d:>10}{:>20}", "call", "growth");
    for (index, case) in sizes[0].iter().enumerate() {
        let works = sizes.each_ref().map(|cases| {
            let mut out = vec![0; LENGTH];
            Work::once(move || cases[index].run(&mut out))
        });
        let times = times(TURNS, works);
        print!("{:24}", case.asked.name());
        for times in &times {
            print!("{:>10.0}", Spread::of(times.iter().copied()).median);
        }
        println!("{:>20}", Spread::ratio(&times[3], 1.0, &times[0]));
    }
}
