//! Random stores, damaged stores and random bytes, and texts of such stores: the library and the second implementation
//! read them alike.

use compare::reading_out::Readings;
use second::random::history::seed;

const STRINGS: usize = 200_000;

#[test]
fn the_same_answers_on_any_bytes() {
    let mut readings = Readings::from(seed());
    while readings.strings < STRINGS {
        readings.round();
    }
    let (strings, passing, texts) = (readings.strings, readings.passing, readings.texts);
    println!("{strings} byte strings, {passing} of them passing; {texts} texts");
    assert!(passing > STRINGS / 20);
}
