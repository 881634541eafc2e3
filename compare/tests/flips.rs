//! Every single bit of the store that clubform leaves, flipped: the library judges as the second implementation does.
//! Some of them give another store that passes, which only a checksum beside the store can tell.

use second::testing::play::clubform;

#[test]
fn single_bits() {
    let mut bytes = clubform().bytes;
    let bits = 8 * bytes.len();
    let mut passing = 0;
    for bit in 0..bits {
        bytes[bit / 8] ^= 1 << (bit % 8);
        let number = compare::check(&bytes);
        assert_eq!(number, second::check(&bytes), "bit {bit}");
        passing += usize::from(number == 0);
        bytes[bit / 8] ^= 1 << (bit % 8);
    }
    println!("{passing} of {bits} flipped bits pass the check");
    // Those of the value `7`, which stays in the range of values, are among them.
    assert!((1..bits / 4).contains(&passing));
}
