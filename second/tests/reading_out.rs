//! Look-up and printing on random stores.

use second::layout::encode;
use second::print::text_of;
use second::random::damage::damaged;
use second::random::documents;
use second::random::history::seed;
use second::rng::Rng;
use second::{check, look_up, print, rows};

#[test]
fn look_up_finds_every_value() {
    let mut rng = Rng::new(seed());
    for _ in 0..300 {
        let store = documents::store(&mut rng, 8, 8, 200);
        let bytes = encode(&store);
        let mut number = 99;
        for row in rows(&bytes).expect("it passes") {
            let part = look_up(&bytes, row.serial, &mut number);
            match row.value {
                Some(value) => assert_eq!((number, part), (0, &value[..])),
                None => assert_eq!((number, part), (7, &[][..])),
            }
        }
        for absent in [0, store.next_serial, u32::MAX] {
            let part = look_up(&bytes, absent, &mut number);
            assert_eq!((number, part), (7, &[][..]));
        }
        let bad = damaged(&mut rng, &bytes);
        if check(&bad) == 1 {
            let part = look_up(&bad, 1, &mut number);
            assert_eq!((number, part), (1, &[][..]));
        }
    }
}

#[test]
fn printing_needs_its_length_and_no_more() {
    let mut rng = Rng::new(seed());
    for _ in 0..300 {
        let store = documents::store(&mut rng, 8, 8, 200);
        let (bytes, text) = (encode(&store), text_of(&store));
        let length = text.len();
        let mut out = vec![0xee; length + 3];
        let answer = print(&bytes, &mut out);
        assert_eq!((answer.number, answer.length), (0, length));
        assert_eq!(out, [&text[..], &[0xee; 3]].concat());
        out.fill(0xee);
        let answer = print(&bytes, &mut out[..length - 1]);
        assert_eq!((answer.number, answer.length), (18, 0));
        assert!(out.iter().all(|&byte| byte == 0xee));
        let bad = damaged(&mut rng, &bytes);
        if check(&bad) == 1 {
            let answer = print(&bad, &mut out);
            assert_eq!((answer.number, answer.length), (1, 0));
            assert!(out.iter().all(|&byte| byte == 0xee));
        }
    }
}
