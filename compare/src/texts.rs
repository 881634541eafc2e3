//! Texts read by the library and by the second implementation.

use crate::agreed_text;
use second::random::history::LONGEST;
use second::rng::Rng;

/// The store that a text gives, if any: as both read it into a buffer that is long enough. A store is also compared in
/// buffers that are just long enough, one byte short and empty, a refusal in one of any length.
pub fn read(rng: &mut Rng, text: &[u8]) -> Option<Vec<u8>> {
    // A text of seven bytes, `<a></a>`, can give two rows.
    let room = LONGEST.min(64 + 13 * text.len());
    let (answer, mut out) = agreed_text(text, &vec![0xEE; room]);
    if answer.number != 0 {
        assert_eq!(
            answer.number, 19,
            "no other refusal comes before the buffer's"
        );
        let (shorter, _) = agreed_text(text, &vec![0xEE; rng.below(room)]);
        assert_eq!(shorter.number, 19, "it comes before the buffer's");
        return None;
    }
    for (length, number) in [(answer.length, 0), (answer.length - 1, 18), (0, 18)] {
        let (shorter, _) = agreed_text(text, &vec![0xEE; length]);
        assert_eq!(shorter.number, number, "into {length} bytes");
    }
    out.truncate(answer.length);
    Some(out)
}
