//! Which word was meant by a mistyped one.

/// The word nearest to what was typed, if it is near: a letter in three may be wrong, missing, too many or swapped with
/// the next.
fn nearest<'a>(typed: &str, words: impl Iterator<Item = &'a str>) -> Option<&'a str> {
    let near = words.map(|word| (distance(typed, word), word));
    let (steps, word) = near.min_by_key(|(steps, _)| *steps)?;
    let most = typed.chars().count().max(word.chars().count()) / 3;
    (steps <= most.max(1)).then_some(word)
}

/// What to say of a word that is none of these: the one that was meant, else all that there are.
pub fn instead(typed: &str, words: &[&str]) -> String {
    match (nearest(typed, words.iter().copied()), words) {
        (Some(word), _) => format!("did you mean {word}?"),
        (None, []) => "there are: none".to_string(),
        (None, _) => format!("there are: {}", words.join(", ")),
    }
}

/// How many letters must be put in, taken out, changed or swapped with the next.
fn distance(one: &str, other: &str) -> usize {
    let (one, other): (Vec<char>, Vec<char>) = (one.chars().collect(), other.chars().collect());
    let mut table = vec![vec![0; other.len() + 1]; one.len() + 1];
    for i in 0..=one.len() {
        for j in 0..=other.len() {
            table[i][j] = match (i, j) {
                (0, _) => j,
                (_, 0) => i,
                _ => {
                    let changed = table[i - 1][j - 1] + usize::from(one[i - 1] != other[j - 1]);
                    let mut least = changed.min(table[i - 1][j] + 1).min(table[i][j - 1] + 1);
                    if i > 1 && j > 1 && one[i - 1] == other[j - 2] && one[i - 2] == other[j - 1] {
                        least = least.min(table[i - 2][j - 2] + 1);
                    }
                    least
                }
            };
        }
    }
    table[one.len()][other.len()]
}
