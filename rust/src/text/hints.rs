//! Words that somebody may have meant.

use super::said::LONGEST_NAME;

/// The most known words that a hint is sought among.
const MOST_HINTED: usize = 1000;

/// How many letters of one word must change, come, go or swap with the next to
/// make it another. Neither is longer than a name.
fn distance(one: &[u8], other: &[u8]) -> usize {
    let same = |i: usize, j: usize| one[i - 1].eq_ignore_ascii_case(&other[j - 1]);
    // The last three rows of the table, the newest first.
    let mut rows = [[0; LONGEST_NAME + 1]; 3];
    for (j, first) in rows[0][..=other.len()].iter_mut().enumerate() {
        *first = j;
    }
    for i in 1..=one.len() {
        rows.rotate_right(1);
        let [row, before, two_before] = &mut rows;
        row[0] = i;
        for j in 1..=other.len() {
            let change = before[j - 1] + usize::from(!same(i, j));
            row[j] = change.min(before[j] + 1).min(row[j - 1] + 1);
            if i > 1 && j > 1 && same(i, j - 1) && same(i - 1, j) {
                row[j] = row[j].min(two_before[j - 2] + 1);
            }
        }
    }
    rows[0][other.len()]
}

/// How far one word is from another, where one letter in three may be wrong.
fn nearness(word: &str, name: &str) -> Option<usize> {
    let (short, long) = (word.len().min(name.len()), word.len().max(name.len()));
    if long > LONGEST_NAME || 3 * (long - short) > short {
        return None;
    }
    let away = match short {
        0..3 => usize::from(!word.eq_ignore_ascii_case(name)),
        _ => distance(word.as_bytes(), name.as_bytes()),
    };
    (3 * away <= short).then_some(away)
}

/// The known word that is nearest to one, if it may have been meant.
pub(super) fn nearest<'a>(word: &str, known: impl Iterator<Item = &'a str>) -> Option<&'a str> {
    let known: Vec<&str> = known.take(MOST_HINTED + 1).collect();
    if known.len() > MOST_HINTED {
        return None;
    }
    let near = known
        .iter()
        .filter_map(|&name| Some((nearness(word, name)?, name)));
    near.min().map(|(_, name)| name)
}

/// A hint at the known word that somebody may have meant.
pub fn hint<'a>(word: &str, known: impl Iterator<Item = &'a str>) -> String {
    match nearest(word, known) {
        Some(name) => format!("; did you mean '{name}'?"),
        None => String::new(),
    }
}
