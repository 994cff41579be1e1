//! Lengths of the lent lists and buffers.

use super::aims::Aims;
use super::numbers::Rng;
use crate::{MOST_PATHS, MOST_PREFIXES, MOST_RECORDS};

/// A length for the list where `count` places are needed.
pub fn places(rng: &mut Rng, count: usize) -> usize {
    match rng.below(6) {
        0 => 0,
        1 => count.saturating_sub(1),
        2 | 3 => count,
        4 => count + 1,
        _ => MOST_RECORDS,
    }
}

/// A length in bytes for the entries of so many prefixes of a range.
pub fn room(rng: &mut Rng, range: &[u8], count: usize) -> usize {
    let entry = range.len() / 2 + 1;
    match rng.below(8) {
        // in the last entry, or right after it
        0 => (count * entry + rng.below(entry)).saturating_sub(rng.below(entry)),
        // as many bytes as there are prefixes
        1 => count,
        2 => rng.below(count * entry + 1),
        3 => MOST_PREFIXES * entry,
        _ => places(rng, count * entry),
    }
}

/// A length in bytes for a final image or a text of so many.
pub fn byte_room(rng: &mut Rng, bytes: usize) -> usize {
    match rng.below(4) {
        0 => bytes + rng.below(300),
        1 => rng.below(bytes + 1),
        _ => places(rng, bytes),
    }
}

/// How many places there must be for a batch, whatever its paths ask for.
pub fn enough_places(text: &[u8], aims: &Aims) -> usize {
    let paths = text.split(|&byte| byte == b'\n').count();
    paths.min(MOST_PATHS) * (4 + aims.records)
}

/// Reason and end of each of the `count` answers in the list of a batch.
pub fn answers(list: &[u32], count: u32) -> Vec<(u32, usize)> {
    let mut end = 0;
    (0..count)
        .map(|_| {
            let (reason, count) = (list[end + 1], list[end + 3]);
            end += 4 + if reason == 0 { count as usize } else { 0 };
            (reason, end)
        })
        .collect()
}

/// A length for the list of a batch whose answers, where there are enough
/// places, are these.
pub fn batch_places(rng: &mut Rng, answers: &[(u32, usize)]) -> usize {
    let all = answers.last().map_or(0, |answer| answer.1);
    match rng.below(8) {
        0 => rng.below(6),
        1 => all,
        2 => all.saturating_sub(1),
        3 => all + rng.below(6),
        // about the end of an answer
        4 | 5 if all > 0 => {
            let end = rng.pick(answers).1;
            (end + rng.below(7)).saturating_sub(2)
        }
        _ => rng.below(all + 1),
    }
}
