//! Handles, names and host names; texts that are spoilt.

use super::numbers::Rng;

/// How the handles and names of an image look.
#[derive(Clone, Copy)]
pub(super) enum Style {
    /// Few characters, so that many texts start alike or differ by case only.
    Few,
    /// Every allowed character.
    All,
    /// As in a registry.
    Plain,
}

const LENGTHS: [usize; 12] = [1, 2, 3, 7, 8, 9, 15, 16, 17, 31, 63, 64];

fn text_length(rng: &mut Rng) -> usize {
    match rng.below(8) {
        0 => *rng.pick(&LENGTHS),
        1 => rng.between(1, 64),
        _ => rng.between(1, 12),
    }
}

/// A handle (`low` is 21 hex) or name (20 hex).
pub(super) fn text(rng: &mut Rng, style: Style, low: u8) -> Vec<u8> {
    let length = text_length(rng);
    match style {
        Style::Few => {
            let alphabet: &[u8] = if low == 0x20 { b"aAbB -" } else { b"aAbB1-" };
            (0..length.min(6)).map(|_| *rng.pick(alphabet)).collect()
        }
        Style::All => {
            let mut text = Vec::new();
            while text.len() < length {
                let byte = rng.between(usize::from(low), 0x7E) as u8;
                if byte != b'*' {
                    text.push(byte);
                }
            }
            text
        }
        Style::Plain => {
            let start = *rng.pick(&["NET-", "AS", "Lab ", "ENT-", "physics"]);
            let mut text = format!("{start}{}", rng.below(300)).into_bytes();
            text.retain(|&byte| byte >= low);
            text
        }
    }
}

pub(super) fn label(rng: &mut Rng, length: usize) -> Vec<u8> {
    let ends = b"abcdefghijklmnopqrstuvwxyz0123456789";
    let mut label: Vec<u8> = (0..length)
        .map(|_| *rng.pick(b"abcdefghijklmnopqrstuvwxyz0123456789-----"))
        .collect();
    label[0] = *rng.pick(ends);
    label[length - 1] = *rng.pick(ends);
    label
}

/// A host name in lower case.
pub(super) fn host(rng: &mut Rng) -> Vec<u8> {
    let words: [&[u8]; 12] = [
        b"a",
        b"b",
        b"ab",
        b"a-b",
        b"www",
        b"ns1",
        b"ns2",
        b"exam",
        b"example",
        b"com",
        b"org",
        b"xn--fo-5ja",
    ];
    match rng.below(12) {
        // the longest there is, and nearly
        0 => {
            let last = rng.between(58, 61);
            [63, 63, 63, last]
                .map(|length| label(rng, length))
                .join(&b'.')
        }
        1 => {
            let length = *rng.pick(&[1, 2, 7, 8, 9, 15, 16, 17, 62, 63]);
            let first = label(rng, length);
            [&first, *rng.pick(&words)].join(&b'.')
        }
        2 => {
            let length = rng.between(1, 63);
            label(rng, length)
        }
        3 => {
            let mut labels = vec![label(rng, 1)];
            while labels.concat().len() + 2 * labels.len() < 250 && !rng.once_in(40) {
                let length = rng.between(1, 3);
                labels.push(label(rng, length));
            }
            let mut name = labels.join(&b'.');
            name.truncate(253);
            while matches!(name.last(), Some(b'.' | b'-')) {
                name.pop();
            }
            name
        }
        _ => {
            let count = rng.between(1, 4);
            (0..count)
                .map(|_| *rng.pick(&words))
                .collect::<Vec<_>>()
                .join(&b'.')
        }
    }
}

pub(super) fn insert(text: &mut Vec<u8>, at: usize, more: &[u8]) {
    text.splice(at..at, more.iter().copied()).for_each(drop);
}

/// Changes the case of some letters.
pub(super) fn fold_some(rng: &mut Rng, text: &mut [u8]) {
    for byte in text {
        if byte.is_ascii_alphabetic() && rng.once_in(2) {
            *byte ^= 0x20;
        }
    }
}

pub(super) fn spoil_text(rng: &mut Rng, text: &mut Vec<u8>) {
    let at = rng.below(text.len() + 1);
    match rng.below(8) {
        0 => text.clear(),
        1 => text.truncate(at),
        2 => {
            let length = *rng.pick(&[63, 64, 65, 65, 252, 253, 254, 254, 257]);
            text.resize(length, b'a');
        }
        3 => text.insert(at, b'*'),
        4 => text.push(b'*'),
        5 => text.insert(at, *rng.pick(b"\x00\x1F\x20\x7F%/?&=#+.-")),
        6 => fold_some(rng, text),
        _ => text.push(*rng.pick(b"ab01~ .")),
    }
}
