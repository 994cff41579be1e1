//! Images that mostly have a defect.

use super::images::drafts;
use super::numbers::Rng;
use super::records::{encode, largest, Draft};
use super::texts::{insert, label};
use crate::{AS, DOMAIN, NAMESERVER};

/// An image that mostly has a defect.
pub fn damaged(rng: &mut Rng) -> Vec<u8> {
    let mut drafts = drafts(rng);
    let times = if rng.once_in(4) { 2 } else { 1 };
    if drafts.is_empty() || rng.once_in(3) {
        let mut image = encode(&drafts);
        for _ in 0..times {
            damage_bytes(rng, &mut image);
        }
        return image;
    }
    for _ in 0..times {
        damage_records(rng, &mut drafts);
    }
    encode(&drafts)
}

pub(super) fn damage_bytes(rng: &mut Rng, image: &mut Vec<u8>) {
    // Half of the time at the start of a field, where tags and lengths are.
    let mut at = rng.below(image.len().max(1));
    if rng.once_in(2) {
        while at + 1 < image.len() && !(0x10..=0x23).contains(&image[at]) {
            at += 1;
        }
        at = (at + rng.below(3)).min(image.len().saturating_sub(1));
    }
    match rng.below(10) {
        0 => image.truncate(at),
        1 => {
            let left = rng.below(5);
            image.truncate(left);
        }
        2 => {
            let more = rng.between(1, 8);
            image.extend((0..more).map(|at| [0x15, 0, 2, 0x21, 0, 0, 1, 2][at]));
        }
        3 if !image.is_empty() => {
            image.remove(at);
        }
        4 => image.insert(at, rng.word64() as u8),
        5 if image.len() > 4 => {
            let start = rng.below(4);
            image[start] ^= 1 << rng.below(8);
        }
        6 if !image.is_empty() => image[at] = rng.word64() as u8,
        7 if !image.is_empty() => {
            image[at] = image[at].wrapping_add(*rng.pick(&[1, 255]));
        }
        _ if !image.is_empty() => image[at] ^= 1 << rng.below(8),
        _ => image.push(1),
    }
}

pub(super) fn damage_records(rng: &mut Rng, drafts: &mut Vec<Draft>) {
    if drafts.is_empty() {
        return;
    }
    let at = rng.below(drafts.len());
    let other = rng.below(drafts.len());
    let next = (at + 1).min(drafts.len() - 1);
    match rng.below(22) {
        0 => drafts.swap(at, other),
        1 => drafts.swap(at, next),
        2 => {
            let copy = drafts[at].clone();
            drafts.insert(next, copy);
        }
        3 => {
            let copy = drafts[at].clone();
            drafts.insert(other, copy);
        }
        4 => {
            drafts.remove(at);
        }
        5 => drafts[at].tag = rng.between(0x0F, 0x17) as u8,
        6 => {
            let field = rng.below(drafts[at].fields.len());
            drafts[at].fields.remove(field);
        }
        7 => {
            let field = rng.below(drafts[at].fields.len());
            let copy = drafts[at].fields[field].clone();
            drafts[at].fields.insert(field, copy);
        }
        8 => {
            let field = rng.below(drafts[at].fields.len());
            let last = drafts[at].fields.len() - 1;
            drafts[at].fields.swap(field, last);
        }
        9 => {
            let field = rng.below(drafts[at].fields.len());
            drafts[at].fields[field].0 = rng.between(0x1F, 0x24) as u8;
        }
        10 | 11 => damage_range(rng, &mut drafts[at]),
        12..=15 => overlap(rng, drafts),
        16 | 17 => {
            let is_host = |draft: &&mut Draft| draft.tag == DOMAIN || draft.tag == NAMESERVER;
            let mut hosts: Vec<&mut Draft> = drafts.iter_mut().filter(is_host).collect();
            if !hosts.is_empty() {
                let at = rng.below(hosts.len());
                if let Some((_, name)) = hosts[at].fields.last_mut() {
                    damage_host(rng, name);
                }
            }
        }
        _ => damage_contents(rng, &mut drafts[at]),
    }
}

/// Makes two blocks of a family overlap, mostly so that they stay sorted.
fn overlap(rng: &mut Rng, drafts: &mut [Draft]) {
    let blocks = drafts.iter().filter(|draft| draft.tag <= AS).count();
    if blocks < 2 {
        return;
    }
    let at = rng.below(blocks - 1);
    let other = rng.between(at + 1, (at + 4).min(blocks - 1));
    let (Some(left), Some(right)) = (drafts[at].range(), drafts[other].range()) else {
        return;
    };
    if drafts[at].tag != drafts[other].tag {
        return;
    }
    if right.last <= left.last {
        // the inner one sticks out
        let last = left.last.saturating_add(1 + rng.below(3) as u128);
        drafts[other].set_last(last.min(largest(drafts[other].tag)));
    } else {
        // the first one reaches into the second
        let last = rng.within(right);
        drafts[at].set_last(last);
    }
}

/// Moves an end of a block a little, or swaps the ends.
fn damage_range(rng: &mut Rng, draft: &mut Draft) {
    if draft.range().is_none() {
        return damage_contents(rng, draft);
    }
    let contents = &mut draft.fields[0].1;
    let half = contents.len() / 2;
    if rng.once_in(5) {
        contents.rotate_left(half);
        return;
    }
    // the lowest byte of the end, or any other
    let byte = if rng.once_in(2) {
        half - 1
    } else {
        rng.below(half)
    };
    let at = byte + half * rng.below(2);
    let step = *rng.pick(&[1, 2, 255, 254, 16, 128]);
    contents[at] = contents[at].wrapping_add(step);
}

fn damage_contents(rng: &mut Rng, draft: &mut Draft) {
    let tag = draft.tag;
    if draft.fields.is_empty() {
        return;
    }
    let at = rng.below(draft.fields.len());
    let (field, contents) = &mut draft.fields[at];
    match *field {
        0x20 => {
            let length = *rng.pick(&[0, 4, 7, 8, 9, 16, 31, 32, 33, 64]);
            contents.resize(length, 0);
        }
        0x23 => {
            *contents = rng
                .pick(&[vec![], vec![2], vec![255], vec![0, 1], vec![1, 0], vec![0]])
                .clone();
        }
        0x22 if tag == DOMAIN || tag == NAMESERVER => damage_host(rng, contents),
        _ => match rng.below(4) {
            0 => {
                let length = *rng.pick(&[0, 1, 63, 64, 65, 66, 255, 256, 257, 300]);
                contents.resize(length, b'z');
            }
            _ if contents.is_empty() => contents.push(0),
            _ => {
                let at = rng.below(contents.len());
                contents[at] = *rng.pick(&[
                    0, 0x1F, 0x20, 0x21, b'*', b'+', b')', 0x7D, 0x7E, 0x7F, 0x80, 0xAA, 0xFF,
                ]);
            }
        },
    }
}

pub(super) fn damage_host(rng: &mut Rng, name: &mut Vec<u8>) {
    let at = rng.below(name.len().max(1));
    let dots: Vec<usize> = (0..name.len()).filter(|&at| name[at] == b'.').collect();
    match rng.below(11) {
        0 => name.insert(at.min(name.len()), *rng.pick(b".-")),
        1 => name.push(*rng.pick(b".-")),
        2 => name.insert(0, *rng.pick(b".-")),
        3 => name.clear(),
        // a label of 63 or 64 bytes
        4 => {
            let length = rng.between(62, 65);
            *name = vec![b'q'; length];
            if rng.once_in(2) {
                name.extend(b".com");
            }
            if rng.once_in(2) {
                insert(name, 0, b"a.");
            }
        }
        // 253, 254 or 255 bytes
        5 => {
            let last = rng.between(60, 63);
            *name = [63, 63, 63, last]
                .map(|length| label(rng, length))
                .join(&b'.');
        }
        6 => name.extend(b".x".repeat(130)),
        // beside a dot
        7 | 8 if !dots.is_empty() => {
            let at = *rng.pick(&dots) + rng.below(2);
            name.insert(at, *rng.pick(b".-"));
        }
        _ if !name.is_empty() => {
            name[at] = *rng.pick(b"ABZ@[`{/:_*., -\x00\x7F\x80\xAD\xAE\xE1\xFF");
        }
        _ => name.push(b'-'),
    }
}
