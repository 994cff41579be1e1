//! Sound images, and those at a limit.
//!
//! Blocks are first laid out as pairs of small numbers, then spread over the
//! addresses of a family.

use super::numbers::Rng;
use super::records::{encode, largest, Draft};
use super::texts::{host, text, Style};
use crate::{
    Checked, Part, Range, Record, AS, ENTITY, IPV4, IPV6, LONGEST_IMAGE, MOST_RECORDS, NAMESERVER,
    START,
};

/// Pairs that are nested or disjoint and lie below `size`, in no order.
fn layout(rng: &mut Rng, count: usize, size: usize) -> Vec<(usize, usize)> {
    let mut pairs: Vec<(usize, usize)> = Vec::new();
    match rng.below(6) {
        // anything that fits with what is there
        0 | 1 if count <= 200 => {
            for _ in 0..3 * count {
                if pairs.len() == count {
                    break;
                }
                let width = match rng.below(3) {
                    0 => size,
                    1 => 8.min(size),
                    _ => 2,
                };
                let first = rng.below(size);
                let last = (first + rng.below(width)).min(size - 1);
                let fits = pairs.iter().all(|&(start, end)| {
                    last < start
                        || end < first
                        || (start <= first && last <= end && (start, end) != (first, last))
                        || (first <= start && end <= last && (start, end) != (first, last))
                });
                if fits {
                    pairs.push((first, last));
                }
            }
        }
        // side by side, often touching
        0..=2 => {
            let mut at = 0;
            while at < size && pairs.len() < count {
                let last = (at + rng.below(3)).min(size - 1);
                pairs.push((at, last));
                at = last + 1 + usize::from(rng.once_in(3));
            }
        }
        // one in the other
        3 => {
            let (mut first, mut last) = (0, size - 1);
            while pairs.len() < count {
                pairs.push((first, last));
                let (more, less) = match rng.below(3) {
                    0 => (1, 0),
                    1 => (0, 1),
                    _ => (1, 1),
                };
                if first + more + less > last {
                    break;
                }
                (first, last) = (first + more, last - less);
            }
        }
        // halves of halves
        4 => {
            let mut open = vec![(0, size - 1)];
            while !open.is_empty() && pairs.len() < count {
                let at = rng.below(open.len());
                let (first, last) = open.swap_remove(at);
                if !rng.once_in(4) {
                    pairs.push((first, last));
                }
                if first < last {
                    let middle = first + (last - first) / 2;
                    open.push((first, middle));
                    open.push((middle + 1, last));
                }
            }
        }
        // cut at random places
        _ => {
            let mut open = vec![(0, size - 1)];
            while !open.is_empty() && pairs.len() < count {
                let at = rng.below(open.len());
                let (first, last) = open.swap_remove(at);
                pairs.push((first, last));
                if first < last {
                    let cut = rng.between(first, last - 1);
                    open.push((first, cut));
                    open.push((cut + 1, last));
                }
            }
        }
    }
    pairs
}

/// Spreads pairs below `size` over a family. Neighbours stay neighbours in most
/// of the ways.
fn spread(rng: &mut Rng, tag: u8, pairs: &[(usize, usize)], size: usize) -> Vec<Range> {
    let most = largest(tag);
    let size = size as u128;
    let half = 1u128 << 64;
    // Each number stands for the addresses from `base + step * number` on,
    // `step` of them less `gap`.
    let (base, step, gap) = match (rng.below(8), tag) {
        (0, _) => (0, 1, 0),
        (1, _) => (most - size + 1, 1, 0),
        (2, _) => (0, most / size, 0),
        // a power of two each, so that the blocks are prefixes
        (3 | 4, _) => {
            let step = 1 << rng.below(if tag == IPV6 { 112 } else { 16 });
            (0, step, 0)
        }
        (5, _) => (0, most / size, most / size / 3),
        // about the border of the low half
        (6, IPV6) => (half - size / 2, 1, 0),
        // the high half differs, and the low one too or not at all
        (7, IPV6) => (
            u128::from(rng.word64()),
            half * (1 + rng.below(3) as u128),
            *rng.pick(&[0, half - 1]),
        ),
        _ => ((rng.wide() % (most - size)) >> rng.below(20), 1, 0),
    };
    // The high half grows while the low one falls.
    let falling = tag == IPV6 && step >= half && rng.once_in(3);
    let start = |number: u128| {
        let first = base + step * number;
        if falling {
            (first & !(half - 1)) | (half - 1 - number)
        } else {
            first
        }
    };
    pairs
        .iter()
        .map(|&(first, last)| {
            let (first, last) = (first as u128, last as u128);
            Range {
                first: start(first),
                last: if falling {
                    start(last)
                } else {
                    base + step * last + (step - 1) - gap.min(step - 1)
                },
            }
        })
        .collect()
}

fn blocks(rng: &mut Rng, tag: u8, count: usize, style: Style) -> Vec<Draft> {
    let size = if count <= 40 && rng.once_in(2) {
        64
    } else {
        (2 * count + 2).next_power_of_two()
    };
    let pairs = layout(rng, count, size);
    let mut ranges = spread(rng, tag, &pairs, size);
    // the whole space, 0.0.0.0/0 or ::/0
    if rng.once_in(4) {
        ranges.push(Range {
            first: 0,
            last: largest(tag),
        });
    }
    ranges.sort_by_key(|range| (range.first, !range.last));
    ranges.dedup();
    ranges
        .into_iter()
        .map(|range| {
            let handle = text(rng, style, 0x21);
            let name = text(rng, style, 0x20);
            Draft::block(tag, range, &handle, &name, !rng.once_in(3))
        })
        .collect()
}

fn others(rng: &mut Rng, tag: u8, count: usize, style: Style) -> Vec<Draft> {
    let mut drafts: Vec<Draft> = (0..count)
        .map(|_| {
            let handle = text(rng, style, 0x21);
            let name = if tag == ENTITY {
                text(rng, style, 0x20)
            } else {
                host(rng)
            };
            Draft::other(tag, &handle, &name)
        })
        .collect();
    drafts.sort_by(|left, right| left.key().cmp(right.key()));
    drafts.dedup_by(|left, right| left.key() == right.key());
    drafts
}

/// The records of a sound image.
pub fn drafts(rng: &mut Rng) -> Vec<Draft> {
    let style = *rng.pick(&[Style::Few, Style::All, Style::Plain, Style::Plain]);
    let most = match rng.below(40) {
        0 => 300,
        1..=3 => 60,
        4..=9 => 3,
        _ => 20,
    };
    let mut drafts = Vec::new();
    let only = rng.once_in(8).then(|| rng.pick(&[IPV4, IPV6, AS]));
    for tag in IPV4..=ENTITY {
        let wanted = match only {
            Some(&only) => only == tag,
            None => !rng.once_in(4),
        };
        if wanted {
            let count = rng.between(1, most);
            drafts.extend(if tag <= AS {
                blocks(rng, tag, count, style)
            } else {
                others(rng, tag, count, style)
            });
        }
    }
    drafts
}

pub fn sound(rng: &mut Rng) -> Vec<u8> {
    encode(&drafts(rng))
}

/// A record that sorts after those of this kind made with a lower number, of
/// `length` bytes, 23 to 275.
pub(super) fn numbered(number: usize, length: usize) -> Draft {
    let mut name = format!("{number:05}").into_bytes();
    while name.len() + 10 < length {
        name.push(if name.len() % 60 == 0 { b'.' } else { b'x' });
    }
    if name.last() == Some(&b'.') {
        name.pop();
        name.push(b'x');
    }
    Draft::other(NAMESERVER, b"h", &name)
}

/// So many small ones of these, numbered from `start`.
pub(super) fn many(rng: &mut Rng, start: usize, count: usize) -> Vec<Draft> {
    let numbers = start..start + count;
    numbers
        .map(|number| numbered(number, rng.between(23, 30)))
        .collect()
}

/// Large ones that have `length` bytes together, with `more` bytes for each.
pub(super) fn filling(rng: &mut Rng, start: usize, length: usize, more: usize) -> Vec<Draft> {
    let mut drafts = Vec::new();
    let mut left = length;
    while left > 0 {
        let next = match left {
            401.. => rng.between(230, 263),
            264..=400 => left / 2,
            _ => left,
        };
        drafts.push(numbered(start + drafts.len(), next - more));
        left -= next;
    }
    drafts
}

/// How many images `limit` makes.
pub const LIMITS: usize = 13;

/// An image at a limit or one or two past it: 4,094 to 4,098 records, 262,142
/// to 262,146 bytes, 4,095 or 4,096 records with a byte after them, and 4,096
/// with one after them that has a defect of its own.
pub fn limit(rng: &mut Rng, which: usize) -> Vec<u8> {
    match which % LIMITS {
        which @ (0..5 | 10..) => {
            let count = match which {
                10 => MOST_RECORDS - 1,
                11.. => MOST_RECORDS,
                _ => MOST_RECORDS - 2 + which,
            };
            let mut image = encode(&many(rng, 0, count));
            match which {
                10 | 11 => image.push(NAMESERVER),
                12 => image.extend(numbered(0, 23).encode()),
                _ => {}
            }
            image
        }
        which => {
            let length = LONGEST_IMAGE - 2 + (which - 5);
            encode(&filling(rng, 0, length - START.len(), 0))
        }
    }
}

/// Up to 4,096 blocks of one family, sound.
pub fn many_blocks(rng: &mut Rng) -> Vec<u8> {
    let tag = *rng.pick(&[IPV4, IPV6, AS]);
    let count = rng.between(500, 4000);
    let mut drafts = blocks(rng, tag, count, Style::Few);
    drafts.truncate(MOST_RECORDS);
    encode(&drafts)
}

/// The records of a sound image, none of another.
pub fn drafts_of(image: &[u8], checked: &Checked) -> Vec<Draft> {
    let text = |part: Part| &image[part.offset..][..part.length];
    let draft = |record: &Record| {
        let (handle, name) = (text(record.handle), text(record.name));
        match record.range {
            Some(range) => {
                let active = image[record.name.offset + name.len() + 3] == 1;
                Draft::block(record.tag, range, handle, name, active)
            }
            None => Draft::other(record.tag, handle, name),
        }
    };
    checked.iter().flatten().map(draft).collect()
}
