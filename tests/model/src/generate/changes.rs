//! Change files.

use super::addresses::draft_range;
use super::aims::Aims;
use super::damage::{damage_bytes, damage_host, damage_records};
use super::images::{filling, many, numbered};
use super::numbers::Rng;
use super::records::{encode, field, largest, Draft};
use super::texts::{fold_some, host, insert, spoil_text, text, Style};
use crate::changes::is_key;
use crate::{
    Range, ADD, AS, DOMAIN, ENTITY, IPV4, LONGEST_CHANGES, LONGEST_IMAGE, MOST_RECORDS, NAMESERVER,
    REMOVE, START,
};

/// A change file while it is made.
struct Changes<'a> {
    aims: &'a Aims,
    /// The records that it leaves, and those that it took away.
    there: Vec<Draft>,
    removed: Vec<Draft>,
    file: Vec<u8>,
    /// Where its changes start.
    starts: Vec<usize>,
}

/// A change file for an image with these records, most of the time without a fault.
pub fn changes(rng: &mut Rng, aims: &Aims, there: &[Draft]) -> Vec<u8> {
    let mut made = Changes {
        aims,
        there: there.to_vec(),
        removed: Vec::new(),
        file: Vec::new(),
        starts: Vec::new(),
    };
    let count = match rng.below(40) {
        0 => 0,
        1 => rng.between(20, 100),
        _ => rng.between(1, 8),
    };
    let stray = rng.once_in(6).then(|| made.stray(rng)).flatten();
    for _ in 0..count {
        made.good(rng);
    }
    if let Some(stray) = stray {
        made.settle(rng, &stray);
    }
    if rng.once_in(3) {
        made.spoil(rng);
    }
    made.file
}

impl Changes<'_> {
    fn add(&mut self, draft: Draft) {
        self.starts.push(self.file.len());
        self.file.extend(draft.addition());
        self.there.push(draft);
    }

    fn remove(&mut self, at: usize) {
        let draft = self.there.swap_remove(at);
        self.starts.push(self.file.len());
        self.file.extend(draft.removal());
        self.removed.push(draft);
    }

    /// Where a record with this one's key is.
    fn find(&self, draft: &Draft) -> Option<usize> {
        let has_key = |other: &Draft| other.tag == draft.tag && other.key() == draft.key();
        self.there.iter().position(has_key)
    }

    /// Where a block is that overlaps this one, and none inside the other.
    fn clash(&self, draft: &Draft) -> Option<usize> {
        let range = draft.range()?;
        self.there.iter().position(|other| {
            other.tag == draft.tag
                && other.range().is_some_and(|other| {
                    other.overlaps(range) && !other.covers(range) && !range.covers(other)
                })
        })
    }

    fn fits(&self, draft: &Draft) -> bool {
        self.find(draft).is_none() && self.clash(draft).is_none()
    }

    /// Writes a good change, or a few.
    fn good(&mut self, rng: &mut Rng) {
        // one of the image, or of the file itself
        let any = rng.below(self.there.len().max(1));
        let last = self.there.len().saturating_sub(1);
        match rng.below(8) {
            0 if !self.there.is_empty() => self.remove(last),
            1 | 2 if !self.there.is_empty() => self.remove(any),
            // away and there again, as it was or changed
            3 if !self.there.is_empty() => {
                self.remove(any);
                self.bring_back(rng);
            }
            4 if !self.removed.is_empty() => self.bring_back(rng),
            _ => {
                let mut drawn = (0..6).map(|_| new_record(rng, self.aims));
                if let Some(draft) = drawn.find(|draft| self.fits(draft)) {
                    self.add(draft);
                }
            }
        }
    }

    /// Adds what was removed last, if it fits.
    fn bring_back(&mut self, rng: &mut Rng) {
        if let Some(mut draft) = self.removed.pop() {
            if self.fits(&draft) {
                if rng.once_in(2) {
                    rename(rng, &mut draft);
                }
                self.add(draft);
            }
        }
    }

    /// Adds a block that may overlap one of the image.
    fn stray(&mut self, rng: &mut Rng) -> Option<Draft> {
        if self.aims.blocks.is_empty() {
            return None;
        }
        let (tag, block) = *rng.pick(&self.aims.blocks);
        let last = block.last.saturating_add(rng.between(1, 4) as u128);
        let range = Range {
            first: rng.within(block),
            last: last.min(largest(tag)),
        };
        let draft = Draft::block(tag, range, b"stray", b"stray", true);
        if self.find(&draft).is_some() {
            return None;
        }
        self.add(draft.clone());
        Some(draft)
    }

    /// Removes a stray block, or what it overlaps, or nothing.
    fn settle(&mut self, rng: &mut Rng, stray: &Draft) {
        match rng.below(3) {
            0 => {
                if let Some(at) = self.find(stray) {
                    self.remove(at);
                }
            }
            1 => {
                while let Some(at) = self.clash(stray) {
                    self.remove(at);
                }
            }
            _ => {}
        }
    }

    /// Puts a fault in, mostly one that reason 11 is for.
    fn spoil(&mut self, rng: &mut Rng) {
        let end = self.file.len();
        let at = match rng.below(self.starts.len() + 1) {
            0 => end,
            number => self.starts[number - 1],
        };
        let more = match rng.below(12) {
            0 | 1 => return self.file.truncate(rng.below(end + 1)),
            2 if at < end => {
                self.file[at] = *rng.pick(&[0, 0x10, 0x15, 0x20, 0x2F, 0x32, 0xB0, 0xFF]);
                return;
            }
            3 => return damage_bytes(rng, &mut self.file),
            4..=6 => bad_addition(rng, self.aims),
            7 | 8 => bad_removal(rng, self.aims),
            // what isn't there, and what is
            9 => new_record(rng, self.aims).removal(),
            10 if !self.there.is_empty() => {
                let mut again = rng.pick(&self.there).clone();
                rename(rng, &mut again);
                again.addition()
            }
            // a change once more
            _ => {
                let next = self.starts.iter().find(|&&start| start > at);
                self.file[at..*next.unwrap_or(&end)].to_vec()
            }
        };
        insert(&mut self.file, at, &more);
    }
}

/// Changes what is no key.
fn rename(rng: &mut Rng, draft: &mut Draft) {
    let other = match draft.tag {
        DOMAIN | NAMESERVER => 0,
        _ => 1,
    };
    draft.fields[other].1 = text(rng, Style::Plain, 0x21);
}

/// A sound record of any tag, often beside one of the image in the sorting.
fn new_record(rng: &mut Rng, aims: &Aims) -> Draft {
    let tag = rng.between(usize::from(IPV4), usize::from(ENTITY)) as u8;
    let style = *rng.pick(&[Style::Few, Style::All, Style::Plain]);
    let handle = text(rng, style, 0x21);
    let name = text(rng, style, 0x20);
    match tag {
        ENTITY => Draft::other(tag, &new_text(rng, aims, tag), &name),
        DOMAIN | NAMESERVER => Draft::other(tag, &handle, &new_text(rng, aims, tag)),
        _ => Draft::block(
            tag,
            new_range(rng, aims, tag),
            &handle,
            &name,
            !rng.once_in(3),
        ),
    }
}

/// A key for a record 13, 14 or 15.
fn new_text(rng: &mut Rng, aims: &Aims, tag: u8) -> Vec<u8> {
    let (mut key, ends) = match tag {
        ENTITY => (aims.handle(rng, &[tag]), "! !! ~ ~~ ~~~~~~~~~"),
        _ => (aims.host(rng, tag), "0 0.0 0-0 z z.z zzzzzzzzz"),
    };
    match rng.below(6) {
        // before or after all others
        0 => key = rng.word(ends).to_vec(),
        // a longer one, or a shorter
        1 => key.extend(rng.word("a 0 .a -a")),
        2 => {
            key.pop();
        }
        _ => key.clear(),
    }
    match tag {
        _ if is_key(tag, &key) => key,
        ENTITY => text(rng, Style::All, 0x21),
        _ => host(rng),
    }
}

/// A range for a block, inside one of the image, around it, beside it or anywhere.
fn new_range(rng: &mut Rng, aims: &Aims, tag: u8) -> Range {
    let most = largest(tag);
    let block = aims.block(rng, tag);
    let few = rng.below(4) as u128;
    let (first, last) = match rng.below(9) {
        0 | 1 => (rng.within(block), rng.within(block)),
        2 => (block.first, rng.within(block)),
        3 => (rng.within(block), block.last),
        4 => (block.first.saturating_sub(few), block.last),
        5 => (block.first, block.last.saturating_add(few)),
        6 => {
            let after = block.last.saturating_add(1);
            (after, after.saturating_add(few))
        }
        // at an end of the family, or both
        7 => (*rng.pick(&[0, 0, most]), *rng.pick(&[0, most, few])),
        _ => return draft_range(rng, aims, tag),
    };
    Range {
        first: first.min(last).min(most),
        last: first.max(last).min(most),
    }
}

/// A change 30 that mostly holds no whole record, or more than one.
fn bad_addition(rng: &mut Rng, aims: &Aims) -> Vec<u8> {
    let mut drafts = vec![new_record(rng, aims)];
    damage_records(rng, &mut drafts);
    let mut contents: Vec<u8> = drafts.iter().flat_map(Draft::encode).collect();
    match rng.below(6) {
        0 => contents.push(rng.word64() as u8),
        1 => contents.truncate(rng.below(contents.len() + 1)),
        2 => damage_bytes(rng, &mut contents),
        _ => {}
    }
    field(ADD, &contents)
}

/// A change 31 that mostly holds no key.
fn bad_removal(rng: &mut Rng, aims: &Aims) -> Vec<u8> {
    let draft = new_record(rng, aims);
    let mut tag = draft.tag;
    let mut key = draft.key().to_vec();
    match rng.below(8) {
        0 => return field(REMOVE, &[]),
        1 => tag = rng.between(0x0E, 0x17) as u8,
        2 => key.resize(*rng.pick(&[0, 4, 7, 9, 31, 33, 64, 65, 253, 254]), b'a'),
        // first above last
        3 => key.rotate_left(draft.key().len() / 2),
        4 => fold_some(rng, &mut key),
        5 => damage_host(rng, &mut key),
        6 => spoil_text(rng, &mut key),
        // a field in place of the bare key
        _ => key = field(rng.between(0x20, 0x22) as u8, &key),
    }
    field(REMOVE, &[&[tag], &key[..]].concat())
}

/// How many folds `fold_limit` makes.
pub const FOLD_LIMITS: usize = 22;

/// An image and a change file at a limit or past it, in the end or midway.
pub fn fold_limit(rng: &mut Rng, which: usize) -> (Vec<u8>, Vec<u8>) {
    match which % FOLD_LIMITS {
        which @ 0..8 => {
            // records of the image, added ones, and how many of either go
            let (count, more, back, gone) = [
                (MOST_RECORDS - 1, 1, 0, 0),
                (MOST_RECORDS, 1, 0, 0),
                (MOST_RECORDS, 1, 0, 1),
                (MOST_RECORDS, 1900, 0, 0),
                (MOST_RECORDS, 1000, 1000, 0),
                (MOST_RECORDS, 1000, 999, 0),
                (MOST_RECORDS - 1000, 1000, 0, 0),
                (2000, 0, 0, 2000),
            ][which];
            let there = many(rng, 10_000, count);
            // before those of the image, or after them
            let start = *rng.pick(&[0, 20_000]);
            let added = many(rng, start, more);
            let file = file_of(
                added.iter().rev(),
                added[..back].iter().chain(&there[..gone]),
            );
            (encode(&there), file)
        }
        which @ 8..13 => {
            // bytes that the image lacks, and whether the added record or one of
            // the image goes
            let (short, back, gone) =
                [(23, 0, 0), (22, 0, 0), (0, 1, 0), (0, 0, 1), (24, 0, 0)][which - 8];
            let length = LONGEST_IMAGE - START.len() - short;
            let there = filling(rng, 10_000, length, 0);
            let added = [numbered(rng.below(30_000), 23)];
            let file = file_of(added.iter(), added[..back].iter().chain(&there[..gone]));
            (encode(&there), file)
        }
        which @ 13..17 => long_file(rng, which - 13),
        which => overlapping(rng, which - 17),
    }
}

fn file_of<'a>(
    added: impl Iterator<Item = &'a Draft>,
    removed: impl Iterator<Item = &'a Draft>,
) -> Vec<u8> {
    let added = added.flat_map(Draft::addition);
    added.chain(removed.flat_map(Draft::removal)).collect()
}

/// 65,536 or 65,537 bytes of changes, all good or one not.
fn long_file(rng: &mut Rng, which: usize) -> (Vec<u8>, Vec<u8>) {
    let length = LONGEST_CHANGES + which % 2;
    let mut added = filling(rng, 10_000, length, 3);
    if which >= 2 {
        let half = added.len() / 2;
        added[half].tag = ENTITY + 1;
    }
    (encode(&many(rng, 0, 100)), file_of(added.iter(), [].iter()))
}

/// Blocks that overlap, where there are too many records, too.
fn overlapping(rng: &mut Rng, which: usize) -> (Vec<u8>, Vec<u8>) {
    let block = |number: usize, first: u128, last: u128| {
        let base = 10 * number as u128;
        let range = Range {
            first: base + first,
            last: base + last,
        };
        Draft::block(AS, range, b"h", b"n", true)
    };
    let there: Vec<Draft> = match which {
        // too long, too
        0 => filling(rng, 0, LONGEST_IMAGE - START.len(), 0),
        _ => (0..MOST_RECORDS)
            .map(|number| block(number, 0, 3))
            .collect(),
    };
    let last = MOST_RECORDS - 1;
    let added = match which {
        0 => vec![block(0, 0, 3), block(0, 2, 5)],
        // the overlapping record is the last that may be there, or one after it
        1 => vec![block(last - 1, 2, 5)],
        2 => vec![block(last, 2, 5)],
        // the first ones of many
        3 => vec![block(0, 2, 5), block(1, 2, 5)],
        _ => vec![block(0, 2, 15), block(9, 0, 1)],
    };
    (encode(&there), file_of(added.iter(), [].iter()))
}
