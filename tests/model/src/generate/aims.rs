//! What the calls on an image aim at.

use super::numbers::Rng;
use super::records::largest;
use super::texts::{host, text, Style};
use crate::{Checked, Part, Range, Record};

/// What the paths for an image aim at.
pub struct Aims {
    pub(super) blocks: Vec<(u8, Range)>,
    handles: Vec<(u8, Vec<u8>)>,
    names: Vec<(u8, Vec<u8>)>,
    pub(super) records: usize,
}

impl Aims {
    pub fn new(image: &[u8], checked: &Checked) -> Aims {
        let none = Vec::new();
        let records: &Vec<Record> = checked.as_ref().unwrap_or(&none);
        let text = |part: Part| image[part.offset..][..part.length].to_vec();
        Aims {
            blocks: records
                .iter()
                .filter_map(|record| Some((record.tag, record.range?)))
                .collect(),
            handles: records
                .iter()
                .map(|record| (record.tag, text(record.handle)))
                .collect(),
            names: records
                .iter()
                .map(|record| (record.tag, text(record.name)))
                .collect(),
            records: records.len(),
        }
    }

    /// Whether the model is slow on the image.
    pub fn is_large(&self) -> bool {
        self.records > 400
    }

    pub(super) fn block(&self, rng: &mut Rng, family: u8) -> Range {
        let blocks: Vec<Range> = self
            .blocks
            .iter()
            .filter(|block| block.0 == family)
            .map(|block| block.1)
            .collect();
        if blocks.is_empty() || rng.once_in(20) {
            let most = largest(family);
            let first = rng.wide() & most;
            return Range {
                first,
                last: first | (rng.wide() & most),
            };
        }
        *rng.pick(&blocks)
    }

    pub(super) fn handle(&self, rng: &mut Rng, tags: &[u8]) -> Vec<u8> {
        pick_text(rng, &self.handles, tags).unwrap_or_else(|| text(rng, Style::Few, 0x21))
    }

    pub(super) fn name(&self, rng: &mut Rng, tags: &[u8]) -> Vec<u8> {
        pick_text(rng, &self.names, tags).unwrap_or_else(|| text(rng, Style::Few, 0x20))
    }

    pub(super) fn host(&self, rng: &mut Rng, tag: u8) -> Vec<u8> {
        pick_text(rng, &self.names, &[tag]).unwrap_or_else(|| host(rng))
    }
}

fn pick_text(rng: &mut Rng, texts: &[(u8, Vec<u8>)], tags: &[u8]) -> Option<Vec<u8>> {
    let of_tag: Vec<&Vec<u8>> = texts
        .iter()
        .filter(|text| tags.contains(&text.0))
        .map(|text| &text.1)
        .collect();
    if of_tag.is_empty() || rng.once_in(25) {
        None
    } else {
        Some((*rng.pick(&of_tag)).clone())
    }
}

/// A record number, mostly of a record that exists.
pub fn record(rng: &mut Rng, aims: &Aims) -> u32 {
    let count = aims.records as u32;
    match rng.below(16) {
        0 => count,
        1 => *rng.pick(&[
            count + 1,
            u32::MAX,
            u32::MAX - 1,
            1 << 31,
            4095,
            4096,
            65_536,
            count.wrapping_add(1 << 16),
        ]),
        // mostly blocks, which come first
        2..=10 if !aims.blocks.is_empty() => rng.below(aims.blocks.len()) as u32,
        _ => rng.below(aims.records.max(1)) as u32,
    }
}
