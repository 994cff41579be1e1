//! A plain model of docs/SPECIFICATION.md: what the calls answer, written to be read
//! beside the document and not to be fast. Comments in quotation marks are the
//! document's own sentences.
//!
//! `generate` makes images, paths, ranges, addresses and change files to compare
//! implementations on. What is marked `inline` is a part of bench/fast, too, which
//! is measured.

mod address;
mod calls;
mod changes;
pub mod generate;
mod image;
mod path;
mod relations;

pub use calls::{
    address_text, answer, answer_checked, batch, batch_checked, fold, handle, handle_part, name,
    name_part, prefixes, put_final, range, range_part, relation, relation_checked, within,
};
pub use changes::final_image;
pub use image::{check, Checked};
pub use relations::related;

/// "path longer than 1,024 bytes"
pub const LONGEST_PATH: usize = 1024;
/// "paths separated by a line feed [...], at most 64"
pub const MOST_PATHS: usize = 64;
/// "At most 262,144 bytes and 4,096 records."
pub const LONGEST_IMAGE: usize = 262_144;
pub const MOST_RECORDS: usize = 4096;
/// "IPv4 never needs more than 62 prefixes [...], IPv6 never more than 254"
pub const MOST_PREFIXES: usize = 254;
/// "IPv4 never needs more than 15 bytes, IPv6 never more than 39."
pub const LONGEST_TEXT: usize = 39;
/// "A change file is a row of fields, too, at most 65,536 bytes of them."
pub const LONGEST_CHANGES: usize = 65_536;
/// "It starts with the bytes 01 00 01 01 (edition 1)."
pub const START: [u8; 4] = [0x01, 0x00, 0x01, 0x01];

pub const IPV4: u8 = 0x10;
pub const IPV6: u8 = 0x11;
pub const AS: u8 = 0x12;
pub const DOMAIN: u8 = 0x13;
pub const NAMESERVER: u8 = 0x14;
pub const ENTITY: u8 = 0x15;

/// "30 holds a whole record to add. 31 holds a record tag's byte, then the bare
/// key of the record to remove"
pub const ADD: u8 = 0x30;
pub const REMOVE: u8 = 0x31;

/// First and last, both included, of an address or number of any family.
#[derive(Clone, Copy, Debug, PartialEq, Eq)]
pub struct Range {
    pub first: u128,
    pub last: u128,
}

impl Range {
    /// "Covers means contains or equals"
    pub fn covers(self, other: Range) -> bool {
        self.first <= other.first && other.last <= self.last
    }

    /// "strictly, contains and differs"
    pub fn strictly_covers(self, other: Range) -> bool {
        self.covers(other) && self != other
    }

    pub fn overlaps(self, other: Range) -> bool {
        self.first <= other.last && other.first <= self.last
    }

    /// One less than the number of addresses, so that it never overflows.
    fn size(self) -> u128 {
        self.last - self.first
    }
}

/// Where a field's contents lie in the image.
#[derive(Clone, Copy, Debug, PartialEq, Eq)]
pub struct Part {
    pub offset: usize,
    pub length: usize,
}

impl Part {
    fn of(self, image: &[u8]) -> &[u8] {
        &image[self.offset..self.offset + self.length]
    }
}

/// A record of a sound image. "A block is a record 10, 11 or 12 with its
/// range"; the others have none.
#[derive(Clone, Copy, Debug, PartialEq, Eq)]
pub struct Record {
    pub tag: u8,
    pub range: Option<Range>,
    /// Field 20, of no length and at 0 where there is none.
    pub ends: Part,
    pub handle: Part,
    pub name: Part,
}

impl Record {
    /// "its range (10, 11, 12), its name (13, 14) or its handle (15), which is what
    /// the records of that tag are sorted by"
    fn key<'a>(&self, image: &'a [u8]) -> &'a [u8] {
        match self.tag {
            IPV4 | IPV6 | AS => self.ends,
            DOMAIN | NAMESERVER => self.name,
            _ => self.handle,
        }
        .of(image)
    }
}

#[derive(Clone, Copy, Debug, PartialEq, Eq)]
pub struct Defect {
    pub defect: u32,
    pub place: u32,
}

#[derive(Clone, Copy, Debug, PartialEq, Eq)]
pub enum Relation {
    Up = 1,
    Down = 2,
    Top = 3,
    Bottom = 4,
}

pub const RELATIONS: [Relation; 4] = [
    Relation::Up,
    Relation::Down,
    Relation::Top,
    Relation::Bottom,
];

/// What a call returns beside the list. `relation` is 0 none, 1 up, 2 down,
/// 3 top, 4 bottom.
#[derive(Clone, Copy, Debug, Default, PartialEq, Eq)]
pub struct Reply {
    pub status: u32,
    pub reason: u32,
    pub kind: u32,
    pub relation: u32,
    pub count: u32,
    pub defect: u32,
    pub place: u32,
}

impl Reply {
    pub fn numbers(self) -> [u32; 7] {
        [
            self.status,
            self.reason,
            self.kind,
            self.relation,
            self.count,
            self.defect,
            self.place,
        ]
    }

    /// A refusal by reasons 1 to 7: "Kind is 0 under reasons 1 to 7". Or by
    /// reason 10: "its own kind is always 0".
    #[inline]
    pub fn refused(reason: u32) -> Reply {
        Reply {
            status: status(reason),
            reason,
            ..Reply::default()
        }
    }

    /// Reason 2: "defect and place (record number) say how".
    #[inline]
    pub fn defective(found: Defect) -> Reply {
        Reply {
            defect: found.defect,
            place: found.place,
            ..Reply::refused(2)
        }
    }
}

/// What the calls on a range and on an address return beside what they write:
/// "Since the call takes no path it gives a reason without a status, and a count".
#[derive(Clone, Copy, Debug, PartialEq, Eq)]
pub struct Counted {
    pub reason: u32,
    pub count: u32,
}

impl Counted {
    pub fn numbers(self) -> [u32; 2] {
        [self.reason, self.count]
    }

    /// Reason 6.
    #[inline]
    pub fn refused() -> Counted {
        Counted {
            reason: 6,
            count: 0,
        }
    }
}

/// What the fold returns beside the final image: "it gives a reason without a
/// status, and count, defect, place and offset, which are 0 where nothing else is
/// said".
#[derive(Clone, Copy, Debug, Default, PartialEq, Eq)]
pub struct Folded {
    pub reason: u32,
    pub count: u32,
    pub defect: u32,
    pub place: u32,
    pub offset: u32,
}

impl Folded {
    pub fn numbers(self) -> [u32; 5] {
        [
            self.reason,
            self.count,
            self.defect,
            self.place,
            self.offset,
        ]
    }

    /// Reason 2, or 12 of the final image.
    #[inline]
    pub fn defective(reason: u32, found: Defect) -> Folded {
        Folded {
            reason,
            defect: found.defect,
            place: found.place,
            ..Folded::default()
        }
    }

    /// Reason 11.
    #[inline]
    pub fn refused(offset: usize) -> Folded {
        Folded {
            reason: 11,
            offset: offset as u32,
            ..Folded::default()
        }
    }
}

/// The status table's first two columns.
#[inline]
pub fn status(reason: u32) -> u32 {
    match reason {
        0 => 200,
        1 => 414,
        2 => 500,
        3 | 6 | 10 => 400,
        4 | 5 => 501,
        7 => 422,
        8 => 404,
        9 => 507,
        _ => unreachable!(),
    }
}
