//! Records and fields to be written.

use crate::{Range, ADD, DOMAIN, IPV6, NAMESERVER, REMOVE, START};

/// A record to be written. `fields` are its inner fields, tag and contents.
#[derive(Clone, Debug)]
pub struct Draft {
    pub(super) tag: u8,
    pub(super) fields: Vec<(u8, Vec<u8>)>,
}

impl Draft {
    pub fn block(tag: u8, range: Range, handle: &[u8], name: &[u8], active: bool) -> Draft {
        Draft {
            tag,
            fields: vec![
                (0x20, ends(tag, range)),
                (0x21, handle.to_vec()),
                (0x22, name.to_vec()),
                (0x23, vec![u8::from(active)]),
            ],
        }
    }

    pub fn other(tag: u8, handle: &[u8], name: &[u8]) -> Draft {
        Draft {
            tag,
            fields: vec![(0x21, handle.to_vec()), (0x22, name.to_vec())],
        }
    }

    /// The range of a block that has no defect there.
    pub(super) fn range(&self) -> Option<Range> {
        let number = |bytes: &[u8]| {
            bytes
                .iter()
                .fold(0, |all, &byte| all << 8 | u128::from(byte))
        };
        match self.fields.first() {
            Some((0x20, contents)) if contents.len() == 8 || contents.len() == 32 => {
                let (first, last) = contents.split_at(contents.len() / 2);
                let (first, last) = (number(first), number(last));
                (first <= last).then_some(Range { first, last })
            }
            _ => None,
        }
    }

    pub(super) fn set_last(&mut self, last: u128) {
        let contents = &mut self.fields[0].1;
        let half = contents.len() / 2;
        contents[half..].copy_from_slice(&last.to_be_bytes()[16 - half..]);
    }

    /// What its tag is sorted by, in a record that has all its fields.
    pub(super) fn key(&self) -> &[u8] {
        let by_name = self.tag == DOMAIN || self.tag == NAMESERVER;
        &self.fields[usize::from(by_name)].1
    }

    pub fn encode(&self) -> Vec<u8> {
        let mut contents = Vec::new();
        for (tag, inner) in &self.fields {
            contents.extend(field(*tag, inner));
        }
        field(self.tag, &contents)
    }

    /// The change that adds it.
    pub fn addition(&self) -> Vec<u8> {
        field(ADD, &self.encode())
    }

    /// The change that removes it.
    pub fn removal(&self) -> Vec<u8> {
        field(REMOVE, &[&[self.tag], self.key()].concat())
    }
}

pub(super) fn field(tag: u8, contents: &[u8]) -> Vec<u8> {
    let mut field = vec![tag];
    field.extend((contents.len() as u16).to_be_bytes());
    field.extend(contents);
    field
}

/// The contents of field 20 in a record of this tag.
pub fn ends(tag: u8, range: Range) -> Vec<u8> {
    [octets(tag, range.first), octets(tag, range.last)].concat()
}

/// The bytes of an address or number of the family of this tag.
pub fn octets(tag: u8, address: u128) -> Vec<u8> {
    let skipped = if tag == IPV6 { 0 } else { 12 };
    address.to_be_bytes()[skipped..].to_vec()
}

pub fn encode(drafts: &[Draft]) -> Vec<u8> {
    let mut image = START.to_vec();
    for draft in drafts {
        image.extend(draft.encode());
    }
    image
}

pub(super) fn largest(tag: u8) -> u128 {
    if tag == IPV6 {
        u128::MAX
    } else {
        u128::from(u32::MAX)
    }
}
