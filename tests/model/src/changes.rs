//! Change files.

use crate::image::{
    check, is_handle, is_lower_host_name, range_of, read_field, read_record, strictly_after,
    Checked,
};
use crate::{
    Folded, ADD, AS, DOMAIN, ENTITY, IPV4, IPV6, LONGEST_CHANGES, NAMESERVER, REMOVE, START,
};

/// The final image of a fold, or why there is none: reasons 2, 11 and 12.
pub fn final_image(image: &[u8], checked: &Checked, changes: &[u8]) -> Result<Vec<u8>, Folded> {
    // "2, with defect and place, if the image is defective"
    if let Err(found) = checked {
        return Err(Folded::defective(2, *found));
    }
    // "11 [...]; but with offset 0 if the file has more than 65,536 bytes"
    if changes.len() > LONGEST_CHANGES {
        return Err(Folded::refused(0));
    }
    let mut kept = all_kept(image);
    // "The changes apply in order, each to what the changes before it made"
    let mut at = 0;
    while at < changes.len() {
        // "11, with the offset of its tag byte in the file, at the first change
        // that is malformed, removes a record that isn't there or adds one whose
        // key is already there"
        at = apply(changes, at, &mut kept).ok_or(Folded::refused(at))?;
    }
    let mut bytes = START.to_vec();
    bytes.extend(kept.into_iter().flat_map(|record| record.bytes));
    // "12, with defect and place, if the final image would be defective"
    match check(&bytes) {
        Ok(_) => Ok(bytes),
        Err(found) => Err(Folded::defective(12, found)),
    }
}

/// A record while changes are applied: its tag, its key and all its bytes.
struct Kept {
    tag: u8,
    key: Vec<u8>,
    bytes: Vec<u8>,
}

impl Kept {
    fn has_key(&self, tag: u8, key: &[u8]) -> bool {
        self.tag == tag && self.key == key
    }

    /// "Records sort by tag ascending, and within a tag as the table says"
    fn comes_after(&self, other: &Kept) -> bool {
        self.tag > other.tag
            || (self.tag == other.tag && strictly_after(self.tag, &self.key, &other.key))
    }
}

/// The record at `at`, judged by itself, and where it ends; None if it has defect
/// 3, 4 or 5.
fn read_kept(bytes: &[u8], at: usize) -> Option<(Kept, usize)> {
    let (record, end) = read_record(bytes, at, &[]).ok()?;
    let kept = Kept {
        tag: record.tag,
        key: record.key(bytes).to_vec(),
        bytes: bytes[at..end].to_vec(),
    };
    Some((kept, end))
}

/// The records of a sound image.
fn all_kept(image: &[u8]) -> Vec<Kept> {
    let mut all = Vec::new();
    let mut at = START.len();
    while let Some((record, end)) = read_kept(image, at) {
        all.push(record);
        at = end;
    }
    all
}

/// Applies the change at `at` and gives where it ends; None under reason 11.
fn apply(changes: &[u8], at: usize, kept: &mut Vec<Kept>) -> Option<usize> {
    // "A change is malformed if it is cut short or has another tag"
    let change = read_field(changes, at, changes.len())?;
    let contents = change.part.of(changes);
    match change.tag {
        ADD => add(contents, kept)?,
        REMOVE => remove(contents, kept)?,
        _ => return None,
    }
    Some(change.end)
}

fn add(contents: &[u8], kept: &mut Vec<Kept>) -> Option<()> {
    // "if what 30 holds is no whole record, a record with defect 3, 4 or 5 or has
    // bytes after the record"
    let (new, end) = read_kept(contents, 0)?;
    // "adds one whose key is already there"
    if end != contents.len() || kept.iter().any(|record| record.has_key(new.tag, &new.key)) {
        return None;
    }
    // "a record to add takes its place in the sorting"
    let after = kept.iter().position(|record| record.comes_after(&new));
    kept.insert(after.unwrap_or(kept.len()), new);
    Some(())
}

fn remove(contents: &[u8], kept: &mut Vec<Kept>) -> Option<()> {
    // "if what 31 holds has no record tag first or then no key of that tag's form"
    let (&tag, key) = contents.split_first()?;
    if !is_key(tag, key) {
        return None;
    }
    // "removes a record that isn't there"
    let place = kept.iter().position(|record| record.has_key(tag, key))?;
    kept.remove(place);
    Some(())
}

/// "as many bytes as field 20 has, first not above last; a host name in lower
/// case; a handle"
pub fn is_key(tag: u8, key: &[u8]) -> bool {
    let is_range = |length| key.len() == length && range_of(key).first <= range_of(key).last;
    match tag {
        IPV4 | AS => is_range(8),
        IPV6 => is_range(32),
        DOMAIN | NAMESERVER => is_lower_host_name(key),
        ENTITY => is_handle(key),
        _ => false,
    }
}
