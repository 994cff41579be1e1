//! The image: its records or its defect.

use crate::{
    Defect, Part, Range, Record, AS, DOMAIN, ENTITY, IPV4, IPV6, LONGEST_IMAGE, MOST_RECORDS,
    NAMESERVER, START,
};

pub type Checked = Result<Vec<Record>, Defect>;

/// The records of a sound image, or its defect. "The start alone is a sound,
/// empty registry."
pub fn check(image: &[u8]) -> Checked {
    // "Defects 1 and 2 come before any record's, with place 0."
    if image.len() > LONGEST_IMAGE {
        return Err(Defect {
            defect: 1,
            place: 0,
        });
    }
    if !image.starts_with(&START) {
        return Err(Defect {
            defect: 2,
            place: 0,
        });
    }
    let mut records = Vec::new();
    let mut at = START.len();
    while at < image.len() {
        // "Defects, at the first record that has one, and there the lowest
        // number"
        let place = records.len() as u32;
        match read_record(image, at, &records) {
            Ok((record, end)) => {
                records.push(record);
                at = end;
            }
            Err(defect) => return Err(Defect { defect, place }),
        }
    }
    Ok(records)
}

/// A field: "one-byte tag, two-byte length (high byte first), contents".
pub struct Field {
    pub tag: u8,
    pub part: Part,
    pub end: usize,
}

/// The field at `at`, unless it passes `limit`, "the end of the enclosing
/// field".
pub fn read_field(image: &[u8], at: usize, limit: usize) -> Option<Field> {
    let head = image[at..limit].get(..3)?;
    let length = usize::from(head[1]) * 256 + usize::from(head[2]);
    let offset = at + 3;
    let end = offset + length;
    if end > limit {
        return None;
    }
    Some(Field {
        tag: head[0],
        part: Part { offset, length },
        end,
    })
}

/// The record at `at` and where it ends, or its defect, given those before it.
pub fn read_record(image: &[u8], at: usize, before: &[Record]) -> Result<(Record, usize), u32> {
    // "3 record cut short, unknown tag, or more than 4,096 records"
    let outer = read_field(image, at, image.len()).ok_or(3u32)?;
    let tag = outer.tag;
    if !(IPV4..=ENTITY).contains(&tag) || before.len() >= MOST_RECORDS {
        return Err(3);
    }
    let is_block = tag <= AS;
    let address = if tag == IPV6 { 16 } else { 4 };

    // "4 an inner field missing, out of order or past the record's end, bytes
    // left over, or 20 or 23 of wrong length"
    let expected: &[u8] = if is_block {
        &[0x20, 0x21, 0x22, 0x23]
    } else {
        &[0x21, 0x22]
    };
    let mut inner = Vec::new();
    let mut position = outer.part.offset;
    for &tag in expected {
        let field = read_field(image, position, outer.end).ok_or(4u32)?;
        if field.tag != tag {
            return Err(4);
        }
        position = field.end;
        inner.push(field.part);
    }
    if position != outer.end {
        return Err(4);
    }
    if is_block && (inner[0].length != 2 * address || inner[3].length != 1) {
        return Err(4);
    }

    // "5 contents (the lengths of 21 and 22 too) against the rules above, or
    // first above last"
    let handle = if is_block { inner[1] } else { inner[0] };
    let name = if is_block { inner[2] } else { inner[1] };
    if !is_handle(handle.of(image)) {
        return Err(5);
    }
    // "in records 13 and 14 it is instead a host name in lower case"
    let name_is_good = match tag {
        DOMAIN | NAMESERVER => is_lower_host_name(name.of(image)),
        _ => is_name(name.of(image)),
    };
    if !name_is_good {
        return Err(5);
    }
    let mut range = None;
    let mut ends = Part {
        offset: 0,
        length: 0,
    };
    if is_block {
        ends = inner[0];
        let found = range_of(ends.of(image));
        // "23 is one byte, 1 active or 0 not."
        let active = inner[3].of(image)[0];
        if found.first > found.last || active > 1 {
            return Err(5);
        }
        range = Some(found);
    }
    let record = Record {
        tag,
        range,
        ends,
        handle,
        name,
    };

    // "6 tag lower than its predecessor's, or the same tag and not strictly
    // after it in the sorting"
    if let Some(predecessor) = before.last() {
        let (key, earlier) = (record.key(image), predecessor.key(image));
        if tag < predecessor.tag || (tag == predecessor.tag && !strictly_after(tag, key, earlier)) {
            return Err(6);
        }
    }

    // "7 overlaps an earlier block of its tag without lying inside it"
    for earlier in before.iter().filter(|earlier| earlier.tag == tag) {
        if let (Some(range), Some(earlier)) = (range, earlier.range) {
            if range.overlaps(earlier) && !earlier.covers(range) {
                return Err(7);
            }
        }
    }
    Ok((record, outer.end))
}

/// "Field 20 is first and last, both included, high byte first."
pub fn range_of(contents: &[u8]) -> Range {
    let (first, last) = contents.split_at(contents.len() / 2);
    Range {
        first: number_of(first),
        last: number_of(last),
    }
}

fn number_of(bytes: &[u8]) -> u128 {
    bytes
        .iter()
        .fold(0, |number, &byte| number * 256 + u128::from(byte))
}

/// The column "Sorted by", of two keys of a tag. "Names and handles sort by bytes,
/// a proper prefix first", as slices of bytes do.
pub fn strictly_after(tag: u8, key: &[u8], earlier: &[u8]) -> bool {
    if tag > AS {
        return key > earlier;
    }
    // "first ascending, then last descending"
    let (range, earlier) = (range_of(key), range_of(earlier));
    range.first > earlier.first || (range.first == earlier.first && range.last < earlier.last)
}

/// "21 is a handle: 1 to 64 bytes, 21 to 7E hex, no asterisk."
pub fn is_handle(text: &[u8]) -> bool {
    (1..=64).contains(&text.len())
        && text
            .iter()
            .all(|&byte| is_handle_byte(byte) && byte != b'*')
}

pub fn is_handle_byte(byte: u8) -> bool {
    (0x21..=0x7E).contains(&byte)
}

/// "22 is a name: 1 to 64 bytes, 20 to 7E hex, no asterisk"
fn is_name(text: &[u8]) -> bool {
    (1..=64).contains(&text.len()) && text.iter().all(|&byte| is_name_byte(byte) && byte != b'*')
}

pub fn is_name_byte(byte: u8) -> bool {
    (0x20..=0x7E).contains(&byte)
}

/// "A host name has one or more labels of 1 to 63 letters, digits or hyphens,
/// no hyphen at a label's ends, joined by dots, at most 253 bytes."
pub fn is_host_name(text: &[u8]) -> bool {
    text.len() <= 253
        && text.split(|&byte| byte == b'.').all(|label| {
            (1..=63).contains(&label.len())
                && label
                    .iter()
                    .all(|&byte| byte.is_ascii_alphanumeric() || byte == b'-')
                && label.first() != Some(&b'-')
                && label.last() != Some(&b'-')
        })
}

pub fn is_lower_host_name(text: &[u8]) -> bool {
    is_host_name(text) && !text.iter().any(u8::is_ascii_uppercase)
}
