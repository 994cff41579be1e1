//! RDAP answers from a registry image, over the archive of include/rdap.h.
//!
//! Calls are pure: no state, any input, no panic; a refusal is an error that carries its numbers.
mod changes;

pub use changes::{Changes, NoChange};
use std::fmt;
use std::net::{IpAddr, Ipv4Addr, Ipv6Addr};
use std::ops::Range;

/// An image has at most so many records, so a list of so many places is never too short.
pub const RECORDS: usize = 4096;

/// A batch has at most so many paths.
pub const PATHS: usize = 64;

/// The prefixes of a range take at most so many bytes: 254 of IPv6, of 17 bytes each.
pub const PREFIXES_ROOM: usize = 4318;

/// The text of an address takes at most so many bytes.
pub const ADDRESS_TEXT_ROOM: usize = 39;

/// An image has at most so many bytes, so a buffer of so many is never too short for a fold.
pub const IMAGE_BYTES: usize = 262_144;

/// A change file has at most so many bytes.
pub const CHANGES_BYTES: usize = 65_536;

/// The tag of an AS block.
const AS_BLOCK: u8 = 0x12;

#[derive(Clone, Copy, Debug, PartialEq, Eq)]
pub enum Relation {
    Up,
    Down,
    Top,
    Bottom,
}

/// What a path asked for; a relation query also names which of the four it is.
#[derive(Clone, Copy, Debug, PartialEq, Eq)]
pub enum Kind {
    Ip,
    Autnum,
    Domain,
    Nameserver,
    Entity,
    Help,
    Search,
    Relation(Relation),
}

/// The record numbers that answer, ascending.
#[derive(Clone, Debug, PartialEq, Eq)]
pub struct Answer {
    pub kind: Kind,
    pub records: Vec<u32>,
}

/// A refusal. `count` is the number of places needed under reason 9;
/// `defect` and `place` say how the image is defective under reason 2.
#[derive(Clone, Copy, Debug, PartialEq, Eq)]
pub struct Refusal {
    pub status: u32,
    pub reason: u32,
    pub kind: Option<Kind>,
    pub count: u32,
    pub defect: u32,
    pub place: u32,
}

impl fmt::Display for Refusal {
    fn fmt(&self, f: &mut fmt::Formatter) -> fmt::Result {
        write!(f, "status {}, reason {}", self.status, self.reason)
    }
}

impl std::error::Error for Refusal {}

/// The addresses that begin with the first `length` bits of `address`.
#[derive(Clone, Copy, Debug, PartialEq, Eq)]
pub struct Prefix {
    pub address: IpAddr,
    pub length: u8,
}

impl fmt::Display for Prefix {
    fn fmt(&self, f: &mut fmt::Formatter) -> fmt::Result {
        write!(f, "{}/{}", self.address, self.length)
    }
}

/// Its first and its last address.
impl From<Prefix> for (IpAddr, IpAddr) {
    fn from(prefix: Prefix) -> (IpAddr, IpAddr) {
        let length = prefix.length.into();
        match prefix.address {
            IpAddr::V4(address) => {
                let (bits, free) = (u32::from(address), u32::MAX.checked_shr(length).unwrap_or(0));
                (Ipv4Addr::from(bits & !free).into(), Ipv4Addr::from(bits | free).into())
            }
            IpAddr::V6(address) => {
                let (bits, free) = (u128::from(address), u128::MAX.checked_shr(length).unwrap_or(0));
                (Ipv6Addr::from(bits & !free).into(), Ipv6Addr::from(bits | free).into())
            }
        }
    }
}

/// Why there are no prefixes: a range is refused with a reason and no status.
#[derive(Clone, Copy, Debug, PartialEq, Eq)]
pub enum NoPrefixes {
    /// Reason 6: first is above last, or they are not of one family.
    NoRange,
    /// Reason 9: too little room for so many prefixes.
    Room(usize),
    /// The record is an AS block or no block, there is no such record, or the image is defective.
    NoNetwork,
}

impl fmt::Display for NoPrefixes {
    fn fmt(&self, f: &mut fmt::Formatter) -> fmt::Result {
        match self {
            NoPrefixes::NoRange => write!(f, "reason 6: no range of one family"),
            NoPrefixes::Room(count) => write!(f, "reason 9: room for {count} prefixes needed"),
            NoPrefixes::NoNetwork => write!(f, "no IP network"),
        }
    }
}

impl std::error::Error for NoPrefixes {}

/// Why there is no text: an address is refused with a reason and no status.
#[derive(Clone, Copy, Debug, PartialEq, Eq)]
pub enum NoText {
    /// Reason 6: neither 4 nor 16 bytes.
    NoAddress,
    /// Reason 9: too little room for so many bytes.
    Room(usize),
}

impl fmt::Display for NoText {
    fn fmt(&self, f: &mut fmt::Formatter) -> fmt::Result {
        match self {
            NoText::NoAddress => write!(f, "reason 6: no address of 4 or 16 bytes"),
            NoText::Room(count) => write!(f, "reason 9: {count} bytes are needed"),
        }
    }
}

impl std::error::Error for NoText {}

/// A refusal of a fold, which has a reason and no status: 2 if the image is defective, 11 if a change is at fault, 12 if the
/// final image would be defective, 9 if there is too little room. Under 2 and 12 `defect` and `place` say how; under 11 `offset`
/// is where in the file the change stands, and 0 if the file is too long; under 9 `count` is the number of bytes needed.
#[derive(Clone, Copy, Debug, PartialEq, Eq)]
pub struct FoldRefusal {
    pub reason: u32,
    pub count: u32,
    pub defect: u32,
    pub place: u32,
    pub offset: u32,
}

impl fmt::Display for FoldRefusal {
    fn fmt(&self, f: &mut fmt::Formatter) -> fmt::Result {
        let FoldRefusal { reason, count, defect, place, offset } = self;
        match reason {
            2 => write!(f, "reason 2: the image is defective: defect {defect}, record {place}"),
            9 => write!(f, "reason 9: {count} bytes are needed"),
            12 => write!(f, "reason 12: the final image would be defective: defect {defect}, record {place}"),
            _ => {
                write!(f, "reason {reason}: the change at byte {offset} is malformed, removes a record that isn't there ")?;
                write!(f, "or adds one whose key is already there{}", if *offset == 0 { ", or the file is too long" } else { "" })
            }
        }
    }
}

impl std::error::Error for FoldRefusal {}

type Ask = unsafe extern "C" fn(*const u8, usize, u32, *mut u32, usize, *mut [u32; 7]);
type Find = unsafe extern "C" fn(*const u8, usize, u32, *mut [u32; 2]);
type Write = unsafe extern "C" fn(*const u8, usize, *mut u8, usize, *mut [u32; 2]);

extern "C" {
    fn rdap_answer(path: *const u8, path_len: usize, image: *const u8, image_len: usize, list: *mut u32, list_len: usize, reply: *mut [u32; 7]);
    fn rdap_batch(paths: *const u8, paths_len: usize, image: *const u8, image_len: usize, list: *mut u32, list_len: usize, reply: *mut [u32; 7]);
    fn rdap_up(image: *const u8, image_len: usize, record: u32, list: *mut u32, list_len: usize, reply: *mut [u32; 7]);
    fn rdap_down(image: *const u8, image_len: usize, record: u32, list: *mut u32, list_len: usize, reply: *mut [u32; 7]);
    fn rdap_top(image: *const u8, image_len: usize, record: u32, list: *mut u32, list_len: usize, reply: *mut [u32; 7]);
    fn rdap_bottom(image: *const u8, image_len: usize, record: u32, list: *mut u32, list_len: usize, reply: *mut [u32; 7]);
    fn rdap_handle(image: *const u8, image_len: usize, record: u32, part: *mut [u32; 2]);
    fn rdap_name(image: *const u8, image_len: usize, record: u32, part: *mut [u32; 2]);
    fn rdap_range(image: *const u8, image_len: usize, record: u32, part: *mut [u32; 2]);
    fn rdap_prefixes(range: *const u8, range_len: usize, out: *mut u8, out_len: usize, reply: *mut [u32; 2]);
    fn rdap_address_text(address: *const u8, address_len: usize, text: *mut u8, text_len: usize, reply: *mut [u32; 2]);
    fn rdap_fold(image: *const u8, image_len: usize, changes: *const u8, changes_len: usize, out: *mut u8, out_len: usize, reply: *mut [u32; 5]);
}

fn kind(reply: &[u32; 7]) -> Option<Kind> {
    Some(match (reply[2], reply[3]) {
        (1, _) => Kind::Ip,
        (2, _) => Kind::Autnum,
        (3, _) => Kind::Domain,
        (4, _) => Kind::Nameserver,
        (5, _) => Kind::Entity,
        (6, _) => Kind::Help,
        (7, _) => Kind::Search,
        (8, 1) => Kind::Relation(Relation::Up),
        (8, 2) => Kind::Relation(Relation::Down),
        (8, 3) => Kind::Relation(Relation::Top),
        (8, 4) => Kind::Relation(Relation::Bottom),
        _ => return None,
    })
}

fn refusal(reply: &[u32; 7]) -> Refusal {
    Refusal { status: reply[0], reason: reply[1], kind: kind(reply), count: reply[4], defect: reply[5], place: reply[6] }
}

/// The kind and the count of an answered reply, or its refusal.
fn outcome(reply: &[u32; 7]) -> Result<(Kind, usize), Refusal> {
    match (reply[1], kind(reply)) {
        (0, Some(kind)) => Ok((kind, reply[4] as usize)),
        _ => Err(refusal(reply)),
    }
}

fn listed(ask: impl FnOnce(&mut [u32]) -> Result<(Kind, usize), Refusal>) -> Result<Answer, Refusal> {
    let mut list = [0; RECORDS];
    let (kind, count) = ask(&mut list)?;
    Ok(Answer { kind, records: list[..count].to_vec() })
}

/// Answers a path with its query; the record numbers go to the first places of the list, the rest is unchanged.
pub fn answer_into(path: &[u8], image: &[u8], list: &mut [u32]) -> Result<(Kind, usize), Refusal> {
    let mut reply = [0; 7];
    // The slices are valid for their lengths, distinct where one is written, and the reply has seven places.
    unsafe { rdap_answer(path.as_ptr(), path.len(), image.as_ptr(), image.len(), list.as_mut_ptr(), list.len(), &mut reply) };
    outcome(&reply)
}

/// Answers a path with its query.
pub fn answer(path: &[u8], image: &[u8]) -> Result<Answer, Refusal> {
    listed(|list| answer_into(path, image, list))
}

/// Answers a text of at most 64 paths, separated by a line feed; an empty text is one empty path. For each path the list gets
/// status, reason, kind and count, then its record numbers (none if it is refused), until fewer than four places are left;
/// the rest is unchanged. Gives the number of paths answered. Its own refusals are a defective image and too many paths.
pub fn batch_into(paths: &[u8], image: &[u8], list: &mut [u32]) -> Result<usize, Refusal> {
    let mut reply = [0; 7];
    // As above.
    unsafe { rdap_batch(paths.as_ptr(), paths.len(), image.as_ptr(), image.len(), list.as_mut_ptr(), list.len(), &mut reply) };
    match reply[1] {
        0 => Ok(reply[4] as usize),
        _ => Err(refusal(&reply)),
    }
}

/// The number of the relation that a relation path asks: its third segment, which is compared undecoded (S6.4).
fn relation_in(path: &[u8]) -> u32 {
    match path.split(|byte| *byte == b'/').nth(3) {
        Some(b"up") => 1,
        Some(b"down") => 2,
        Some(b"top") => 3,
        Some(b"bottom") => 4,
        _ => 0,
    }
}

/// Takes the answer of a path off the front of a batch's list.
fn take(path: &[u8], list: &mut &[u32]) -> Result<Answer, Refusal> {
    let (head, rest) = list.split_at(4);
    *list = rest;
    let (kind, count) = outcome(&[head[0], head[1], head[2], relation_in(path), head[3], 0, 0])?;
    let (records, rest) = rest.split_at(count);
    *list = rest;
    Ok(Answer { kind, records: records.to_vec() })
}

/// Answers at most 64 paths, each as `answer` does; the image is checked once. A defective image and more paths refuse the whole.
pub fn batch(paths: &[&[u8]], image: &[u8]) -> Result<Vec<Result<Answer, Refusal>>, Refusal> {
    // A line feed inside a path would make two paths of it. RFC 3986 allows neither a feed nor a NUL, so the answer is the same.
    let whole = |path: &&[u8]| -> Vec<u8> { path.iter().map(|byte| if *byte == b'\n' { 0 } else { *byte }).collect() };
    let text = paths.iter().map(whole).collect::<Vec<_>>().join(&b'\n');
    // Without paths there is no place, so that the empty path of an empty text is not answered; the image is judged.
    let mut list = vec![0; (4 + RECORDS) * paths.len().min(PATHS)];
    let answered = batch_into(&text, image, &mut list)?;
    let mut list = &list[..];
    Ok(paths[..answered].iter().map(|path| take(path, &mut list)).collect())
}

/// Asks a relation of a record number, as a relation path would for that block's range.
pub fn relation_into(image: &[u8], record: u32, relation: Relation, list: &mut [u32]) -> Result<(Kind, usize), Refusal> {
    let ask: Ask = match relation {
        Relation::Up => rdap_up,
        Relation::Down => rdap_down,
        Relation::Top => rdap_top,
        Relation::Bottom => rdap_bottom,
    };
    let mut reply = [0; 7];
    // As above.
    unsafe { ask(image.as_ptr(), image.len(), record, list.as_mut_ptr(), list.len(), &mut reply) };
    outcome(&reply)
}

/// Asks a relation of a record number.
pub fn relation(image: &[u8], record: u32, relation: Relation) -> Result<Answer, Refusal> {
    listed(|list| relation_into(image, record, relation, list))
}

/// Where in the image a part of a record lies.
fn span(find: Find, image: &[u8], record: u32) -> Range<usize> {
    let mut part = [0; 2];
    // As above; the part has two places.
    unsafe { find(image.as_ptr(), image.len(), record, &mut part) };
    let [start, length] = part.map(|number| number as usize);
    start..start + length
}

/// The handle of a record, as a part of the image; empty if the image is defective or there is no such record.
pub fn handle(image: &[u8], record: u32) -> &[u8] {
    &image[span(rdap_handle, image, record)]
}

/// The name of a record, alike.
pub fn name(image: &[u8], record: u32) -> &[u8] {
    &image[span(rdap_name, image, record)]
}

/// The range of a block, alike, and empty if the record is no block: first and last, 8 bytes or, of an IPv6 network, 32.
/// An AS block has 8 bytes too, which `prefixes_into` would read as IPv4; `record_prefixes` refuses it.
pub fn range(image: &[u8], record: u32) -> &[u8] {
    &image[span(rdap_range, image, record)]
}

/// The reason and the count of a call on a range or an address.
fn written(write: Write, given: &[u8], out: &mut [u8]) -> [usize; 2] {
    let mut reply = [0; 2];
    // As above; the reply has two places.
    unsafe { write(given.as_ptr(), given.len(), out.as_mut_ptr(), out.len(), &mut reply) };
    reply.map(|number| number as usize)
}

/// Writes the prefixes that together hold exactly the addresses of a range, 8 or 32 bytes, ascending; no shorter list does.
/// An entry is the address in 4 or 16 bytes, then its length in one; the rest of the bytes is unchanged, and all of them on a refusal.
/// Gives the number of prefixes.
pub fn prefixes_into(range: &[u8], out: &mut [u8]) -> Result<usize, NoPrefixes> {
    match written(rdap_prefixes, range, out) {
        [0, count] => Ok(count),
        [9, count] => Err(NoPrefixes::Room(count)),
        _ => Err(NoPrefixes::NoRange),
    }
}

/// The first entries of a buffer, each an address of so many bytes and its length.
fn entries<const WIDTH: usize>(out: &[u8], count: usize) -> Vec<Prefix>
where
    IpAddr: From<[u8; WIDTH]>,
{
    let prefix = |entry: &[u8]| {
        let mut address = [0; WIDTH];
        address.copy_from_slice(&entry[..WIDTH]);
        Prefix { address: IpAddr::from(address), length: entry[WIDTH] }
    };
    out.chunks(WIDTH + 1).take(count).map(prefix).collect()
}

fn prefixes_of(range: &[u8]) -> Result<Vec<Prefix>, NoPrefixes> {
    let mut out = [0; PREFIXES_ROOM];
    let count = prefixes_into(range, &mut out)?;
    Ok(match range.len() {
        8 => entries::<4>(&out, count),
        _ => entries::<16>(&out, count),
    })
}

fn octets(address: IpAddr) -> Vec<u8> {
    match address {
        IpAddr::V4(address) => address.octets().to_vec(),
        IpAddr::V6(address) => address.octets().to_vec(),
    }
}

/// The prefixes that together hold exactly first to last, ascending; no shorter list does.
/// First above last and two families are refused.
pub fn prefixes(first: IpAddr, last: IpAddr) -> Result<Vec<Prefix>, NoPrefixes> {
    // Two families make 20 bytes, which are no range.
    prefixes_of(&[octets(first), octets(last)].concat())
}

/// The prefixes of an IP network; an AS block and what is no block are refused.
pub fn record_prefixes(image: &[u8], record: u32) -> Result<Vec<Prefix>, NoPrefixes> {
    let range = span(rdap_range, image, record);
    // The tag of a block stands six bytes before its range.
    if range.is_empty() || image[range.start - 6] == AS_BLOCK {
        return Err(NoPrefixes::NoNetwork);
    }
    prefixes_of(&image[range])
}

/// Writes the text of an address, 4 or 16 bytes: IPv4 as four decimals, IPv6 in the form of RFC 5952, with a dotted tail for
/// ::ffff:0:0/96 and for no other. The rest of the bytes is unchanged, and all of them on a refusal. Gives the number of bytes written.
pub fn address_text_into(address: &[u8], text: &mut [u8]) -> Result<usize, NoText> {
    match written(rdap_address_text, address, text) {
        [0, count] => Ok(count),
        [9, count] => Err(NoText::Room(count)),
        _ => Err(NoText::NoAddress),
    }
}

/// The text of an address. It is never refused: an address has 4 or 16 bytes, and there is room for the longest text.
pub fn address_text(address: impl Into<IpAddr>) -> String {
    let mut text = [0; ADDRESS_TEXT_ROOM];
    let count = address_text_into(&octets(address.into()), &mut text).expect("an address has a text");
    text[..count].iter().map(|byte| char::from(*byte)).collect()
}

/// Folds a change file into an image. The final image goes to the first of the bytes, the rest is unchanged, and all of them on a
/// refusal. Gives the number of its bytes. Its records may have other numbers.
pub fn fold_into(image: &[u8], changes: &[u8], out: &mut [u8]) -> Result<usize, FoldRefusal> {
    let mut reply = [0; 5];
    // As above; the reply has five places.
    unsafe { rdap_fold(image.as_ptr(), image.len(), changes.as_ptr(), changes.len(), out.as_mut_ptr(), out.len(), &mut reply) };
    match reply {
        [0, count, ..] => Ok(count as usize),
        [reason, count, defect, place, offset] => Err(FoldRefusal { reason, count, defect, place, offset }),
    }
}

/// Folds a change file, bytes or `Changes`, into an image and gives the final image.
pub fn fold(image: &[u8], changes: impl AsRef<[u8]>) -> Result<Vec<u8>, FoldRefusal> {
    let mut out = vec![0; IMAGE_BYTES];
    let count = fold_into(image, changes.as_ref(), &mut out)?;
    Ok(out[..count].to_vec())
}
