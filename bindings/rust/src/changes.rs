//! Change files (S4.8), built change by change.
use crate::{octets, AS_BLOCK};
use std::fmt;
use std::net::IpAddr;

// The other tags of records, and those of their fields and of changes.
const IPV4_NETWORK: u8 = 0x10;
const IPV6_NETWORK: u8 = 0x11;
const DOMAIN: u8 = 0x13;
const NAMESERVER: u8 = 0x14;
const ENTITY: u8 = 0x15;
const RANGE: u8 = 0x20;
const HANDLE: u8 = 0x21;
const NAME: u8 = 0x22;
const ACTIVE: u8 = 0x23;
const ADD: u8 = 0x30;
const REMOVE: u8 = 0x31;

/// What no change can spell.
#[derive(Clone, Copy, Debug, PartialEq, Eq)]
pub enum NoChange {
    /// First and last are not of one family.
    TwoFamilies,
    /// A field would hold more than 65,535 bytes.
    TooLong,
}

impl fmt::Display for NoChange {
    fn fmt(&self, f: &mut fmt::Formatter) -> fmt::Result {
        f.write_str(match self {
            NoChange::TwoFamilies => "first and last are of two families",
            NoChange::TooLong => "a field holds at most 65,535 bytes",
        })
    }
}

impl std::error::Error for NoChange {}

/// A change file. Changes apply in the order in which they are made; each method gives the file back, for the next one.
/// A block is removed by its range, a domain or nameserver by its name, an entity by its handle.
///
/// Texts are taken as they are: `fold` judges them, and refuses a host name in capitals, text that is not ASCII or a first
/// above its last. What no change can spell is refused here and leaves the file as it was.
#[derive(Clone, Debug, Default, PartialEq, Eq)]
pub struct Changes {
    file: Vec<u8>,
    starts: Vec<usize>,
}

impl AsRef<[u8]> for Changes {
    fn as_ref(&self) -> &[u8] {
        &self.file
    }
}

/// What the records of a tag are sorted and removed by.
struct Key {
    tag: u8,
    contents: Vec<u8>,
}

impl Key {
    fn network((first, last): (IpAddr, IpAddr)) -> Result<Key, NoChange> {
        let tag = match (first, last) {
            (IpAddr::V4(_), IpAddr::V4(_)) => IPV4_NETWORK,
            (IpAddr::V6(_), IpAddr::V6(_)) => IPV6_NETWORK,
            _ => return Err(NoChange::TwoFamilies),
        };
        Ok(Key { tag, contents: [octets(first), octets(last)].concat() })
    }

    fn as_block(first: u32, last: u32) -> Key {
        Key { tag: AS_BLOCK, contents: [first.to_be_bytes(), last.to_be_bytes()].concat() }
    }

    fn text(tag: u8, text: impl AsRef<[u8]>) -> Key {
        Key { tag, contents: text.as_ref().to_vec() }
    }
}

fn field(tag: u8, contents: &[u8]) -> Result<Vec<u8>, NoChange> {
    let length = u16::try_from(contents.len()).map_err(|_| NoChange::TooLong)?;
    Ok([&[tag], &length.to_be_bytes()[..], contents].concat())
}

fn texts(handle: &[u8], name: &[u8]) -> Result<Vec<u8>, NoChange> {
    Ok([field(HANDLE, handle)?, field(NAME, name)?].concat())
}

impl Changes {
    /// An empty file.
    pub fn new() -> Changes {
        Changes::default()
    }

    /// The bytes of the file.
    pub fn as_bytes(&self) -> &[u8] {
        &self.file
    }

    /// The index, counted from 0, of the change that starts at an offset of the file, as a refusal has it.
    pub fn change_at(&self, offset: u32) -> Option<usize> {
        self.starts.iter().position(|start| *start == offset as usize)
    }

    /// Adds a network: a `Prefix`, or its first and its last address.
    pub fn add_network(
        &mut self,
        network: impl Into<(IpAddr, IpAddr)>,
        handle: impl AsRef<[u8]>,
        name: impl AsRef<[u8]>,
        active: bool,
    ) -> Result<&mut Changes, NoChange> {
        self.add_block(Key::network(network.into())?, handle.as_ref(), name.as_ref(), active)
    }

    /// Adds the AS numbers from first to last.
    pub fn add_as_block(
        &mut self,
        first: u32,
        last: u32,
        handle: impl AsRef<[u8]>,
        name: impl AsRef<[u8]>,
        active: bool,
    ) -> Result<&mut Changes, NoChange> {
        self.add_block(Key::as_block(first, last), handle.as_ref(), name.as_ref(), active)
    }

    pub fn add_domain(&mut self, name: impl AsRef<[u8]>, handle: impl AsRef<[u8]>) -> Result<&mut Changes, NoChange> {
        self.add(DOMAIN, &texts(handle.as_ref(), name.as_ref())?)
    }

    pub fn add_nameserver(&mut self, name: impl AsRef<[u8]>, handle: impl AsRef<[u8]>) -> Result<&mut Changes, NoChange> {
        self.add(NAMESERVER, &texts(handle.as_ref(), name.as_ref())?)
    }

    pub fn add_entity(&mut self, handle: impl AsRef<[u8]>, name: impl AsRef<[u8]>) -> Result<&mut Changes, NoChange> {
        self.add(ENTITY, &texts(handle.as_ref(), name.as_ref())?)
    }

    /// Removes the network of exactly these addresses.
    pub fn remove_network(&mut self, network: impl Into<(IpAddr, IpAddr)>) -> Result<&mut Changes, NoChange> {
        self.remove(Key::network(network.into())?)
    }

    pub fn remove_as_block(&mut self, first: u32, last: u32) -> Result<&mut Changes, NoChange> {
        self.remove(Key::as_block(first, last))
    }

    pub fn remove_domain(&mut self, name: impl AsRef<[u8]>) -> Result<&mut Changes, NoChange> {
        self.remove(Key::text(DOMAIN, name))
    }

    pub fn remove_nameserver(&mut self, name: impl AsRef<[u8]>) -> Result<&mut Changes, NoChange> {
        self.remove(Key::text(NAMESERVER, name))
    }

    pub fn remove_entity(&mut self, handle: impl AsRef<[u8]>) -> Result<&mut Changes, NoChange> {
        self.remove(Key::text(ENTITY, handle))
    }

    fn add_block(&mut self, key: Key, handle: &[u8], name: &[u8], active: bool) -> Result<&mut Changes, NoChange> {
        let (range, active) = (field(RANGE, &key.contents)?, field(ACTIVE, &[active.into()])?);
        self.add(key.tag, &[range, texts(handle, name)?, active].concat())
    }

    fn add(&mut self, tag: u8, fields: &[u8]) -> Result<&mut Changes, NoChange> {
        self.append(ADD, &field(tag, fields)?)
    }

    fn remove(&mut self, key: Key) -> Result<&mut Changes, NoChange> {
        self.append(REMOVE, &[&[key.tag], &key.contents[..]].concat())
    }

    fn append(&mut self, change: u8, contents: &[u8]) -> Result<&mut Changes, NoChange> {
        let change = field(change, contents)?;
        self.starts.push(self.file.len());
        self.file.extend(change);
        Ok(self)
    }
}
