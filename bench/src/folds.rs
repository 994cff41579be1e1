//! Images and change files for the rows of folds.

use super::{per_tag, tree};
use model::generate::{encode, Draft};
use model::{Range, AS, DOMAIN, ENTITY, IPV4, IPV6, LONGEST_CHANGES, MOST_RECORDS, NAMESERVER};

/// What is folded into what, and the reason that it gives.
pub struct Input {
    pub name: String,
    pub image: Vec<u8>,
    pub changes: Vec<u8>,
    pub reason: u32,
}

/// Kilobytes of the change files that show the growth, and how their rows start.
const KILOBYTES: [usize; 5] = [4, 8, 16, 32, 64];
pub const GROWING: [&str; 2] = ["mixed", "too many"];

/// Bytes of a record of an image: with the most records it has nearly the most
/// bytes.
const SIZE: usize = 63;

/// Bytes of the smallest change that adds an IPv4 network.
const SMALLEST_BLOCK: usize = 29;

impl Input {
    /// One that gives reason 0.
    fn new(name: impl Into<String>, image: &[u8], changes: Vec<u8>) -> Input {
        Input {
            name: name.into(),
            image: image.to_vec(),
            changes,
            reason: 0,
        }
    }
}

pub fn inputs() -> Vec<Input> {
    let mut inputs = all_over();
    inputs.extend(before_all());
    inputs.extend(too_many());
    inputs
}

/// Changes all over the full image.
fn all_over() -> Vec<Input> {
    let items = items();
    let full = image(items.iter().map(|item| item.draft('a')));
    let some = replacements(&items).take(50).flatten().collect();
    let mut inputs = vec![
        Input::new("no change", &full, Vec::new()),
        Input::new("100 changes", &full, some),
    ];
    inputs.extend(KILOBYTES.map(|kilobytes| {
        let name = format!("{} {kilobytes} KB", GROWING[0]);
        let changes = cut(replacements(&items), kilobytes << 10);
        Input::new(name, &full, changes)
    }));
    inputs
}

/// The largest files of changes before all records.
fn before_all() -> [Input; 3] {
    let (blocks, changes) = blocks_before();
    let most: Vec<u8> = image((1..MOST_RECORDS).map(entity));
    let none = image([].into_iter());
    let entities = cut(entities_before(3, MOST_RECORDS), LONGEST_CHANGES);
    [
        Input::new("front IPv4", &blocks, changes),
        Input::new("front of none", &none, entities),
        Input::new(
            "front to and fro",
            &most,
            cut(to_and_fro(), LONGEST_CHANGES),
        ),
    ]
}

/// Records added before as many as an image may have.
fn too_many() -> [Input; KILOBYTES.len()] {
    let most = image((0..MOST_RECORDS).map(entity));
    KILOBYTES.map(|kilobytes| {
        let name = format!("{} {kilobytes} KB", GROWING[1]);
        let changes = cut(entities_before(2, 92 * 92), kilobytes << 10);
        Input {
            reason: 12,
            ..Input::new(name, &most, changes)
        }
    })
}

fn image(drafts: impl Iterator<Item = Draft>) -> Vec<u8> {
    let drafts: Vec<Draft> = drafts.collect();
    assert!(drafts.iter().all(|draft| draft.encode().len() == SIZE));
    encode(&drafts)
}

/// As many changes as have at most so many bytes.
fn cut(changes: impl Iterator<Item = Vec<u8>>, bytes: usize) -> Vec<u8> {
    let mut file = Vec::new();
    for change in changes {
        if file.len() + change.len() > bytes {
            break;
        }
        file.extend(change);
    }
    file
}

/// A record of the full image.
struct Item {
    tag: u8,
    number: usize,
    /// Of a block.
    range: Option<Range>,
}

/// A sixth of each tag, blocks in trees.
fn items() -> Vec<Item> {
    let of_tag = |tag| {
        let count = per_tag(MOST_RECORDS, tag);
        let bits = if tag == IPV6 { 128 } else { 32 };
        let mut ranges = tree(if tag <= AS { count } else { 0 }, bits).into_iter();
        let numbers = 0..count;
        let item = move |number| Item {
            tag,
            number,
            range: ranges.next(),
        };
        numbers.map(item)
    };
    (IPV4..=ENTITY).flat_map(of_tag).collect()
}

impl Item {
    /// Another mark makes it another record; it stands in the name of a block, in
    /// the key of others.
    fn draft(&self, mark: char) -> Draft {
        let number = self.number;
        let handle = format!("OBJ-{number:04}");
        let (handle, name) = match self.tag {
            DOMAIN | NAMESERVER => {
                let name = format!("d{number:04}{mark}{:x<28}.example.com", "-");
                (handle, name)
            }
            ENTITY => (format!("{handle}{mark}"), format!("{:.<45}", "Example ")),
            IPV6 => (handle, format!("{number:04}..{mark}")),
            _ => (handle, format!("{number:.<30}{mark}")),
        };
        let (handle, name) = (handle.as_bytes(), name.as_bytes());
        match self.range {
            Some(range) => Draft::block(self.tag, range, handle, name, true),
            None => Draft::other(self.tag, handle, name),
        }
    }
}

/// Pairs of changes that remove a record and add another in its place, all over
/// the image.
fn replacements(items: &[Item]) -> impl Iterator<Item = Vec<u8>> + '_ {
    // an odd step meets each once
    let order = (0..items.len()).map(|at| at * 1237 % items.len());
    order.map(|at| {
        let [old, new] = ['a', 'b'].map(|mark| items[at].draft(mark));
        [old.removal(), new.addition()].concat()
    })
}

/// An entity that sorts after those of `smallest`.
fn entity(number: usize) -> Draft {
    let name = format!("{:.<49}", "Example ");
    Draft::other(ENTITY, format!("~{number:04}").as_bytes(), name.as_bytes())
}

/// An entity with a handle of so many bytes and a name of one, sorted by number.
fn smallest(number: usize, length: u32) -> Draft {
    // no asterisk, and nothing from the tilde on
    let bytes: Vec<u8> = (0x21..0x7E).filter(|&byte| byte != b'*').collect();
    let digit = |at| bytes[number / bytes.len().pow(at) % bytes.len()];
    let handle: Vec<u8> = (0..length).rev().map(digit).collect();
    Draft::other(ENTITY, &handle, b"n")
}

/// So many entities to add, each before all that are there.
fn entities_before(length: u32, count: usize) -> impl Iterator<Item = Vec<u8>> {
    let numbers = (0..count).rev();
    numbers.map(move |number| smallest(number, length).addition())
}

/// An entity before all others, added and removed again and again.
fn to_and_fro() -> impl Iterator<Item = Vec<u8>> {
    let first = smallest(0, 1);
    std::iter::repeat_with(move || [first.addition(), first.removal()].concat())
}

/// IPv4 networks, and as many more as a file holds, each to be added before all
/// that are there.
fn blocks_before() -> (Vec<u8>, Vec<u8>) {
    let added = LONGEST_CHANGES / SMALLEST_BLOCK;
    let block = |number: usize, name: &str| {
        let range = Range {
            first: number as u128,
            last: number as u128,
        };
        Draft::block(IPV4, range, b"h", name.as_bytes(), true)
    };
    let there = added..MOST_RECORDS;
    let image = image(there.map(|number| block(number, &format!("{number:.<38}"))));
    let changes = (0..added).rev().map(|number| block(number, "n").addition());
    (image, cut(changes, LONGEST_CHANGES))
}
