//! Nanoseconds a call of the library beside those of the fast Rust (bench/fast), in
//! the same run and by turns; each figure is the least of many repetitions.
//!
//!     bench [--shape NAME] [--kind TEXT] [--repetitions N] [--seconds T]
//!           [--table | --over-check | --prefixes | --folds | --address-text]
//!
//! N repetitions (40) of every row, fewer if T seconds (100) are over before.
//! Every call on an image checks it. The row `check` is the path `/help`, which
//! does nothing else; the rows `batch` are 64 lookups in one call. Growth is the
//! time for 4,096 records over that for 2,048.
//! `--table` prints the figures for 4,096 records as a table of Markdown.
//! `--over-check` measures the lookups by name and by handle on 4,096 records, and
//! beside each the check alone, in place of the Rust.
//! `--prefixes` measures the lists of prefixes of ranges, for which there is no
//! image: the longest ones, one prefix, and a room that is a byte too short.
//! `--folds` measures change files, and beside each the check alone, too: into an
//! image with the most records and nearly the most bytes no change, 100 changes
//! and files of 4 to 64 KB that replace records all over it; then the largest files
//! of additions that come before all records, each one before the last, which into
//! 4,096 records give reason 12.
//! `--address-text` measures the texts of addresses, beside the Rust and beside the
//! `Display` of std's types, too: nanoseconds an address, where a turn takes 65,536
//! of them from a row of bytes, each into the same text of 39 bytes. They are
//! random in IPv4, and in IPv6 of five shapes and a mix of these.

mod folds;
mod texts;

use folds::Input;
use model::generate::{Draft, Rng};
use model::{
    generate, Part, Range, Record, Relation, AS, DOMAIN, ENTITY, IPV4, IPV6, LONGEST_IMAGE,
    MOST_PATHS, MOST_PREFIXES, MOST_RECORDS, NAMESERVER,
};
use std::collections::BTreeSet;
use std::hint::black_box;
use std::net::{Ipv4Addr, Ipv6Addr};
use std::time::Instant;
use texts::Addresses;

const SIZES: [usize; 5] = [256, 512, 1024, 2048, 4096];
const SHAPES: [&str; 4] = ["mixed", "flat", "chain", "long"];

/// Shapes of one tag, measured over the check or when named.
const SORTED: [&str; 2] = ["entities", "domains"];

/// The tags that are looked up by a text in which they are sorted.
const BY_TEXT: [(&str, u8); 3] = [
    ("domain", DOMAIN),
    ("nameserver", NAMESERVER),
    ("entity", ENTITY),
];

/// Places of the list: enough for every answer, and for 64 lookups in a batch.
const PLACES: usize = MOST_RECORDS;

/// Bytes for entries: enough for every list of prefixes, by family.
const ROOM: usize = MOST_PREFIXES * 17;
const ROOM_V4: usize = 62 * 5;

/// A turn takes about so many nanoseconds.
const TURN: f64 = 150_000.0;

// Images

fn handle(start: &str, number: usize) -> Vec<u8> {
    format!("{start}-{number:04}").into_bytes()
}

fn name(number: usize) -> Vec<u8> {
    format!("Example Net {number:04}").into_bytes()
}

fn block(tag: u8, start: &str, number: usize, range: Range) -> Draft {
    Draft::block(tag, range, &handle(start, number), &name(number), true)
}

/// The first `count` blocks of a tree whose nodes have up to four children;
/// `bits` are those of an address.
fn tree(count: usize, bits: u32) -> Vec<Range> {
    let mut ranges = Vec::new();
    let mut level = vec![(0u128, bits)];
    while ranges.len() < count {
        let mut next = Vec::new();
        for (first, after) in level {
            if ranges.len() == count {
                break;
            }
            let size = 1u128.checked_shl(after).unwrap_or(0).wrapping_sub(1);
            ranges.push(Range {
                first,
                last: first | size,
            });
            let after = after.saturating_sub(3);
            next.extend((0..4).map(|child: u128| (first + (child << after), after)));
        }
        level = next;
    }
    ranges.sort_by_key(|range| (range.first, !range.last));
    ranges
}

/// The sixth of so many records that a tag has.
fn per_tag(count: usize, tag: u8) -> usize {
    count / 6 + usize::from(usize::from(tag - IPV4) < count % 6)
}

/// A sixth of each tag, blocks in trees.
fn mixed(count: usize) -> Vec<Draft> {
    let of_tag = |tag: u8| {
        let count = per_tag(count, tag);
        match tag {
            IPV4 => blocks(tag, "NET", tree(count, 32)),
            IPV6 => blocks(tag, "NET6", tree(count, 128)),
            AS => blocks(tag, "AS", tree(count, 32)),
            _ => others(tag, count),
        }
    };
    (IPV4..=ENTITY).flat_map(of_tag).collect()
}

fn blocks(tag: u8, start: &str, ranges: Vec<Range>) -> Vec<Draft> {
    let numbered = ranges.into_iter().enumerate();
    numbered
        .map(|(number, range)| block(tag, start, number, range))
        .collect()
}

fn others(tag: u8, count: usize) -> Vec<Draft> {
    let name = |number| match tag {
        DOMAIN => format!("d{number:04}.example.com").into_bytes(),
        NAMESERVER => format!("d{number:04}.ns.example.com").into_bytes(),
        _ => name(number),
    };
    (0..count)
        .map(|number| Draft::other(tag, &handle("OBJ", number), &name(number)))
        .collect()
}

/// IPv4 blocks side by side.
fn flat(count: usize) -> Vec<Draft> {
    let range = |number: usize| {
        let first = (number as u128) << 8;
        let last = first + 255;
        Range { first, last }
    };
    blocks(IPV4, "NET", (0..count).map(range).collect())
}

/// IPv4 blocks, each in the one before.
fn chain(count: usize) -> Vec<Draft> {
    let range = |number: usize| {
        let first = number as u128;
        let last = u128::from(u32::MAX) - number as u128;
        Range { first, last }
    };
    blocks(IPV4, "NET", (0..count).map(range).collect())
}

/// Domains and entities with names of 46 bytes.
fn long(count: usize) -> Vec<Draft> {
    let half = count / 2;
    let domain = |number| {
        let name = format!("a-rather-long-label-{number:04}.in.a.zone.example.com");
        Draft::other(DOMAIN, &handle("DOM", number), name.as_bytes())
    };
    let entity = |number| {
        let name = format!("Department of Records and Registries, No. {number:04}");
        Draft::other(ENTITY, &handle("ENT", number), name.as_bytes())
    };
    let domains = (0..half).map(domain);
    domains.chain((half..count).map(entity)).collect()
}

/// So many different texts, sorted.
fn sorted(count: usize, draw: impl Fn(&mut Rng) -> String) -> BTreeSet<String> {
    let mut rng = Rng::new(1);
    let mut texts = BTreeSet::new();
    while texts.len() < count {
        texts.insert(draw(&mut rng));
    }
    texts
}

/// From `low` to `high` letters of the alphabet that starts with `first`.
fn letters(rng: &mut Rng, low: usize, high: usize, first: u8) -> String {
    (0..rng.between(low, high))
        .map(|_| char::from(first + rng.below(26) as u8))
        .collect()
}

/// Entities with handles of 4 to 12 bytes: initials, a number, sometimes a
/// suffix.
fn entities(count: usize) -> Vec<Draft> {
    let handles = sorted(count, |rng| {
        let initials = letters(rng, 2, 4, b'A');
        let digits = rng.between(2, 5);
        let number = rng.below(10_usize.pow(digits as u32));
        let suffix = rng.pick(&["", "-EX"]);
        format!("{initials}{number:0digits$}{suffix}")
    });
    let numbered = handles.iter().enumerate();
    numbered
        .map(|(number, handle)| Draft::other(ENTITY, handle.as_bytes(), &name(number)))
        .collect()
}

/// Domains with names of 15 to 32 bytes in four zones.
fn domains(count: usize) -> Vec<Draft> {
    let zones = [
        "example.com",
        "example.edu",
        "lib.example.edu",
        "physics.example.edu",
    ];
    let names = sorted(count, |rng| {
        format!("{}.{}", letters(rng, 3, 12, b'a'), rng.pick(&zones))
    });
    let numbered = names.iter().enumerate();
    numbered
        .map(|(number, name)| Draft::other(DOMAIN, &handle("DOM", number), name.as_bytes()))
        .collect()
}

fn image(shape: &str, count: usize) -> Vec<u8> {
    let drafts = match shape {
        "mixed" => mixed(count),
        "flat" => flat(count),
        "chain" => chain(count),
        "long" => long(count),
        "entities" => entities(count),
        "domains" => domains(count),
        _ => unreachable!(),
    };
    assert_eq!(drafts.len(), count);
    generate::encode(&drafts)
}

// Calls

/// What is lent to a call.
#[derive(PartialEq)]
struct Lent {
    list: [u32; PLACES],
    out: [u8; LONGEST_IMAGE],
}

impl Lent {
    fn new() -> Lent {
        Lent {
            list: [u32::MAX; PLACES],
            out: [u8::MAX; LONGEST_IMAGE],
        }
    }
}

/// One of the public functions with its input.
enum Call {
    Answer(Vec<u8>),
    Batch(Vec<u8>),
    Related(Relation, u32),
    Handle(u32),
    Name(u32),
    Range(u32),
    /// A range and how many bytes are lent.
    Prefixes(Vec<u8>, usize),
    /// A change file.
    Fold(Vec<u8>),
    /// A call for each of many addresses.
    AddressTexts(Addresses),
}

impl Call {
    fn fast(&self, image: &[u8], lent: &mut Lent) -> u32 {
        let list = &mut lent.list;
        match self {
            Call::Answer(path) => fast::answer(path, image, list).count,
            Call::Batch(paths) => fast::batch(paths, image, list).count,
            Call::Related(relation, record) => {
                fast::relation(image, *record, *relation, list).count
            }
            Call::Handle(record) => fast::handle_part(image, *record).1,
            Call::Name(record) => fast::name_part(image, *record).1,
            Call::Range(record) => fast::range_part(image, *record).1,
            Call::Prefixes(range, room) => fast::prefixes(range, &mut lent.out[..*room]).count,
            Call::Fold(changes) => fast::fold(image, changes, &mut lent.out).count,
            Call::AddressTexts(addresses) => addresses.each(&mut lent.out, texts::in_fast),
        }
    }

    fn subject(&self, image: &[u8], lent: &mut Lent) -> u32 {
        let list = &mut lent.list;
        let (mut reply, mut part, mut folded) = ([0; 7], [0; 2], [0; 5]);
        match self {
            Call::Answer(path) => {
                subject::answer(path, image, list, &mut reply);
                reply[4]
            }
            Call::Batch(paths) => {
                subject::batch(paths, image, list, &mut reply);
                reply[4]
            }
            Call::Related(relation, record) => {
                subject::relation(*relation, image, *record, list, &mut reply);
                reply[4]
            }
            Call::Handle(record) => {
                subject::handle(image, *record, &mut part);
                part[1]
            }
            Call::Name(record) => {
                subject::name(image, *record, &mut part);
                part[1]
            }
            Call::Range(record) => {
                subject::range(image, *record, &mut part);
                part[1]
            }
            Call::Prefixes(range, room) => {
                subject::prefixes(range, &mut lent.out[..*room], &mut part);
                part[1]
            }
            Call::Fold(changes) => {
                subject::fold(image, changes, &mut lent.out, &mut folded);
                folded[1]
            }
            Call::AddressTexts(addresses) => addresses.each(&mut lent.out, texts::in_library),
        }
    }

    /// What std has, which is the texts of addresses.
    fn std(&self, lent: &mut Lent) -> u32 {
        match self {
            Call::AddressTexts(addresses) => addresses.each(&mut lent.out, texts::in_std),
            _ => unreachable!(),
        }
    }
}

/// An image and its records, for calls to aim at.
struct Registry<'a> {
    image: &'a [u8],
    records: Vec<Record>,
}

impl Registry<'_> {
    fn new(image: &[u8]) -> Registry<'_> {
        let records = model::check(image).expect("a sound image");
        Registry { image, records }
    }

    fn of_tag(&self, tag: u8) -> Vec<&Record> {
        let records = self.records.iter();
        records.filter(|record| record.tag == tag).collect()
    }

    fn last(&self, tag: u8) -> Option<&Record> {
        self.of_tag(tag).last().copied()
    }

    fn text(&self, part: Part) -> String {
        String::from_utf8_lossy(&self.image[part.offset..][..part.length]).replace(' ', "%20")
    }

    fn handle(&self, record: Option<&Record>) -> String {
        record.map_or("none".into(), |record| self.text(record.handle))
    }

    fn name(&self, record: Option<&Record>) -> String {
        record.map_or("none".into(), |record| self.text(record.name))
    }

    /// What a lookup names a record by.
    fn key(&self, tag: u8, record: Option<&Record>) -> String {
        let range = record.and_then(|record| record.range);
        let first = range.map_or(0, |range| range.first);
        match tag {
            IPV4 => Ipv4Addr::from(first as u32).to_string(),
            IPV6 => Ipv6Addr::from(first).to_string(),
            AS => first.to_string(),
            ENTITY => self.handle(record),
            _ => self.name(record),
        }
    }

    /// Lookups of records spread over those of a tag, as many as a batch takes.
    fn batch(&self, start: &str, tag: u8) -> Call {
        let records = self.of_tag(tag);
        let paths: Vec<String> = (0..MOST_PATHS)
            .map(|at| records.get(at * records.len() / MOST_PATHS).copied())
            .map(|record| format!("{start}{}", self.key(tag, record)))
            .collect();
        Call::Batch(paths.join("\n").into_bytes())
    }
}

fn lookups(registry: &Registry) -> Vec<(&'static str, String)> {
    let key_of = |tag| registry.key(tag, registry.last(tag));
    vec![
        ("check", "/help".into()),
        ("ip v4", format!("/ip/{}", key_of(IPV4))),
        ("ip v6", format!("/ip/{}", key_of(IPV6))),
        ("autnum", format!("/autnum/{}", key_of(AS))),
        ("domain", format!("/domain/{}", key_of(DOMAIN))),
        ("nameserver", format!("/nameserver/{}", key_of(NAMESERVER))),
        ("entity", format!("/entity/{}", key_of(ENTITY))),
    ]
}

fn searches(registry: &Registry) -> Vec<(&'static str, String)> {
    // A pattern that matches the last sixteen or so.
    let most = |text: String| format!("{}*", &text[..text.len() - 2]);
    let handles = |tag| most(registry.handle(registry.last(tag)));
    let names = |tag| most(registry.name(registry.last(tag)));
    let search = |start: &str, pattern: String| format!("/{start}={pattern}");
    vec![
        ("domains name", search("domains?name", names(DOMAIN))),
        ("domains suffix", "/domains?name=*.example.com".into()),
        (
            "nameservers name",
            search("nameservers?name", names(NAMESERVER)),
        ),
        ("entities fn", search("entities?fn", names(ENTITY))),
        (
            "entities handle",
            search("entities?handle", handles(ENTITY)),
        ),
        ("ips handle", search("ips?handle", handles(IPV4))),
        ("ips name", search("ips?name", names(IPV4))),
        ("ips name all", "/ips?name=*".into()),
        ("autnums handle", search("autnums?handle", handles(AS))),
        ("autnums name", search("autnums?name", names(AS))),
    ]
}

fn relations(registry: &Registry) -> Vec<(&'static str, String)> {
    let key_of = |tag| registry.key(tag, registry.last(tag));
    let (v4, v6, autnum) = (key_of(IPV4), key_of(IPV6), key_of(AS));
    let ips = |end: &str| format!("/ips/rirSearch1/{end}");
    let autnums = |end: &str| format!("/autnums/rirSearch1/{end}");
    vec![
        ("up v4", ips(&format!("up/{v4}"))),
        ("top v4", ips(&format!("top/{v4}"))),
        ("down v4", ips("down/0.0.0.0/0")),
        ("bottom v4", ips("bottom/0.0.0.0/0")),
        ("up v6", ips(&format!("up/{v6}"))),
        ("down v6", ips("down/::/0")),
        ("bottom v6", ips("bottom/::/0")),
        ("up as", autnums(&format!("up/{autnum}"))),
        ("down as", autnums("down/0-4294967295")),
        ("bottom as", autnums("bottom/0-4294967295")),
    ]
}

/// Lookups by text that take a search by halves all its steps: of the first
/// record, and of a text between it and the second. (Where the upper half is the
/// larger one, the last record takes them all.)
fn steps(registry: &Registry) -> Vec<(String, Call)> {
    let ends = [("first", ""), ("none", "x")];
    let of_tag = |(kind, tag): (&'static str, u8)| {
        let key = registry.key(tag, registry.of_tag(tag).first().copied());
        ends.map(|(end, more)| {
            let path = format!("/{kind}/{key}{more}");
            (format!("{kind} {end}"), Call::Answer(path.into_bytes()))
        })
    };
    let tags = BY_TEXT.into_iter();
    tags.filter(|(_, tag)| registry.last(*tag).is_some())
        .flat_map(of_tag)
        .collect()
}

/// The calls measured on an image. Where the image has such records, lookups
/// and searches find something, and what they find lies at the end; a batch
/// finds records from the first to the last.
fn calls(registry: &Registry) -> Vec<(String, Call)> {
    let paths = [lookups(registry), searches(registry), relations(registry)].concat();
    let last_block = registry.of_tag(IPV4).len().saturating_sub(1) as u32;
    let last = registry.records.len() as u32 - 1;
    let others = [
        ("third up", Call::Related(Relation::Up, last_block)),
        ("third top", Call::Related(Relation::Top, last_block)),
        ("third down", Call::Related(Relation::Down, 0)),
        ("third bottom", Call::Related(Relation::Bottom, 0)),
        ("handle", Call::Handle(last)),
        ("name", Call::Name(last)),
        ("range", Call::Range(last_block)),
        ("batch ip v4", registry.batch("/ip/", IPV4)),
        ("batch ip v6", registry.batch("/ip/", IPV6)),
        ("batch domain", registry.batch("/domain/", DOMAIN)),
        ("batch entity", registry.batch("/entity/", ENTITY)),
    ];
    let paths = paths
        .into_iter()
        .map(|(kind, path)| (kind, Call::Answer(path.into_bytes())));
    paths
        .chain(others)
        .map(|(kind, call)| (kind.into(), call))
        .collect()
}

/// Lists of prefixes: of all addresses but the two at the ends, which are the
/// longest, and of ranges that are a prefix.
fn lists() -> Vec<(String, Call)> {
    let list = |family, first, last, short| {
        let range = generate::ends(family, Range { first, last });
        let room = if family == IPV6 { ROOM } else { ROOM_V4 };
        Call::Prefixes(range, room - short)
    };
    let all = |family, most: u128, short| list(family, 1, most - 1, short);
    let (v4, v6) = (u128::from(u32::MAX), u128::MAX);
    let net: u128 = 0x2001_0DB8 << 96;
    let lists = [
        ("254 prefixes v6", all(IPV6, v6, 0)),
        ("a byte short v6", all(IPV6, v6, 1)),
        ("one prefix v6", list(IPV6, net, net | v6 >> 32, 0)),
        ("62 prefixes v4", all(IPV4, v4, 0)),
        ("a byte short v4", all(IPV4, v4, 1)),
        ("one prefix v4", list(IPV4, 0xC000_0200, 0xC000_02FF, 0)),
    ];
    lists.map(|(kind, call)| (kind.into(), call)).into()
}

// Measuring

/// What a call in the library is measured beside.
enum Beside {
    /// The same call in `fast`.
    Fast,
    /// The same by std.
    Std,
    /// Another call in the library.
    Library(Call),
}

/// One call on one image, and the least time so far of what it is measured
/// beside and of the call in the library.
struct Cell<'a> {
    image: &'a [u8],
    call: Call,
    beside: Beside,
    least: (f64, f64),
}

impl<'a> Cell<'a> {
    fn new(image: &'a [u8], call: Call, beside: Beside) -> Cell<'a> {
        Cell {
            image,
            call,
            beside,
            least: (f64::INFINITY, f64::INFINITY),
        }
    }

    fn ratio(&self) -> f64 {
        self.least.1 / self.least.0
    }

    /// A turn each. Those of a cell are spread over the whole run, so that other
    /// load spoils no cell for good.
    fn measure(&mut self, lent: &mut Lent) {
        let (image, call) = (black_box(self.image), black_box(&self.call));
        let took = turn(self.least.0, || match &self.beside {
            Beside::Fast => call.fast(image, lent),
            Beside::Std => call.std(lent),
            Beside::Library(other) => other.subject(image, lent),
        });
        self.least.0 = self.least.0.min(took);
        let took = turn(self.least.1, || call.subject(image, lent));
        self.least.1 = self.least.1.min(took);
    }
}

/// Nanoseconds a call, of as many as last about TURN if one lasts `expected`.
fn turn(expected: f64, mut call: impl FnMut() -> u32) -> f64 {
    let times = (TURN / expected).clamp(1.0, 10_000.0) as u32;
    black_box(call());
    let start = Instant::now();
    for _ in 0..times {
        black_box(call());
    }
    start.elapsed().as_nanos() as f64 / f64::from(times)
}

/// What is printed.
#[derive(PartialEq)]
enum Print {
    Rows,
    Table,
    OverCheck,
    Prefixes,
    Folds,
    AddressText,
}

/// What the words on the command line ask for.
struct Options {
    shape: Option<String>,
    kind: Option<String>,
    repetitions: u32,
    seconds: u64,
    print: Print,
}

impl Options {
    fn read() -> Options {
        let mut options = Options {
            shape: None,
            kind: None,
            repetitions: 40,
            seconds: 100,
            print: Print::Rows,
        };
        let mut words = std::env::args().skip(1);
        while let Some(word) = words.next() {
            let mut value = || {
                words
                    .next()
                    .unwrap_or_else(|| panic!("{word}: a value is missing"))
            };
            match word.as_str() {
                "--shape" => options.shape = Some(value()),
                "--kind" => options.kind = Some(value()),
                "--repetitions" => options.repetitions = value().parse().expect("a number"),
                "--seconds" => options.seconds = value().parse().expect("a number"),
                "--table" => options.print = Print::Table,
                "--over-check" => options.print = Print::OverCheck,
                "--prefixes" => options.print = Print::Prefixes,
                "--folds" => options.print = Print::Folds,
                "--address-text" => options.print = Print::AddressText,
                _ => panic!("{word}: no such option"),
            }
        }
        options
    }

    fn over_check(&self) -> bool {
        self.print == Print::OverCheck
    }

    /// The images that are asked for, by shape.
    fn shapes(&self) -> Vec<(&'static str, Vec<Vec<u8>>)> {
        let asked = |name: &&str| match &self.shape {
            Some(shape) => shape == name,
            None => self.over_check() || SHAPES.contains(name),
        };
        let sizes = if self.over_check() {
            &SIZES[4..]
        } else {
            &SIZES
        };
        let images = |name| sizes.iter().map(|&size| image(name, size)).collect();
        let shapes: Vec<_> = SHAPES.into_iter().chain(SORTED).filter(asked).collect();
        assert!(!shapes.is_empty(), "no such shape");
        shapes
            .into_iter()
            .map(|name| (name, images(name)))
            .collect()
    }

    /// The calls that are asked for.
    fn calls(&self, registry: &Registry) -> Vec<(String, Call)> {
        let mut calls = calls(registry);
        if self.print != Print::Table {
            calls.extend(steps(registry));
        }
        if self.over_check() {
            let by_text = |name: &str| BY_TEXT.iter().any(|(kind, _)| *kind == name);
            calls.retain(|(name, _)| name.split(' ').next().is_some_and(by_text));
            calls.sort_by(|one, other| one.0.cmp(&other.0));
        }
        calls.retain(|(name, _)| self.asks_for(name));
        calls
    }

    fn asks_for(&self, name: &str) -> bool {
        self.kind.as_ref().is_none_or(|kind| name.contains(kind))
    }
}

/// The kinds of calls of a shape, and for each the sizes.
type Rows<'a> = Vec<(String, Vec<Cell<'a>>)>;

/// Both give the same, in all that is lent too.
fn assert_same(name: &str, call: &Call, image: &[u8]) {
    let (mut fast, mut library) = (Lent::new(), Lent::new());
    let counts = (
        call.fast(image, &mut fast),
        call.subject(image, &mut library),
    );
    assert_eq!(counts.0, counts.1, "{name}");
    assert!(fast == library, "{name}: the lists differ");
}

fn rows<'a>(images: &'a [Vec<u8>], options: &Options) -> Rows<'a> {
    let mut rows: Rows = Vec::new();
    for image in images {
        let calls = options.calls(&Registry::new(image));
        for (at, (name, call)) in calls.into_iter().enumerate() {
            assert_same(&name, &call, image);
            if rows.len() == at {
                rows.push((name, Vec::new()));
            }
            let beside = match options.print {
                Print::OverCheck => Beside::Library(check()),
                _ => Beside::Fast,
            };
            rows[at].1.push(Cell::new(image, call, beside));
        }
    }
    rows
}

/// A call that does nothing but check the image.
fn check() -> Call {
    Call::Answer(b"/help".to_vec())
}

fn list_rows(options: &Options) -> Rows<'static> {
    let mut lists = lists();
    lists.retain(|(name, _)| options.asks_for(name));
    let row = |(name, call): (String, Call)| {
        assert_same(&name, &call, &[]);
        (name, vec![Cell::new(&[], call, Beside::Fast)])
    };
    lists.into_iter().map(row).collect()
}

/// Each fold beside the Rust, and beside the check alone.
fn fold_rows(inputs: &[Input]) -> Rows<'_> {
    inputs.iter().map(fold_row).collect()
}

fn fold_row(input: &Input) -> (String, Vec<Cell<'_>>) {
    let (image, changes) = (&input.image[..], &input.changes[..]);
    let call = || Call::Fold(changes.to_vec());
    assert_same(&input.name, &call(), image);
    let folded = fast::fold(image, changes, &mut Lent::new().out);
    let mut reply = [u32::MAX; 5];
    subject::fold(image, changes, &mut Lent::new().out, &mut reply);
    assert_eq!(folded.numbers(), reply, "{}", input.name);
    assert_eq!(folded.reason, input.reason, "{}", input.name);
    let besides = [Beside::Fast, Beside::Library(check())];
    let cells = besides.map(|beside| Cell::new(image, call(), beside));
    (input.name.clone(), cells.into())
}

fn print_rows(shape: &str, images: &[Vec<u8>], rows: &Rows) {
    let bytes: Vec<usize> = images.iter().map(Vec::len).collect();
    println!("{shape}: bytes {bytes:?}");
    let wide: String = SIZES.iter().map(|size| format!("{size:>8}")).collect();
    let narrow: String = SIZES.iter().map(|size| format!("{size:>7}")).collect();
    println!(
        "{:16}  fast {wide} growth  library {wide} growth  library/fast {narrow}",
        "ns a call"
    );
    for (kind, cells) in rows {
        let line = |column: fn(&Cell) -> f64| -> String {
            let figures: String = cells
                .iter()
                .map(|cell| format!("{:>8.0}", column(cell)))
                .collect();
            format!("{figures} {:>6.2}", column(&cells[4]) / column(&cells[3]))
        };
        let ratios: String = cells
            .iter()
            .map(|cell| format!("{:>7.2}", cell.ratio()))
            .collect();
        let (fast, library) = (line(|cell| cell.least.0), line(|cell| cell.least.1));
        println!("{kind:16}       {fast}          {library}               {ratios}");
    }
    println!();
}

fn print_table(shapes: &[(&str, Vec<Vec<u8>>)], tables: &[Rows]) {
    let names: Vec<&str> = shapes.iter().map(|(name, _)| *name).collect();
    println!("| row | {} |", names.join(" | "));
    println!("|{}", "---|".repeat(names.len() + 1));
    for (at, (kind, _)) in tables[0].iter().enumerate() {
        print!("| {kind} |");
        for rows in tables {
            let [.., half, full] = &rows[at].1[..] else {
                unreachable!()
            };
            let (fast, library) = full.least;
            let (ratio, growth) = (full.ratio(), library / half.least.1);
            print!(
                " {:.1}, {:.1}, **{ratio:.2}**, {growth:.2} |",
                library / 1e3,
                fast / 1e3
            );
        }
        println!();
    }
    println!();
}

fn print_over_check(shapes: &[(&str, Vec<Vec<u8>>)], tables: &[Rows]) {
    for ((shape, images), rows) in shapes.iter().zip(tables) {
        println!("{shape}: bytes {}", images[0].len());
        println!("{:16} {:>8} {:>8}  row/check", "us a call", "check", "row");
        for (kind, cells) in rows {
            let (check, row) = cells[0].least;
            let ratio = cells[0].ratio();
            println!(
                "{kind:16} {:8.2} {:8.2} {ratio:10.3}",
                check / 1e3,
                row / 1e3
            );
        }
        println!();
    }
    let most = largest_ratio(tables);
    println!("at 4,096 records: largest row/check {most:.3}");
}

fn print_prefixes(rows: &Rows) {
    println!(
        "{:16} {:>8} {:>8}  library/fast",
        "ns a call", "fast", "library"
    );
    for (kind, cells) in rows {
        let (fast, library) = cells[0].least;
        let ratio = cells[0].ratio();
        println!("{kind:16} {fast:8.1} {library:8.1} {ratio:13.2}");
    }
    println!();
}

fn print_folds(inputs: &[Input], rows: &Rows) {
    println!(
        "{:16} {:>7} {:>7} {:>7} {:>8} {:>8} {:>13} {:>8} {:>14}",
        "us a call",
        "records",
        "bytes",
        "file",
        "fast",
        "library",
        "library/fast",
        "check",
        "library/check"
    );
    for (input, (kind, cells)) in inputs.iter().zip(rows) {
        let (fast, library) = cells[0].least;
        let (check, _) = cells[1].least;
        println!(
            "{kind:16} {:>7} {:>7} {:>7} {:8.1} {:8.1} {:13.2} {:8.1} {:14.2}",
            Registry::new(&input.image).records.len(),
            input.image.len(),
            input.changes.len(),
            fast / 1e3,
            library / 1e3,
            cells[0].ratio(),
            check / 1e3,
            cells[1].ratio()
        );
    }
    println!();
}

/// The longest fold, and how the time grows with the file.
fn print_fold_summary(rows: &Rows) {
    let times: Vec<(&str, f64)> = rows
        .iter()
        .map(|(name, cells)| (name.as_str(), cells[0].least.1))
        .collect();
    let longest = times.iter().map(|row| row.1).fold(0.0, f64::max);
    println!("longest fold {:.2} ms", longest / 1e6);
    for kind in folds::GROWING {
        let of_kind = times.iter().filter(|row| row.0.starts_with(kind));
        let of_kind: Vec<f64> = of_kind.map(|row| row.1).collect();
        let growth = of_kind.windows(2).map(|pair| pair[1] / pair[0]);
        let growth: Vec<String> = growth.map(|ratio| format!("{ratio:.2}")).collect();
        if !growth.is_empty() {
            println!("{kind}, twice the file: growth {}", growth.join(", "));
        }
    }
}

fn largest_ratio(tables: &[Rows]) -> f64 {
    let cells = tables.iter().flatten().flat_map(|(_, cells)| cells);
    cells.map(Cell::ratio).fold(0.0, f64::max)
}

/// The largest figures of the run.
fn print_summary(tables: &[Rows]) {
    let rows: Vec<&[Cell]> = tables
        .iter()
        .flatten()
        .map(|(_, cells)| &cells[..])
        .collect();
    let most =
        |figure: fn(&[Cell]) -> f64| rows.iter().map(|cells| figure(cells)).fold(0.0, f64::max);
    let at_most = |limit: f64| {
        rows.iter()
            .filter(|cells| cells[4].ratio() <= limit)
            .count()
    };
    println!(
        "at 4,096 records: largest library/fast {:.2}, at most 1.5 in {} of {} cells",
        most(|cells| cells[4].ratio()),
        at_most(1.5),
        rows.len()
    );
    println!(
        "at any size: largest library/fast {:.2}; largest growth {:.2}",
        largest_ratio(tables),
        most(|cells| cells[4].least.1 / cells[3].least.1)
    );
}

/// Measures every cell as often as asked for; how often that was.
fn measure(tables: &mut [Rows], options: &Options) -> u32 {
    // Over the check, each repetition stays with an image for some rounds: the
    // first turns on one are slower, until the processor foresees its branches.
    let rounds = if options.over_check() { 10 } else { 1 };
    let mut lent = Lent::new();
    let start = Instant::now();
    let mut done = 0;
    while done < options.repetitions && (done == 0 || start.elapsed().as_secs() < options.seconds) {
        done += 1;
        for rows in tables.iter_mut() {
            for _ in 0..rounds {
                let cells = rows.iter_mut().flat_map(|(_, cells)| cells);
                cells.for_each(|cell| cell.measure(&mut lent));
            }
        }
    }
    done
}

fn main() {
    let options = Options::read();
    let shapes = match options.print {
        Print::Prefixes | Print::Folds | Print::AddressText => Vec::new(),
        _ => options.shapes(),
    };
    let mut inputs = match options.print {
        Print::Folds => folds::inputs(),
        _ => Vec::new(),
    };
    inputs.retain(|input| options.asks_for(&input.name));
    let mut tables: Vec<Rows> = match options.print {
        Print::Prefixes => vec![list_rows(&options)],
        Print::Folds => vec![fold_rows(&inputs)],
        Print::AddressText => vec![texts::rows(&options)],
        _ => shapes
            .iter()
            .map(|(_, images)| rows(images, &options))
            .collect(),
    };
    let done = measure(&mut tables, &options);
    match options.print {
        Print::Prefixes => print_prefixes(&tables[0]),
        Print::Folds => print_folds(&inputs, &tables[0]),
        Print::AddressText => texts::print(&tables[0]),
        Print::OverCheck => print_over_check(&shapes, &tables),
        Print::Table => print_table(&shapes, &tables),
        Print::Rows => {
            for ((shape, images), rows) in shapes.iter().zip(&tables) {
                print_rows(shape, images, rows);
            }
        }
    }
    println!("{done} repetitions");
    match options.print {
        Print::OverCheck | Print::AddressText => {}
        Print::Prefixes => println!("largest library/fast {:.2}", largest_ratio(&tables)),
        Print::Folds => print_fold_summary(&tables[0]),
        Print::Rows | Print::Table => print_summary(&tables),
    }
}
