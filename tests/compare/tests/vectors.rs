//! Runs the vectors on the model and on what is compared with it: the library
//! with the feature `ffi`, else bench/fast. The folder is given by the
//! variable VECTORS, else it is `../vectors` beside this package.

use model::generate::{self, Aims, Draft, Rng};
use model::{Counted, Folded, Range, Relation, Reply, IPV4, IPV6, LONGEST_TEXT};
use std::fs;
use std::path::PathBuf;

const PLACES: usize = 4096;
const FILL: u32 = 0xA5A5_5A5A;
/// No length of a prefix, which each entry ends with, nor the last byte of an image
/// or a text.
const FILL_BYTE: u8 = 0xA5;

/// The public functions of one implementation.
struct Calls {
    name: &'static str,
    answer: fn(&[u8], &[u8], &mut [u32]) -> Reply,
    batch: fn(&[u8], &[u8], &mut [u32]) -> Reply,
    relation: fn(&[u8], u32, Relation, &mut [u32]) -> Reply,
    handle: fn(&[u8], u32) -> &[u8],
    name_of: fn(&[u8], u32) -> &[u8],
    range: fn(&[u8], u32) -> &[u8],
    prefixes: fn(&[u8], &mut [u8]) -> Counted,
    address_text: fn(&[u8], &mut [u8]) -> Counted,
    fold: fn(&[u8], &[u8], &mut [u8]) -> Folded,
    defect: fn(&[u8]) -> (u32, u32),
}

const BOTH: [Calls; 2] = [
    Calls {
        name: "plain",
        answer: model::answer,
        batch: model::batch,
        relation: model::relation,
        handle: model::handle,
        name_of: model::name,
        range: model::range,
        prefixes: model::prefixes,
        address_text: model::address_text,
        fold: model::fold,
        defect: |image| match model::check(image) {
            Ok(_) => (0, 0),
            Err(found) => (found.defect, found.place),
        },
    },
    Calls {
        name: subject::NAME,
        answer: |path, image, list| reply_of(|reply| subject::answer(path, image, list, reply)),
        batch: |paths, image, list| reply_of(|reply| subject::batch(paths, image, list, reply)),
        relation: |image, record, relation, list| {
            reply_of(|reply| subject::relation(relation, image, record, list, reply))
        },
        handle: |image, record| part_of(image, |part| subject::handle(image, record, part)),
        name_of: |image, record| part_of(image, |part| subject::name(image, record, part)),
        range: |image, record| part_of(image, |part| subject::range(image, record, part)),
        prefixes: |range, out| counted(|reply| subject::prefixes(range, out, reply)),
        address_text: |address, text| counted(|reply| subject::address_text(address, text, reply)),
        fold: |image, changes, out| {
            let mut reply = [FILL; 5];
            subject::fold(image, changes, out, &mut reply);
            let [reason, count, defect, place, offset] = reply;
            Folded {
                reason,
                count,
                defect,
                place,
                offset,
            }
        },
        defect: |image| {
            let reply = reply_of(|reply| subject::answer(b"/help", image, &mut [], reply));
            (reply.defect, reply.place)
        },
    },
];

/// The reply that a call writes.
fn reply_of(call: impl FnOnce(&mut [u32; 7])) -> Reply {
    let mut reply = [FILL; 7];
    call(&mut reply);
    let [status, reason, kind, relation, count, defect, place] = reply;
    Reply {
        status,
        reason,
        kind,
        relation,
        count,
        defect,
        place,
    }
}

/// The same for a call on a range or an address.
fn counted(call: impl FnOnce(&mut [u32; 2])) -> Counted {
    let mut reply = [FILL; 2];
    call(&mut reply);
    let [reason, count] = reply;
    Counted { reason, count }
}

/// The part of the image that a call names.
fn part_of(image: &[u8], call: impl FnOnce(&mut [u32; 2])) -> &[u8] {
    let mut part = [FILL; 2];
    call(&mut part);
    let [offset, length] = part;
    &image[offset as usize..][..length as usize]
}

fn place_of(name: &str) -> PathBuf {
    std::env::var_os("VECTORS")
        .map(PathBuf::from)
        .unwrap_or_else(|| PathBuf::from(env!("CARGO_MANIFEST_DIR")).join("../vectors"))
        .join(name)
}

fn file(name: &str) -> Vec<u8> {
    let path = place_of(name);
    fs::read(&path).unwrap_or_else(|error| panic!("{}: {error}", path.display()))
}

/// The names in a folder, in order.
fn names(folder: &str) -> Vec<String> {
    let path = place_of(folder);
    let entries = fs::read_dir(&path).unwrap_or_else(|error| panic!("{}: {error}", path.display()));
    let mut names: Vec<String> = entries
        .map(|entry| entry.unwrap().file_name().into_string().unwrap())
        .collect();
    names.sort();
    names
}

/// Lines are bytes, each ended by a line feed; the last one may lack it.
fn lines(bytes: &[u8]) -> Vec<&[u8]> {
    let mut lines: Vec<&[u8]> = bytes.split(|&byte| byte == b'\n').collect();
    if lines.last() == Some(&&b""[..]) {
        lines.pop();
    }
    lines
}

/// The lines of a table, cut at tabs, without those that start with `#`.
fn rows(bytes: &[u8]) -> Vec<Vec<&[u8]>> {
    lines(bytes)
        .into_iter()
        .filter(|line| !line.starts_with(b"#"))
        .map(|line| line.split(|&byte| byte == b'\t').collect())
        .collect()
}

fn from_hex(text: &[u8]) -> Vec<u8> {
    text.chunks(2)
        .map(|pair| u8::from_str_radix(std::str::from_utf8(pair).unwrap(), 16).unwrap())
        .collect()
}

fn number(text: &[u8]) -> usize {
    std::str::from_utf8(text).unwrap().parse().unwrap()
}

/// "each output line is status, reason, kind, count and the record numbers"
fn line(reply: Reply, list: &[u32]) -> Vec<u8> {
    let mut line = format!(
        "{} {} {} {}",
        reply.status, reply.reason, reply.kind, reply.count
    );
    // The record numbers stand there only if the call wrote them.
    let written = if reply.reason == 0 { reply.count } else { 0 };
    for number in &list[..written as usize] {
        line.push_str(&format!(" {number}"));
    }
    assert!(
        list[written as usize..].iter().all(|&place| place == FILL),
        "a place past the answer was written"
    );
    line.into_bytes()
}

/// Compares row after row, prints how many agree, and fails if one does not.
struct Tally {
    title: String,
    rows: usize,
    wrong: usize,
}

impl Tally {
    fn new(title: String) -> Tally {
        Tally {
            title,
            rows: 0,
            wrong: 0,
        }
    }

    fn row(&mut self, asked: &[u8], expected: &[u8], got: &[u8]) {
        self.rows += 1;
        if expected != got {
            self.wrong += 1;
            println!(
                "{}: {}: expected {}, got {}",
                self.title,
                asked.escape_ascii(),
                expected.escape_ascii(),
                got.escape_ascii()
            );
        }
    }

    fn close(self) {
        println!(
            "{}: {} rows, {} agree",
            self.title,
            self.rows,
            self.rows - self.wrong
        );
        assert!(self.rows > 0 && self.wrong == 0, "{}", self.title);
    }
}

fn run_paths(name: &str) {
    let image = file(&format!("{name}.image"));
    let paths = file(&format!("{name}.paths"));
    let expected = file(&format!("{name}.expected"));
    let (paths, expected) = (lines(&paths), lines(&expected));
    assert_eq!(paths.len(), expected.len());
    for calls in &BOTH {
        let mut tally = Tally::new(format!("{name} ({})", calls.name));
        for (path, expected) in paths.iter().zip(&expected) {
            let mut list = [FILL; PLACES];
            let reply = (calls.answer)(path, &image, &mut list);
            tally.row(path, expected, &line(reply, &list));
        }
        tally.close();
        if (calls.defect)(&image) == (0, 0) {
            run_batches(name, calls, &image, &paths, &expected);
        }
    }
}

/// The same paths, as many a call as it takes: the list holds the numbers of
/// their lines.
fn run_batches(name: &str, calls: &Calls, image: &[u8], paths: &[&[u8]], expected: &[&[u8]]) {
    let mut tally = Tally::new(format!("{name} in batches ({})", calls.name));
    let most = model::MOST_PATHS;
    for (paths, expected) in paths.chunks(most).zip(expected.chunks(most)) {
        let paths = paths.join(&b'\n');
        let mut list = vec![FILL; most * (4 + PLACES)];
        let reply = (calls.batch)(&paths, image, &mut list);
        assert_eq!(
            reply.numbers(),
            [200, 0, 0, 0, expected.len() as u32, 0, 0],
            "{name}"
        );
        tally.row(&paths, &expected.join(&b' '), &column(written(&list, FILL)));
    }
    tally.close();
}

#[test]
fn s() {
    run_paths("s");
}

#[test]
fn small() {
    run_paths("small");
}

#[test]
fn campus() {
    run_paths("campus");
}

/// "the examples of the RFCs, are run and compared"
#[test]
fn rfc() {
    run_paths("rfc");
}

#[test]
fn empty() {
    run_paths("empty");
}

#[test]
fn defective() {
    run_paths("defective");
}

#[test]
fn random() {
    for name in ["random1", "random2", "random3"] {
        run_paths(name);
    }
}

/// The rows of a table, on both.
fn run_table(name: &str, run: impl Fn(&Calls, &[&[u8]], &mut Tally)) {
    let table = file(name);
    for calls in &BOTH {
        let mut tally = Tally::new(format!("{name} ({})", calls.name));
        for row in rows(&table) {
            run(calls, &row, &mut tally);
        }
        tally.close();
    }
}

#[test]
fn rooms() {
    for (image, table) in [
        ("campus.image", "rooms.tsv"),
        ("rfc.image", "rfc.rooms.tsv"),
    ] {
        let image = file(image);
        run_table(table, |calls, row, tally| {
            let mut list = vec![FILL; number(row[1])];
            let reply = (calls.answer)(row[0], &image, &mut list);
            tally.row(row[0], row[2], &line(reply, &list));
        });
    }
}

fn relation_named(name: &[u8]) -> Relation {
    match name {
        b"up" => Relation::Up,
        b"down" => Relation::Down,
        b"top" => Relation::Top,
        b"bottom" => Relation::Bottom,
        other => panic!("no relation: {}", other.escape_ascii()),
    }
}

#[test]
fn relations() {
    let image = file("campus.image");
    run_table("relations.tsv", |calls, row, tally| {
        let relation = relation_named(row[1]);
        let mut list = vec![FILL; number(row[2])];
        let record = number(row[0]) as u32;
        let reply = (calls.relation)(&image, record, relation, &mut list);
        assert_eq!(reply.relation, relation as u32);
        tally.row(&row[..3].join(&b' '), row[3], &line(reply, &list));
    });
}

#[test]
fn defects() {
    run_table("defects.tsv", |calls, row, tally| {
        let image = from_hex(row[0]);
        let (defect, place) = (calls.defect)(&image);
        let expected = [row[1], row[2]].join(&b' ');
        tally.row(row[0], &expected, format!("{defect} {place}").as_bytes());

        // The calls say the same, and a defective image has no parts.
        for call in [calls.answer, calls.batch] {
            let reply = call(b"/help", &image, &mut []);
            assert_eq!((reply.defect, reply.place), (defect, place));
            assert_eq!(reply.reason, if defect == 0 { 0 } else { 2 });
        }
        let reply = (calls.relation)(&image, 0, Relation::Up, &mut []);
        assert_eq!((reply.defect, reply.place), (defect, place));
        if defect != 0 {
            assert!((calls.handle)(&image, 0).is_empty());
            assert!((calls.name_of)(&image, 0).is_empty());
            assert!((calls.range)(&image, 0).is_empty());
        }
    });
}

// The vectors of the changes

/// The input that a column of `rows.tsv` stands for.
fn input(folder: &str, column: &[u8]) -> Vec<u8> {
    match column {
        b"-" => vec![],
        [b'@', name @ ..] => file(&format!("{folder}/{}", std::str::from_utf8(name).unwrap())),
        digits => from_hex(digits),
    }
}

/// Numbers as a column has them.
fn column(numbers: &[u32]) -> Vec<u8> {
    let texts: Vec<String> = numbers.iter().map(u32::to_string).collect();
    or_none(texts.join(" "))
}

/// Bytes as a column has them, if not in a file.
fn hex_column(bytes: &[u8]) -> Vec<u8> {
    or_none(bytes.iter().map(|byte| format!("{byte:02x}")).collect())
}

fn or_none(text: String) -> Vec<u8> {
    if text.is_empty() { "-".into() } else { text }.into()
}

/// The list up to the last place that was written.
fn written<T: PartialEq>(list: &[T], fill: T) -> &[T] {
    let end = list.iter().rposition(|place| *place != fill);
    &list[..end.map_or(0, |at| at + 1)]
}

/// What a call replies and what it writes, as the row has it.
fn run_row(calls: &Calls, folder: &str, row: &[&[u8]]) -> [Vec<u8>; 2] {
    let image = input(folder, row[1]);
    let record = || number(row[2]) as u32;
    let span = |part: &[u8]| match part.len() {
        0 => vec![0, 0],
        length => vec![
            (part.as_ptr() as usize - image.as_ptr() as usize) as u32,
            length as u32,
        ],
    };
    let mut list = match row[3] {
        b"-" => vec![],
        places => vec![FILL; number(places)],
    };
    let name = row[0].strip_prefix(b"rdap_").expect("a function for C");
    let text = || input(folder, row[2]);
    let numbers = |reply: Reply| reply.numbers().to_vec();
    let reply = match name {
        b"answer" => numbers((calls.answer)(&text(), &image, &mut list)),
        b"batch" => numbers((calls.batch)(&text(), &image, &mut list)),
        b"handle" => span((calls.handle)(&image, record())),
        b"name" => span((calls.name_of)(&image, record())),
        b"range" => span((calls.range)(&image, record())),
        relation => {
            let relation = relation_named(relation);
            numbers((calls.relation)(&image, record(), relation, &mut list))
        }
    };
    [column(&reply), column(written(&list, FILL))]
}

/// The same for the calls that bytes are lent to.
fn run_on_bytes(calls: &Calls, folder: &str, row: &[&[u8]]) -> [Vec<u8>; 2] {
    let mut out = vec![FILL_BYTE; number(row[3])];
    let first = input(folder, row[1]);
    let reply = match row[0] {
        b"rdap_prefixes" => column(&(calls.prefixes)(&first, &mut out).numbers()),
        b"rdap_address_text" => column(&(calls.address_text)(&first, &mut out).numbers()),
        _ => {
            let changes = input(folder, row[2]);
            column(&(calls.fold)(&first, &changes, &mut out).numbers())
        }
    };
    [reply, hex_column(written(&out, FILL_BYTE))]
}

/// What a call is to reply and to write.
fn expected_of(folder: &str, row: &[&[u8]]) -> [Vec<u8>; 2] {
    let output = match row[5] {
        [b'@', ..] => hex_column(&input(folder, row[5])),
        text => text.to_vec(),
    };
    [row[4].to_vec(), output]
}

/// Each folder of `changes` holds the rules as they stand after the change of
/// that number. A row says until which change it holds.
#[test]
fn changes() {
    let numbers: Vec<usize> = names("changes")
        .iter()
        .filter_map(|name| name.parse().ok())
        .collect();
    let newest = *numbers.last().expect("a change");
    for change in numbers {
        let folder = format!("changes/{change:02}");
        for name in names(&folder) {
            if let Some(name) = name.strip_suffix(".paths") {
                run_paths(&format!("{folder}/{name}"));
            }
        }
        run_table(&format!("{folder}/rows.tsv"), |calls, row, tally| {
            if newest <= number(row[7]) {
                let run = match row[0] {
                    b"rdap_prefixes" | b"rdap_fold" | b"rdap_address_text" => run_on_bytes,
                    _ => run_row,
                };
                let expected = expected_of(&folder, row).join(&b'\t');
                let got = run(calls, &folder, row).join(&b'\t');
                tally.row(row[8], &expected, &got);
            }
        });
    }
}

/// "A whole image, 30 bytes, one AS block 12 to 15, handle A, name B, active"
#[test]
fn whole_image() {
    let image = [
        0x01, 0x00, 0x01, 0x01, 0x12, 0x00, 0x17, 0x20, 0x00, 0x08, 0x00, 0x00, 0x00, 0x0C, 0x00,
        0x00, 0x00, 0x0F, 0x21, 0x00, 0x01, 0x41, 0x22, 0x00, 0x01, 0x42, 0x23, 0x00, 0x01, 0x01,
    ];
    for calls in &BOTH {
        let mut list = [FILL; 2];
        let reply = (calls.answer)(b"/autnum/12", &image, &mut list);
        assert_eq!(reply.numbers(), [200, 0, 2, 0, 1, 0, 0]);
        assert_eq!(list, [0, FILL]);
        // "as a part of the image itself"
        let handle = (calls.handle)(&image, 0);
        assert_eq!(handle, b"A");
        assert_eq!(handle.as_ptr(), image[21..].as_ptr());
        let name = (calls.name_of)(&image, 0);
        assert_eq!(name, b"B");
        assert_eq!(name.as_ptr(), image[25..].as_ptr());
        let range = (calls.range)(&image, 0);
        assert_eq!(range, [0, 0, 0, 12, 0, 0, 0, 15]);
        assert_eq!(range.as_ptr(), image[10..].as_ptr());
        assert!((calls.handle)(&image, 1).is_empty());
        assert!((calls.name_of)(&image, u32::MAX).is_empty());
        assert!((calls.range)(&image, 1).is_empty());
    }
}

/// The lengths of the shortest lists of prefixes for each start of a range up to
/// `last`, which is below 64, and 0 for one after it. Any prefix that starts there
/// may come first.
fn fewest(last: usize) -> Vec<usize> {
    let mut fewest = vec![0; last + 2];
    for first in (0..=last).rev() {
        let sizes = (0..7).map(|after| 1 << after);
        let ends = sizes
            .filter(|size| first % size == 0 && first + size <= last + 1)
            .map(|size| first + size);
        fewest[first] = 1 + ends.map(|end| fewest[end]).min().expect("a range of one");
    }
    fewest
}

/// "the prefixes in ascending order that together hold exactly that range, and no
/// shorter list does": every range among 64 addresses.
#[test]
fn shortest() {
    let runs = [
        (IPV4, 0),
        (IPV4, 0xC000_0200),
        (IPV4, u128::from(u32::MAX) - 63),
        (IPV6, (1 << 64) - 64),
        (IPV6, u128::MAX - 63),
    ];
    for (calls, (family, base)) in BOTH.iter().flat_map(|calls| runs.map(|run| (calls, run))) {
        for last in 0..64 {
            for (first, fewest) in fewest(last)[..=last].iter().enumerate() {
                let (first, last) = (base + first as u128, base + last as u128);
                let range = generate::ends(family, Range { first, last });
                let mut out = vec![FILL_BYTE; fewest * (range.len() / 2 + 1)];
                let reply = (calls.prefixes)(&range, &mut out);
                assert_eq!(reply.numbers(), [0, *fewest as u32], "{range:02x?}");
                assert_exact(&range, &out);
            }
        }
    }
}

/// Each entry starts where the one before it ends, the first and the last as the
/// range does.
fn assert_exact(range: &[u8], entries: &[u8]) {
    let (first, last) = range.split_at(range.len() / 2);
    let mut next = address_of(first);
    for entry in entries.chunks(first.len() + 1) {
        let (&length, address) = entry.split_last().expect("an entry");
        let size = 1 << (8 * first.len() - usize::from(length));
        assert_eq!(address_of(address), next, "{range:02x?}");
        assert_eq!(next % size, 0, "{range:02x?}");
        next = next.wrapping_add(size);
    }
    assert_eq!(next, address_of(last).wrapping_add(1), "{range:02x?}");
}

/// The address of 4 or 16 bytes.
fn address_of(bytes: &[u8]) -> u128 {
    let mut all = [0; 16];
    all[16 - bytes.len()..].copy_from_slice(bytes);
    u128::from_be_bytes(all)
}

/// "Reading what was written gives the address back": the text in a path finds
/// the network of that address alone.
#[test]
fn read_back() {
    let aims = Aims::new(&[], &Ok(vec![]));
    for calls in &BOTH {
        let mut rng = Rng::new(8);
        for _ in 0..20_000 {
            let address = generate::address(&mut rng, &aims);
            let mut text = [FILL_BYTE; LONGEST_TEXT];
            let reply = (calls.address_text)(&address, &mut text);
            if reply.reason != 0 {
                assert_eq!((reply.numbers(), text), ([6, 0], [FILL_BYTE; LONGEST_TEXT]));
                continue;
            }
            let tag = if address.len() == 4 { IPV4 } else { IPV6 };
            let first = address_of(&address);
            let range = Range { first, last: first };
            let image = generate::encode(&[Draft::block(tag, range, b"H", b"N", true)]);
            let path = [b"/ip/", written(&text, FILL_BYTE)].concat();
            let found = (calls.answer)(&path, &image, &mut [FILL]);
            assert_eq!(found.numbers(), [200, 0, 1, 0, 1, 0, 0], "{address:02x?}");
        }
    }
}

/// The cases of S13.2.
#[test]
fn cases() {
    let image = file("s.image");
    let long = |length: usize| [b"/help?", vec![b'a'; length - 6].as_slice()].concat();
    let cases: Vec<(Vec<u8>, u32)> = vec![
        (b"".to_vec(), 3),
        (b"/".to_vec(), 4),
        (b"/ip/192.0.2.0/".to_vec(), 6),
        (b"/ip/192.0.2.1/24".to_vec(), 6),
        (b"/ip/01.2.3.4".to_vec(), 6),
        (b"/ip/1:2:3:4:5:6:7::".to_vec(), 8),
        (b"/ip/1:2:3:4:5:6:7:8::".to_vec(), 6),
        (b"/autnum/4294967295".to_vec(), 8),
        (b"/autnum/4294967296".to_vec(), 6),
        (long(1024), 0),
        (long(1025), 1),
    ];
    for calls in &BOTH {
        for (path, reason) in &cases {
            let reply = (calls.answer)(path, &image, &mut []);
            assert_eq!(reply.reason, *reason, "{}", path.escape_ascii());
        }
    }
}
