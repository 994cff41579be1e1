//! The vectors of tests/vectors and the image of S13.3, through the safe functions.
mod common;

use common::{column, each_row, folder, numbers};
use limpetvane::*;
use std::fs;
use std::net::IpAddr;
use std::path::{Path, PathBuf};

const EXAMPLE: [u8; 30] = [
    0x01, 0x00, 0x01, 0x01, 0x12, 0x00, 0x17, 0x20, 0x00, 0x08, 0, 0, 0, 0x0C, 0, 0, 0, 0x0F, 0x21, 0x00, 0x01, 0x41, 0x22, 0x00, 0x01, 0x42, 0x23, 0x00, 0x01, 0x01,
];

/// The files of paths below a folder.
fn paths_below(folder: &Path) -> Vec<PathBuf> {
    let entries = fs::read_dir(folder).expect("a folder").map(|entry| entry.expect("an entry").path());
    let (folders, files): (Vec<PathBuf>, Vec<PathBuf>) = entries.partition(|path| path.is_dir());
    let mut found: Vec<PathBuf> = files.into_iter().filter(|file| file.extension().is_some_and(|end| end == "paths")).collect();
    found.extend(folders.iter().flat_map(|folder| paths_below(folder)));
    found
}

fn number(kind: Option<Kind>) -> u32 {
    match kind {
        None => 0,
        Some(Kind::Ip) => 1,
        Some(Kind::Autnum) => 2,
        Some(Kind::Domain) => 3,
        Some(Kind::Nameserver) => 4,
        Some(Kind::Entity) => 5,
        Some(Kind::Help) => 6,
        Some(Kind::Search) => 7,
        Some(Kind::Relation(_)) => 8,
    }
}

/// What the small program writes for an answer.
fn line(answer: Result<Answer, Refusal>) -> String {
    match answer {
        Ok(a) => {
            let records: String = a.records.iter().map(|n| format!(" {n}")).collect();
            format!("200 0 {} {}{records}", number(Some(a.kind)), a.records.len())
        }
        Err(r) => format!("{} {} {} {}", r.status, r.reason, number(r.kind), r.count),
    }
}

/// Hands on each file of paths, with its image and its paths.
fn each(check: impl Fn(&Path, &[u8], &[&[u8]])) {
    let files = paths_below(&folder());
    assert!(files.iter().any(|file| file.ends_with("campus.paths")));
    for file in files {
        let read = |end: &str| fs::read(file.with_extension(end)).expect(end);
        let (image, paths) = (read("image"), read("paths"));
        let paths: Vec<&[u8]> = paths[..paths.len() - 1].split(|b| *b == b'\n').collect();
        check(&file, &image, &paths);
    }
}

#[test]
fn vectors() {
    each(|file, image, paths| {
        let expected = fs::read_to_string(file.with_extension("expected")).unwrap();
        assert_eq!(paths.len(), expected.lines().count());
        for (path, wanted) in paths.iter().zip(expected.lines()) {
            assert_eq!(line(answer(path, image)), wanted, "{} {}", file.display(), String::from_utf8_lossy(path));
        }
    });
}

/// The answers in the vectors of the changes.
#[test]
fn answers() {
    for (change, calls) in [("05", 14), ("06", 17)] {
        let seen = each_row(change, "rdap_answer", |row, wanted| {
            let (image, path) = (column(change, row[1]), column(change, row[2]));
            let mut list = vec![7; row[3].parse().unwrap()];
            match answer_into(&path, &image, &mut list) {
                Ok((_, count)) => assert_eq!((0, &list[..count]), (wanted[1], &numbers(row[5])[..]), "{}", row[8]),
                Err(refusal) => assert_eq!((refusal.status, refusal.reason), (wanted[0], wanted[1]), "{}", row[8]),
            }
        });
        assert_eq!(seen, calls);
    }
}

#[test]
fn example() {
    assert_eq!(answer(b"/autnum/12", &EXAMPLE), Ok(Answer { kind: Kind::Autnum, records: vec![0] }));
    assert_eq!((handle(&EXAMPLE, 0), name(&EXAMPLE, 0), name(&EXAMPLE, 1)), (&b"A"[..], &b"B"[..], &b""[..]));
    assert_eq!(relation(&EXAMPLE, 0, Relation::Down), Ok(Answer { kind: Kind::Relation(Relation::Down), records: vec![] }));
}

#[test]
fn refusals() {
    let defective = answer(b"/autnum/12", &EXAMPLE[..29]).unwrap_err();
    assert_eq!((defective.status, defective.reason, defective.defect, defective.place), (500, 2, 3, 0));
    let mut list = [7; 0];
    let short = answer_into(b"/autnum/12", &EXAMPLE, &mut list).unwrap_err();
    assert_eq!((short.reason, short.count, short.kind), (9, 1, Some(Kind::Autnum)));
    let up = relation(&EXAMPLE, 0, Relation::Up).unwrap_err();
    assert_eq!((up.reason, up.kind), (8, Some(Kind::Relation(Relation::Up))));
    assert_eq!(answer(b"", b"").unwrap_err().reason, 2);
}

type Batch = Result<Vec<Result<Answer, Refusal>>, Refusal>;

/// What a batch gives, by single calls; a defective image refuses the whole.
fn singly(paths: &[&[u8]], image: &[u8]) -> Batch {
    answer(b"/help", image)?;
    Ok(paths.iter().map(|path| answer(path, image)).collect())
}

/// A batch, held to the single calls.
fn equal(paths: &[&[u8]], image: &[u8]) -> Batch {
    let got = batch(paths, image);
    assert_eq!(got, singly(paths, image), "{}", String::from_utf8_lossy(&paths.join(&b'\n')));
    got
}

fn registry_s() -> Vec<u8> {
    fs::read(folder().join("s.image")).unwrap()
}

/// The reasons of a batch, 0 where a path is answered.
fn reasons(batch: Batch) -> Vec<u32> {
    batch.unwrap().iter().map(|one| one.as_ref().err().map_or(0, |refusal| refusal.reason)).collect()
}

#[test]
fn batches() {
    each(|_, image, paths| {
        for paths in paths.chunks(PATHS) {
            let _ = equal(paths, image);
        }
    });
}

#[test]
fn numbers_of_paths() {
    let (image, help) = (registry_s(), &b"/help"[..]);
    let defective = &image[..image.len() - 1];
    assert_eq!(reasons(equal(&[help; 64], &image)), [0; 64]);
    let many = batch(&[help; 65], &image).unwrap_err();
    assert_eq!((many.status, many.reason, many.kind, many.count), (400, 10, None, 0));
    assert_eq!(equal(&[], &image), Ok(vec![]));
    assert_eq!(reasons(equal(&[b""], &image)), [3]);
    for paths in [&[][..], &[help], &[help; 65]] {
        assert_eq!(batch(paths, defective), Err(answer(help, defective).unwrap_err()));
    }
}

#[test]
fn odd_paths() {
    let image = registry_s();
    let long = |start: &[u8], length| [start, &vec![b'a'; length - start.len()]].concat();
    let (good, above) = (long(b"/help?", 1024), long(b"/help?", 1025));
    let (cut, cut_above) = (long(b"/help\n", 1024), long(b"/help\n", 1025));
    let paths: [&[u8]; 10] = [b"/help\n/help", b"/ip/192.0.2.1", b"\n", b"", &good, &above, &cut, &cut_above, b"/ip/\x80\xFF", b"/\0"];
    let answers = equal(&paths, &image);
    assert_eq!(answers.as_ref().unwrap()[1], Ok(Answer { kind: Kind::Ip, records: vec![2] }));
    assert_eq!(reasons(answers), [3, 0, 3, 3, 0, 1, 3, 1, 3, 3]);
}

#[test]
fn relation_paths() {
    let image = registry_s();
    for relation in ["up", "down", "top", "bottom"] {
        let paths = [24, 31].map(|length| format!("/ips/rirSearch1/{relation}/192.0.2.0/{length}"));
        let _ = equal(&[paths[0].as_bytes(), paths[1].as_bytes()], &image);
    }
    let up = equal(&[b"/ips/rirSearch1/up/192.0.2.0/24"], &image).unwrap()[0].clone().unwrap_err();
    assert_eq!((up.reason, up.kind), (8, Some(Kind::Relation(Relation::Up))));
}

#[test]
fn few_places() {
    let image = registry_s();
    let answered = |paths: &[u8], places: usize| {
        let mut list = [7; 10];
        (batch_into(paths, &image, &mut list[..places]), list)
    };
    for places in [0, 3] {
        assert_eq!(answered(b"/ip/192.0.2.1", places), (Ok(0), [7; 10]));
    }
    assert_eq!(answered(b"/ip/192.0.2.1\n/help", 4), (Ok(1), [507, 9, 1, 1, 7, 7, 7, 7, 7, 7]));
    assert_eq!(answered(b"/ip/192.0.2.1\n/help", 5), (Ok(1), [200, 0, 1, 1, 2, 7, 7, 7, 7, 7]));
    assert_eq!(answered(b"/ips?name=*\n/ip/192.0.2.1\n/help", 9), (Ok(2), [507, 9, 7, 7, 200, 0, 1, 1, 2, 7]));
    assert_eq!(answered(b"/ips/rirSearch1/bottom/192.0.2.0/24\n/help", 8), (Ok(2), [507, 9, 8, 5, 200, 0, 6, 0, 7, 7]));
    assert_eq!(answered(b"", 10), (Ok(1), [400, 3, 0, 0, 7, 7, 7, 7, 7, 7]));
    assert_eq!(answered(b"\n", 10), (Ok(2), [400, 3, 0, 0, 400, 3, 0, 0, 7, 7]));
    assert_eq!(answered(&[b'\n'; 64], 10).0.unwrap_err().reason, 10);
    let defective = batch_into(b"/help", &EXAMPLE[..29], &mut []).unwrap_err();
    assert_eq!((defective.reason, defective.defect, defective.place), (2, 3, 0));
}

fn ip(text: &str) -> IpAddr {
    text.parse().unwrap()
}

/// Prefixes as text, or why there are none.
fn texts(prefixes: Result<Vec<Prefix>, NoPrefixes>) -> Result<Vec<String>, NoPrefixes> {
    prefixes.map(|prefixes| prefixes.iter().map(Prefix::to_string).collect())
}

#[test]
fn ranges() {
    let seen = each_row("03", "rdap_prefixes", |row, reply| {
        let mut out = vec![7; row[3].parse().unwrap()];
        let mut wanted = column("03", row[5]);
        wanted.extend(&out[wanted.len()..]);
        let result = match reply[0] {
            0 => Ok(reply[1] as usize),
            9 => Err(NoPrefixes::Room(reply[1] as usize)),
            _ => Err(NoPrefixes::NoRange),
        };
        assert_eq!(prefixes_into(&column("03", row[1]), &mut out), result, "{}", row[8]);
        assert_eq!(out, wanted, "{}", row[8]);
    });
    assert_eq!(seen, 512);
}

#[test]
fn ranges_of_records() {
    let seen = each_row("03", "rdap_range", |row, reply| {
        let (image, record) = (column("03", row[1]), row[2].parse().unwrap());
        let (offset, length) = (reply[0] as usize, reply[1] as usize);
        assert_eq!(range(&image, record), &image[offset..][..length]);
        let network = length != 0 && image[offset - 6] != 0x12;
        assert_eq!(record_prefixes(&image, record).err(), (!network).then_some(NoPrefixes::NoNetwork));
    });
    assert_eq!(seen, 44);
    assert_eq!(texts(record_prefixes(&registry_s(), 4)), Ok(vec!["192.0.2.128/25".to_string()]));
    assert_eq!(record_prefixes(&EXAMPLE, 0), Err(NoPrefixes::NoNetwork));
    assert_eq!(range(&EXAMPLE, 0), [0, 0, 0, 12, 0, 0, 0, 15]);
}

#[test]
fn addresses() {
    let wanted = |list: &[&str]| Ok(list.iter().map(|text| text.to_string()).collect());
    let example = prefixes(ip("192.0.2.1"), ip("192.0.2.6"));
    assert_eq!(texts(example), wanted(&["192.0.2.1/32", "192.0.2.2/31", "192.0.2.4/31", "192.0.2.6/32"]));
    assert_eq!(texts(prefixes(ip("2001:db8::"), ip("2001:db8::2"))), wanted(&["2001:db8::/127", "2001:db8::2/128"]));
    assert_eq!(texts(prefixes(ip("0.0.0.0"), ip("255.255.255.255"))), wanted(&["0.0.0.0/0"]));
    let last = ip("ffff:ffff:ffff:ffff:ffff:ffff:ffff:fffe");
    assert_eq!(prefixes(ip("::1"), last).unwrap().len(), 254);
    assert_eq!(prefixes(ip("0.0.0.1"), ip("255.255.255.254")).unwrap().len(), 62);
    for (first, last) in [("::2", "::1"), ("1.0.0.0", "0.0.0.1"), ("0.0.0.1", "::1"), ("::1", "0.0.0.1")] {
        assert_eq!(prefixes(ip(first), ip(last)), Err(NoPrefixes::NoRange));
    }
    let messages = [NoPrefixes::NoRange, NoPrefixes::Room(62), NoPrefixes::NoNetwork].map(|refusal| refusal.to_string());
    assert_eq!(messages, ["reason 6: no range of one family", "reason 9: room for 62 prefixes needed", "no IP network"]);
}
