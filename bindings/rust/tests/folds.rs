//! Change files folded into images, and made by `Changes`.
mod common;

use common::{column, each_row, folder};
use limpetvane::*;
use std::fs;
use std::net::IpAddr;

fn campus() -> Vec<u8> {
    fs::read(folder().join("campus.image")).unwrap()
}

fn ip(text: &str) -> IpAddr {
    text.parse().unwrap()
}

fn prefix(text: &str, length: u8) -> Prefix {
    Prefix { address: ip(text), length }
}

/// A file of the changes that are made.
fn made(make: impl FnOnce(&mut Changes) -> Result<&mut Changes, NoChange>) -> Changes {
    let mut changes = Changes::new();
    make(&mut changes).unwrap();
    changes
}

/// The numbers of a reply.
fn reply(folded: Result<usize, FoldRefusal>) -> [u32; 5] {
    match folded {
        Ok(count) => [0, count as u32, 0, 0, 0],
        Err(r) => [r.reason, r.count, r.defect, r.place, r.offset],
    }
}

/// The fields of a row of fields, as tag and contents.
fn fields(mut text: &[u8]) -> Vec<(u8, &[u8])> {
    let mut found = vec![];
    while let [tag, high, low, rest @ ..] = text {
        let (contents, rest) = rest.split_at(usize::from(u16::from_be_bytes([*high, *low])));
        found.push((*tag, contents));
        text = rest;
    }
    found
}

/// First and last of an IP network, as the bytes of a range.
fn addresses(range: &[u8]) -> (IpAddr, IpAddr) {
    let address = |bytes: &[u8]| match bytes.len() {
        4 => IpAddr::from(<[u8; 4]>::try_from(bytes).unwrap()),
        _ => IpAddr::from(<[u8; 16]>::try_from(bytes).unwrap()),
    };
    let (first, last) = range.split_at(range.len() / 2);
    (address(first), address(last))
}

/// First and last of an AS block.
fn as_numbers(range: &[u8]) -> (u32, u32) {
    let number = |at| u32::from_be_bytes(range[at..at + 4].try_into().unwrap());
    (number(0), number(4))
}

/// Makes a well-formed change again.
fn make<'a>(changes: &'a mut Changes, change: u8, contents: &[u8]) -> Result<&'a mut Changes, NoChange> {
    let tag = contents[0];
    if change == 0x31 {
        let key = &contents[1..];
        return match tag {
            0x12 => changes.remove_as_block(as_numbers(key).0, as_numbers(key).1),
            0x13 => changes.remove_domain(key),
            0x14 => changes.remove_nameserver(key),
            0x15 => changes.remove_entity(key),
            _ => changes.remove_network(addresses(key)),
        };
    }
    let parts: Vec<&[u8]> = fields(&contents[3..]).into_iter().map(|(_, part)| part).collect();
    match (tag, &parts[..]) {
        (0x12, [range, handle, name, active]) => changes.add_as_block(as_numbers(range).0, as_numbers(range).1, handle, name, active[0] == 1),
        (_, [range, handle, name, active]) => changes.add_network(addresses(range), handle, name, active[0] == 1),
        (0x13, [handle, name]) => changes.add_domain(name, handle),
        (0x14, [handle, name]) => changes.add_nameserver(name, handle),
        (_, parts) => changes.add_entity(parts[0], parts[1]),
    }
}

/// A file of well-formed changes made again.
fn again(file: &[u8]) -> Changes {
    let mut changes = Changes::new();
    for (change, contents) in fields(file) {
        make(&mut changes, change, contents).unwrap();
    }
    changes
}

/// The handles of the records that answer, or the reason of a refusal.
fn handles(path: &str, image: &[u8]) -> Result<Vec<String>, u32> {
    let answer = answer(path.as_bytes(), image).map_err(|refusal| refusal.reason)?;
    Ok(answer.records.iter().map(|record| String::from_utf8(handle(image, *record).to_vec()).unwrap()).collect())
}

fn found(handles: &[&str]) -> Result<Vec<String>, u32> {
    Ok(handles.iter().map(|handle| handle.to_string()).collect())
}

#[test]
fn vectors() {
    let seen = each_row("05", "rdap_fold", |row, wanted_reply| {
        let mut out = vec![7; row[3].parse().unwrap()];
        let mut wanted = column("05", row[5]);
        wanted.extend(&out[wanted.len()..]);
        let folded = fold_into(&column("05", row[1]), &column("05", row[2]), &mut out);
        assert_eq!(reply(folded), wanted_reply, "{}", row[8]);
        assert!(out == wanted, "{}", row[8]);
    });
    assert!(seen > 400, "{seen}");
}

#[test]
fn made_again() {
    let mut seen = 0;
    each_row("05", "rdap_fold", |row, reply| {
        let file = column("05", row[2]);
        let file = match reply[0] {
            2 => &[],
            11 => &file[..reply[4] as usize], // what comes before is well formed
            _ => &file[..],
        };
        let changes = again(file);
        assert_eq!(changes.as_bytes(), file, "{}", row[8]);
        if reply[0] == 0 {
            assert!(fold(&column("05", row[1]), &changes) == Ok(column("05", row[5])), "{}", row[8]);
        }
        seen += usize::from(!file.is_empty());
    });
    assert!(seen > 300, "{seen}");
}

/// Two files in turn are their joining, where both are accepted: the files of the vectors, cut between changes.
#[test]
fn joining() {
    let mut seen = 0;
    each_row("05", "rdap_fold", |row, reply| {
        let (image, file) = (column("05", row[1]), column("05", row[2]));
        let changes = if reply[0] == 0 { fields(&file) } else { vec![] };
        let step = changes.len() / 8 + 1;
        let mut end = 0;
        for (number, (_, contents)) in changes.iter().enumerate() {
            if let (0, Ok(between)) = (number % step, fold(&image, &file[..end])) {
                assert!(fold(&between, &file[end..]) == Ok(column("05", row[5])), "{}", row[8]);
                seen += 1;
            }
            end += 3 + contents.len();
        }
    });
    assert!(seen > 300, "{seen}");
}

#[test]
fn bytes() {
    let network = prefix("10.0.2.0", 24);
    let pair = (ip("2001:db8::1"), ip("2001:db8::2"));
    let (texts, four, as_range) = ("21000148 2200014e", "0a000200 0a0002ff", "0000000c 0000000f");
    let six = "20010db8000000000000000000000001 20010db8000000000000000000000002";
    let cases = [
        (made(|c| c.add_network(network, "H", "N", true)), format!("30001a 100017 200008 {four} {texts} 23000101")),
        (made(|c| c.add_network((ip("10.0.2.0"), ip("10.0.2.255")), b"H", b"N", false)), format!("30001a 100017 200008 {four} {texts} 23000100")),
        (made(|c| c.add_network(pair, "H", "N", false)), format!("300032 11002f 200020 {six} {texts} 23000100")),
        (made(|c| c.add_as_block(12, 15, "H", "N", true)), format!("30001a 120017 200008 {as_range} {texts} 23000101")),
        (made(|c| c.add_domain("a.b", "H")), "30000d 13000a 21000148 220003612e62".to_string()),
        (made(|c| c.add_nameserver("a.b", "H")), "30000d 14000a 21000148 220003612e62".to_string()),
        (made(|c| c.add_entity("H", "A b")), "30000d 15000a 21000148 220003412062".to_string()),
        (made(|c| c.remove_network(network)), format!("310009 10 {four}")),
        (made(|c| c.remove_network(pair)), format!("310021 11 {six}")),
        (made(|c| c.remove_as_block(12, 15)), format!("310009 12 {as_range}")),
        (made(|c| c.remove_domain("a.b")), "310004 13 612e62".to_string()),
        (made(|c| c.remove_nameserver(b"a.b")), "310004 14 612e62".to_string()),
        (made(|c| c.remove_entity("H")), "310002 15 48".to_string()),
        (made(|c| c.remove_entity("H")?.remove_entity(String::from("I"))), "310002 15 48 310002 15 49".to_string()),
        (Changes::new(), String::new()),
    ];
    for (changes, wanted) in cases {
        assert_eq!(changes.as_bytes(), column("05", &wanted.replace(' ', "")), "{wanted}");
    }
}

/// Each kind of record, added to campus and removed again: what a path finds before and after.
#[test]
fn added() {
    let (image, none) = (campus(), Err(8));
    let (four, six) = (prefix("10.0.2.0", 24), (ip("2001:db8:2::"), ip("2001:db8:2::5")));
    let kinds = [
        (made(|c| c.add_network(four, "NEW", "New", true)), made(|c| c.remove_network(four)), "/ip/10.0.2.9", found(&["NET-10-0"])),
        (made(|c| c.add_network(six, "NEW", "New", true)), made(|c| c.remove_network(six)), "/ip/2001:db8:2::5", found(&["NET6-1"])),
        (made(|c| c.add_as_block(14, 15, "NEW", "New", true)), made(|c| c.remove_as_block(14, 15)), "/autnum/15", found(&["AS12"])),
        (made(|c| c.add_domain("new.example", "NEW")), made(|c| c.remove_domain("new.example")), "/domain/new.example", none.clone()),
        (made(|c| c.add_nameserver("ns.new", "NEW")), made(|c| c.remove_nameserver("ns.new")), "/nameserver/ns.new", none.clone()),
        (made(|c| c.add_entity("NEW", "New")), made(|c| c.remove_entity("NEW")), "/entity/NEW", none),
    ];
    for (added, removed, path, before) in kinds {
        assert_eq!(handles(path, &image), before);
        let after = fold(&image, &added).unwrap();
        assert_eq!(handles(path, &after), found(&["NEW"]), "{path}");
        assert!(fold(&after, &removed) == Ok(image.clone()), "{path}");
        assert!(fold(&image, [added.as_bytes(), removed.as_bytes()].concat()) == Ok(image.clone()), "{path}");
        let refused = Err(FoldRefusal { reason: 11, count: 0, defect: 0, place: 0, offset: 0 });
        assert_eq!((fold(&after, &added), fold(&image, &removed)), (refused.clone(), refused), "{path}");
    }
}

/// Each kind of record of campus, removed: what a path finds before and after.
#[test]
fn removed() {
    let image = campus();
    let kinds = [
        (made(|c| c.remove_network(prefix("10.0.0.0", 16))), "/ip/10.0.2.9", found(&["NET-10-0"]), found(&["NET-10"])),
        (made(|c| c.remove_network(prefix("2001:db8::", 32))), "/ip/2001:db8:2::5", found(&["NET6-1"]), Err(8)),
        (made(|c| c.remove_as_block(12, 15)), "/autnums/rirSearch1/down/0-99", found(&["AS0", "AS12"]), found(&["AS0", "AS13"])),
        (made(|c| c.remove_domain("exam.com")), "/domains?name=exam*", found(&["D3", "D4", "D5"]), found(&["D4", "D5"])),
        (made(|c| c.remove_nameserver("ns2.example.com")), "/nameservers?name=ns2*", found(&["N2", "N2"]), found(&["N2"])),
        (made(|c| c.remove_entity("ENT-1")), "/entities?handle=ENT-1*", found(&["ENT-1", "ENT-10"]), found(&["ENT-10"])),
    ];
    for (removed, path, before, after) in kinds {
        assert_eq!(handles(path, &image), before);
        assert_eq!(handles(path, &fold(&image, &removed).unwrap()), after, "{path}");
    }
}

#[test]
fn refusals() {
    let image = campus();
    let numbers = |image: &[u8], changes: &[u8]| reply(fold(image, changes).map(|image| image.len()));
    let changes = made(|c| c.remove_domain("exam.com")?.add_network(prefix("10.0.0.0", 24), "NEW", "New", true)?.remove_entity("ENT-3"));
    assert_eq!(numbers(&image, changes.as_bytes()), [11, 0, 0, 0, 45]);
    assert_eq!([0, 12, 45, 44, 54].map(|offset| changes.change_at(offset)), [Some(0), Some(1), Some(2), None, None]);
    let overlap = made(|c| c.add_network((ip("10.1.255.0"), ip("10.2.0.9")), "NEW", "New", true));
    assert_eq!(numbers(&image, overlap.as_bytes()), [12, 0, 7, 6, 0]);
    assert_eq!(numbers(&image, &[0; CHANGES_BYTES + 1]), [11, 0, 0, 0, 0]);
    assert_eq!(numbers(&image[..image.len() - 1], overlap.as_bytes()), [2, 0, 3, 37, 0]);
    assert_eq!(numbers(&vec![0; IMAGE_BYTES + 1], &[]), [2, 0, 1, 0, 0]);
    assert_eq!(numbers(&[], &[]), [2, 0, 2, 0, 0]);
    assert_eq!(reply(fold_into(&image, &[], &mut [])), [9, 1733, 0, 0, 0]);
    assert_eq!(fold(&image, Changes::new()), Ok(image));
}

#[test]
fn messages() {
    let message = |[reason, count, defect, place, offset]: [u32; 5]| FoldRefusal { reason, count, defect, place, offset }.to_string();
    assert_eq!(message([2, 0, 3, 37, 0]), "reason 2: the image is defective: defect 3, record 37");
    assert_eq!(message([12, 0, 7, 6, 0]), "reason 12: the final image would be defective: defect 7, record 6");
    assert_eq!(message([9, 1733, 0, 0, 0]), "reason 9: 1733 bytes are needed");
    let change = "is malformed, removes a record that isn't there or adds one whose key is already there";
    assert_eq!(message([11, 0, 0, 0, 45]), format!("reason 11: the change at byte 45 {change}"));
    assert_eq!(message([11, 0, 0, 0, 0]), format!("reason 11: the change at byte 0 {change}, or the file is too long"));
}

/// Spelled as it is given, and refused by the fold.
#[test]
fn what_the_fold_judges() {
    let turned = (ip("10.0.0.2"), ip("10.0.0.1"));
    let malformed = [
        made(|c| c.add_network(turned, "H", "N", true)),
        made(|c| c.remove_network(turned)),
        made(|c| c.add_as_block(2, 1, "H", "N", true)),
        made(|c| c.remove_as_block(2, 1)),
        made(|c| c.add_domain("EXAM.org", "H")),
        made(|c| c.remove_domain("EXAM.com")),
        made(|c| c.add_nameserver("-", "H")),
        made(|c| c.add_entity("", "N")),
        made(|c| c.add_entity("H", "\u{e9}")),
        made(|c| c.remove_entity("*")),
    ];
    for changes in malformed {
        assert_eq!(fold(&campus(), &changes).unwrap_err().reason, 11, "{changes:?}");
    }
}

#[test]
fn unspellable() {
    let mut changes = Changes::new();
    let long = |length| vec![b'x'; length];
    assert_eq!(changes.add_network((ip("0.0.0.1"), ip("::1")), "H", "N", true), Err(NoChange::TwoFamilies));
    assert_eq!(changes.remove_network((ip("::1"), ip("0.0.0.1"))), Err(NoChange::TwoFamilies));
    assert_eq!(changes.add_entity("H", long(65_536)), Err(NoChange::TooLong));
    assert_eq!(changes.add_entity("H", long(65_526)), Err(NoChange::TooLong));
    assert_eq!(changes.remove_domain(long(65_535)), Err(NoChange::TooLong));
    assert_eq!(changes, Changes::new());
    changes.add_entity("H", long(65_525)).unwrap().remove_domain(long(65_534)).unwrap();
    assert_eq!((changes.as_bytes().len(), changes.change_at(65_538)), (2 * 65_538, Some(1)));
    let messages = [NoChange::TwoFamilies, NoChange::TooLong].map(|refusal| refusal.to_string());
    assert_eq!(messages, ["first and last are of two families", "a field holds at most 65,535 bytes"]);
}

#[test]
fn prefixes_as_ranges() {
    let range = |text, length| <(IpAddr, IpAddr)>::from(prefix(text, length));
    assert_eq!(range("10.1.2.3", 8), (ip("10.0.0.0"), ip("10.255.255.255")));
    assert_eq!(range("10.1.2.3", 32), (ip("10.1.2.3"), ip("10.1.2.3")));
    assert_eq!(range("10.1.2.3", 0), (ip("0.0.0.0"), ip("255.255.255.255")));
    assert_eq!(range("2001:db8::", 32), (ip("2001:db8::"), ip("2001:db8:ffff:ffff:ffff:ffff:ffff:ffff")));
    assert_eq!(range("::1", 128), (ip("::1"), ip("::1")));
    assert_eq!(range("::1", 255), (ip("::1"), ip("::1")));
}
