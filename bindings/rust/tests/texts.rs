//! Texts of addresses: the vectors, and beside what std writes.
mod common;

use common::{column, each_row};
use limpetvane::*;
use std::net::{IpAddr, Ipv4Addr, Ipv6Addr};

#[test]
fn vectors() {
    let seen = each_row("06", "rdap_address_text", |row, reply| {
        let (address, written) = (column("06", row[1]), column("06", row[5]));
        let mut out = vec![7; row[3].parse().unwrap()];
        let mut wanted = written.clone();
        wanted.extend(&out[written.len()..]);
        let result = match reply[0] {
            0 => Ok(reply[1] as usize),
            9 => Err(NoText::Room(reply[1] as usize)),
            _ => Err(NoText::NoAddress),
        };
        assert_eq!(address_text_into(&address, &mut out), result, "{}", row[8]);
        assert_eq!(out, wanted, "{}", row[8]);
        if reply[0] == 0 {
            let written = String::from_utf8(written).unwrap();
            assert_eq!(address_text(written.parse::<IpAddr>().unwrap()), written, "{}", row[8]);
        }
    });
    assert_eq!(seen, 518);
}

/// Xorshift, from a seed that is not 0.
struct Rng(u64);

impl Rng {
    fn word(&mut self) -> u64 {
        self.0 ^= self.0 << 13;
        self.0 ^= self.0 >> 7;
        self.0 ^= self.0 << 17;
        self.0
    }

    fn below(&mut self, bound: u64) -> u64 {
        self.word() % bound
    }

    /// An IPv6 address: groups of any value or small, none, some or most of them zero, or one of the starts and anything after it.
    fn ipv6(&mut self) -> Ipv6Addr {
        let (digits, zeros) = (1 + self.below(4), self.below(4));
        let mut group = |_| if self.below(4) < zeros { 0 } else { (self.word() >> (64 - 4 * digits)) as u16 };
        let groups = Ipv6Addr::from([0, 1, 2, 3, 4, 5, 6, 7].map(&mut group));
        match STARTS.get(self.below(32) as usize) {
            Some(start) => Ipv6Addr::from(start << 32 | u128::from(groups) & 0xFFFF_FFFF),
            None => groups,
        }
    }
}

/// What the first 96 bits of an address may be that has IPv4 inside, and those beside ::ffff:0:0/96.
const STARTS: [u128; 8] = [0xFFFF, 0xFFFF, 0, 0xFFFE, 0x1_0000, 0xFFFF_0000, 0x64_FF9B << 64, 1 << 80 | 0xFFFF];

/// std writes what RFC 5952 and the rules say: there is no difference to name.
#[test]
fn peer() {
    let mut rng = Rng(6);
    let (mut mapped, mut shortened) = (0, 0);
    for _ in 0..200_000 {
        let address = rng.ipv6();
        let text = address_text(address);
        assert_eq!(text, address.to_string());
        mapped += u32::from(address.to_ipv4_mapped().is_some());
        shortened += u32::from(text.contains("::"));
    }
    assert!(mapped > 10_000 && shortened > 50_000 && shortened < 150_000, "{mapped}, {shortened}");
    for _ in 0..100_000 {
        let digits = [0xFF, 0x7F, 0x0F, 0x09];
        let mask = u32::from_be_bytes(digits.map(|_| digits[rng.below(4) as usize]));
        let address = Ipv4Addr::from(rng.word() as u32 & mask);
        assert_eq!(address_text(address), address.to_string());
    }
}

#[test]
fn refusals() {
    let mut text = [7; 15];
    for (address, refusal) in [(&[255; 3][..], NoText::NoAddress), (&[255; 5], NoText::NoAddress), (&[], NoText::NoAddress), (&[255; 16], NoText::Room(39))] {
        assert_eq!((address_text_into(address, &mut text), text), (Err(refusal), [7; 15]));
    }
    assert_eq!(address_text_into(&[255; 4], &mut text[..14]), Err(NoText::Room(15)));
    assert_eq!((address_text_into(&[255; 4], &mut text), &text), (Ok(15), b"255.255.255.255"));
    let messages = [NoText::NoAddress, NoText::Room(39)].map(|refusal| refusal.to_string());
    assert_eq!(messages, ["reason 6: no address of 4 or 16 bytes", "reason 9: 39 bytes are needed"]);
}
