//! Addresses for the rows of texts, and their texts by std.

use super::{assert_same, Beside, Call, Cell, Options, Rows};
use model::generate::{octets, Rng};
use model::{IPV4, IPV6, LONGEST_TEXT};
use std::io::Write;
use std::net::{Ipv4Addr, Ipv6Addr};

/// So many for a row that the processor cannot learn their branches: of 4,096 it
/// does in part, and the time depends on what was measured before.
const ADDRESSES: usize = 65_536;

/// 2001:db8::
const NET: u128 = 0x2001_0DB8 << 96;

/// A bit of the first digit of each group.
const DIGITS: u128 = 0x1000_1000_1000_1000_1000_1000_1000_1000;

/// Addresses of one family, one behind the other.
#[derive(Clone)]
pub struct Addresses {
    bytes: Vec<u8>,
    /// Bytes of an address.
    width: usize,
}

impl Addresses {
    fn new(family: u8, draw: impl Fn(&mut Rng) -> u128) -> Addresses {
        let mut rng = Rng::new(1);
        let addresses = (0..ADDRESSES).flat_map(|_| octets(family, draw(&mut rng)));
        Addresses {
            bytes: addresses.collect(),
            width: octets(family, 0).len(),
        }
    }

    fn all(&self) -> impl Iterator<Item = &[u8]> {
        self.bytes.chunks_exact(self.width)
    }

    /// A call on each address, into the same text; the sum of its counts.
    #[inline(always)]
    pub fn each(&self, text: &mut [u8], call: impl Fn(&[u8], &mut [u8]) -> u32) -> u32 {
        let text = &mut text[..LONGEST_TEXT];
        self.all().map(|address| call(address, text)).sum()
    }

    /// Each one must have the same text by all.
    fn assert_same(&self, name: &str) {
        for address in self.all() {
            let mut texts = [[0; LONGEST_TEXT]; 3];
            let [by_fast, by_library, by_std] = &mut texts;
            let counts = [
                in_fast(address, by_fast),
                in_library(address, by_library),
                in_std(address, by_std),
            ];
            assert_eq!(counts, [counts[0]; 3], "{name}: {address:02x?}");
            assert_eq!(texts, [texts[0]; 3], "{name}: {address:02x?}");
        }
    }
}

#[inline(always)]
pub fn in_fast(address: &[u8], text: &mut [u8]) -> u32 {
    fast::address_text(address, text).count
}

#[inline(always)]
pub fn in_library(address: &[u8], text: &mut [u8]) -> u32 {
    let mut reply = [0; 2];
    subject::address_text(address, text, &mut reply);
    reply[1]
}

/// By the `Display` of std's types.
#[inline(always)]
pub fn in_std(address: &[u8], mut text: &mut [u8]) -> u32 {
    let room = text.len();
    let result = if let Ok(octets) = <[u8; 4]>::try_from(address) {
        write!(text, "{}", Ipv4Addr::from(octets))
    } else {
        let octets: [u8; 16] = address.try_into().expect("an address");
        write!(text, "{}", Ipv6Addr::from(octets))
    };
    result.expect("room for every text");
    (room - text.len()) as u32
}

type Draw = fn(&mut Rng) -> u128;

/// IPv6 addresses by the shape of their texts.
const SHAPES: [(&str, Draw); 5] = [
    // 2001:1db8:abcd:ef12:3456:789a:bcde:f012
    ("IPv6 full", |rng| rng.wide() | DIGITS),
    // 2001:db8:abcd:ef12::
    ("IPv6 network", |rng| NET | low(rng, 32) << 64),
    // 2001:db8:abcd:ef12::3456
    ("IPv6 host", |rng| NET | low(rng, 32) << 64 | low(rng, 16)),
    // 2001:db8::abcd:0:0:ef12
    ("IPv6 two runs", |rng| {
        NET | low(rng, 16) << 48 | low(rng, 16)
    }),
    // ::ffff:192.0.2.1
    ("IPv6 mapped", |rng| 0xFFFF << 32 | low(rng, 32)),
];

/// A number of so many bits.
fn low(rng: &mut Rng, bits: u32) -> u128 {
    rng.wide() >> (128 - bits)
}

fn inputs() -> Vec<(&'static str, Addresses)> {
    let any_shape = |rng: &mut Rng| rng.pick(&SHAPES).1(rng);
    let mut inputs = vec![
        ("IPv4 mix", Addresses::new(IPV4, |rng| low(rng, 32))),
        ("IPv6 mix", Addresses::new(IPV6, any_shape)),
    ];
    inputs.extend(SHAPES.map(|(name, draw)| (name, Addresses::new(IPV6, draw))));
    inputs
}

/// The texts of a row beside those of the fast Rust, and beside those of std.
pub fn rows(options: &Options) -> Rows<'static> {
    let mut inputs = inputs();
    inputs.retain(|(name, _)| options.asks_for(name));
    let row = |(name, addresses): (&str, Addresses)| {
        addresses.assert_same(name);
        let call = || Call::AddressTexts(addresses.clone());
        assert_same(name, &call(), &[]);
        let cells = [Beside::Fast, Beside::Std].map(|beside| Cell::new(&[], call(), beside));
        (name.into(), cells.into())
    };
    inputs.into_iter().map(row).collect()
}

pub fn print(rows: &Rows) {
    println!(
        "{:16} {:>8} {:>8} {:>8} {:>13} {:>12}",
        "ns an address", "fast", "std", "library", "library/fast", "library/std"
    );
    for (kind, cells) in rows {
        let [fast, std, library] = [cells[0].least.0, cells[1].least.0, cells[0].least.1]
            .map(|least| least / ADDRESSES as f64);
        let [by_fast, by_std] = [cells[0].ratio(), cells[1].ratio()];
        println!("{kind:16} {fast:8.1} {std:8.1} {library:8.1} {by_fast:13.2} {by_std:12.2}");
    }
    println!();
}
