//! Ranges and addresses.

use super::aims::Aims;
use super::numbers::Rng;
use super::records::{ends, largest, octets};
use crate::{Range, IPV4, IPV6};

/// First and last, mostly in order; now and then of a length that is no family's.
pub fn range(rng: &mut Rng, aims: &Aims) -> Vec<u8> {
    let family = *rng.pick(&[IPV4, IPV6]);
    let most = largest(family);
    let mut range = draft_range(rng, aims, family);
    // an end off by one, or both
    for end in [&mut range.first, &mut range.last] {
        match rng.below(8) {
            0 => *end = end.saturating_sub(1),
            1 => *end = end.saturating_add(1).min(most),
            _ => {}
        }
    }
    let mut contents = ends(family, range);
    let half = contents.len() / 2;
    match rng.below(24) {
        0 => contents.rotate_left(half),
        1 => contents.resize(rng.below(41), *rng.pick(&[0, 1, 0xFF])),
        2 => contents.resize(*rng.pick(&[7, 9, 16, 31, 33, 64]), 0),
        _ => {}
    }
    contents
}

pub(super) fn draft_range(rng: &mut Rng, aims: &Aims, family: u8) -> Range {
    let most = largest(family);
    let bits = 128 - most.leading_zeros() as usize;
    let address = rng.wide() & most;
    // ones in the low bits, as many as one likes
    let low = most >> rng.below(bits);
    let (first, last) = match rng.below(10) {
        0 => return aims.block(rng, family),
        // a prefix
        1 | 2 => (address & !low, address | low),
        3 => (address, address),
        // few addresses, or as many as `low` says
        4 => (address, address.saturating_add(rng.below(300) as u128)),
        5 => (address, address.saturating_add(rng.wide() & low)),
        // on both sides of a border, as 2 to the 32 and 2 to the 64
        6 | 7 => {
            let border = match rng.below(3) {
                0 => 1 << (bits / 4 * rng.between(1, 3)),
                1 => address & !low,
                _ => low.wrapping_add(1) & most,
            };
            let (before, after) = (rng.wide() & low, rng.wide() & low);
            (border.saturating_sub(before), border.saturating_add(after))
        }
        // the whole family, or up to an end of it
        8 => (*rng.pick(&[0, 0, address]), *rng.pick(&[most, most, low])),
        _ => (address, rng.wide() & most),
    };
    let (first, last) = (first.min(last), first.max(last).min(most));
    Range { first, last }
}

// Addresses

/// The bytes of an address; now and then of a length that is no family's.
pub fn address(rng: &mut Rng, aims: &Aims) -> Vec<u8> {
    let family = *rng.pick(&[IPV4, IPV6, IPV6]);
    let address = match rng.below(4) {
        0 => {
            let block = aims.block(rng, family);
            near(rng, block, family)
        }
        _ => draft_address(rng, family),
    };
    let mut bytes = octets(family, address);
    match rng.below(24) {
        0 => bytes.resize(rng.below(41), *rng.pick(&[0, 1, 0xFF])),
        1 => bytes.resize(*rng.pick(&[0, 3, 5, 8, 15, 17, 20, 32]), 0),
        _ => {}
    }
    bytes
}

/// An address by its groups, of 16 bits or, in IPv4, of 8: of any value, small,
/// zero or all ones.
fn draft_address(rng: &mut Rng, family: u8) -> u128 {
    let (groups, bits) = if family == IPV6 { (8, 16) } else { (4, 8) };
    // of so many groups one is zero
    let zeros = rng.between(2, 5);
    let address = (0..groups).fold(0, |address, _| {
        let group = match rng.below(6) {
            _ if rng.once_in(zeros) => 0,
            0 => u64::MAX,
            // of each number of digits, and about their borders
            1 => 1 << rng.below(bits),
            2 => (1 << rng.below(bits)) - 1,
            3 => *rng.pick(&[9, 10, 99, 100, 255]),
            _ => rng.word64() >> rng.below(64),
        };
        address << bits | u128::from(group & ((1 << bits) - 1))
    });
    match (family, rng.below(8)) {
        (IPV6, 0) => 0xFFFF << 32 | address & 0xFFFF_FFFF,
        (IPV6, 1) => rng.pick(&NOT_MAPPED) << 32 | address & 0xFFFF_FFFF,
        // about the ends of ::ffff:0:0/96 and of ::/96
        (IPV6, 2) => (rng.pick(&[0xFFFF, 0x1_0000, 1]) << 32) - *rng.pick(&[0, 1]),
        _ => address,
    }
}

/// The first 96 bits of addresses that have no dotted tail, though some have IPv4
/// inside and others are nearly ::ffff:0:0/96.
const NOT_MAPPED: [u128; 6] = [
    0,
    0x64_FF9B << 64,
    0xFFFE,
    0x1_FFFF,
    0xFFFF << 16,
    1 << 80 | 0xFFFF,
];

/// An address in or beside a range.
pub(super) fn near(rng: &mut Rng, range: Range, family: u8) -> u128 {
    match rng.below(8) {
        0 | 1 => range.first,
        2 | 3 => range.last,
        4 => range.first.saturating_sub(1),
        5 => range.last.saturating_add(1).min(largest(family)),
        _ => rng.within(range),
    }
}
