//! How the parts of a path are spelt, well or badly.

use super::addresses::near;
use super::aims::Aims;
use super::damage::damage_host;
use super::numbers::Rng;
use super::texts::{fold_some, insert, spoil_text};
use crate::{AS, IPV4, IPV6};

/// An address, with a prefix length or not.
pub(super) fn network(rng: &mut Rng, aims: &Aims, faulty: bool, path: &mut Vec<u8>) {
    let has_v4 = aims.blocks.iter().any(|block| block.0 == IPV4);
    let has_v6 = aims.blocks.iter().any(|block| block.0 == IPV6);
    let family = match (has_v4, has_v6) {
        (true, false) if !rng.once_in(10) => IPV4,
        (false, true) if !rng.once_in(10) => IPV6,
        _ => *rng.pick(&[IPV4, IPV6]),
    };
    let bits: u32 = if family == IPV6 { 128 } else { 32 };
    let range = aims.block(rng, family);
    let mut address = near(rng, range, family);
    // The bits after the prefix.
    let mut after = 0;
    let has_length = rng.below(3) > 0;
    if has_length {
        let size = range.last - range.first;
        let width = 128 - size.leading_zeros();
        after = match rng.below(8) {
            // the block itself, if it is a prefix, or about its size
            0..=2 => {
                address = range.first;
                width
            }
            3 => width + 1,
            4 => width.saturating_sub(1),
            5 => address.trailing_zeros(),
            6 => rng.below(bits as usize + 1) as u32,
            _ => *rng.pick(&[0, 1, bits, bits - 1]),
        }
        .min(bits);
        if !(faulty && rng.once_in(6)) {
            address &= u128::MAX.checked_shl(after).unwrap_or(0);
        }
        // one bit that should be zero
        if faulty && after > 0 && rng.once_in(4) {
            address |= 1 << rng.below(after as usize);
        }
    }
    let mut text = if family == IPV6 {
        ipv6(rng, address)
    } else {
        std::net::Ipv4Addr::from(address as u32)
            .to_string()
            .into_bytes()
    };
    if faulty && rng.once_in(2) {
        spoil_address(rng, &mut text);
    }
    if rng.once_in(if family == IPV6 { 6 } else { 60 }) {
        zone(rng, &mut text);
    }
    escaped(rng, &text, path);
    if has_length {
        path.push(b'/');
        let length = u128::from(bits - after);
        let faulty = faulty && rng.once_in(3);
        decimal(rng, length, faulty, path);
    }
}

/// One of the many spellings of an address.
fn ipv6(rng: &mut Rng, address: u128) -> Vec<u8> {
    let groups: Vec<u16> = (0..8)
        .map(|at| (address >> (112 - 16 * at)) as u16)
        .collect();
    let tail = rng.once_in(5);
    let written = if tail { 6 } else { 8 };
    let mut texts: Vec<String> = groups[..written]
        .iter()
        .map(|group| match rng.below(6) {
            0 => format!("{group:04x}"),
            1 => format!("{group:04X}"),
            2 => format!("{group:X}"),
            3 => format!("{group:02x}"),
            _ => format!("{group:x}"),
        })
        .collect();
    if tail {
        texts.push(std::net::Ipv4Addr::from(address as u32).to_string());
    }
    // A run of zero groups that `::` may stand for.
    let zeros: Vec<usize> = (0..written).filter(|&at| groups[at] == 0).collect();
    if !zeros.is_empty() && !rng.once_in(4) {
        let start = *rng.pick(&zeros);
        let mut end = start + 1;
        while end < written && groups[end] == 0 && !rng.once_in(6) {
            end += 1;
        }
        let mut start = start;
        while start > 0 && groups[start - 1] == 0 && !rng.once_in(6) {
            start -= 1;
        }
        return format!("{}::{}", texts[..start].join(":"), texts[end..].join(":")).into_bytes();
    }
    texts.join(":").into_bytes()
}

/// A zone identifier, which is ignored after IPv6 text unless it is empty.
fn zone(rng: &mut Rng, text: &mut Vec<u8>) {
    text.push(b'%');
    match rng.below(8) {
        0 => text.extend((0..rng.between(1, 6)).map(|_| rng.below(0x80) as u8)),
        1 => text.extend(vec![b'e'; rng.between(1, 1000)]),
        _ => text.extend(rng.word(" eth0 1 % 25 a%b %% : ::1 /10 / * 1.2.3.4")),
    }
}

fn spoil_address(rng: &mut Rng, text: &mut Vec<u8>) {
    let at = rng.below(text.len() + 1);
    let marks: Vec<usize> = (0..text.len())
        .filter(|&at| text[at] == b':' || text[at] == b'.')
        .collect();
    match rng.below(12) {
        // `::` for no group, or a second one
        0 if !marks.is_empty() => {
            let at = *rng.pick(&marks);
            text.insert(at, b':');
        }
        1 => text.extend(b"::"),
        2 => insert(text, 0, b"::"),
        3 if !marks.is_empty() => {
            let at = *rng.pick(&marks);
            text.remove(at);
        }
        4 if !marks.is_empty() => {
            // a leading zero, or one digit too many
            let at = *rng.pick(&marks) + 1;
            insert(text, at, rng.word("0 00 fff 25"));
        }
        5 => text.extend(rng.word("% %25eth0 : . :0 .0 :1.2.3.4 -")),
        6 => insert(text, 0, rng.word(": 0 . 1: ::1.2.3.4: [")),
        7 => {
            let bytes = b"0123456789abcdefABCDEFgG:.xX+-%";
            text.insert(at, *rng.pick(bytes));
        }
        8 if !text.is_empty() => {
            text.remove(at.min(text.len() - 1));
        }
        9 => text.truncate(at),
        10 => {
            *text = rng
                .word(
                    " 1:2:3:4:5:6:7:: 1:2:3:4:5:6:7:8:: ::1:2:3:4:5:6:7 \
                ::1:2:3:4:5:6:7:8 1:2:3::4:5:6:7:8 1:2:3:4:5:6:1.2.3.4 1:2:3:4:5::1.2.3.4 \
                1:2:3:4:5:6::1.2.3.4 ::1.2.3.4 1.2.3.4:: ::1.2.3.4:5 ::1.2.3.256 ::1.2.3.04 \
                256.0.0.1 0.0.0.0 00.0.0.0 1.2.3 1.2.3.4.5 :: : :::",
                )
                .to_vec()
        }
        _ => text.make_ascii_uppercase(),
    }
}

pub(super) fn decimal(rng: &mut Rng, number: u128, faulty: bool, path: &mut Vec<u8>) {
    let mut text = number.to_string().into_bytes();
    if faulty {
        match rng.below(7) {
            0 => text.insert(0, b'0'),
            1 => text.push(*rng.pick(b"0123456789-+ a.")),
            2 => text.insert(0, *rng.pick(b"-+123456789AaS")),
            3 => text.clear(),
            4 => {
                text = rng
                    .word(
                        "4294967295 4294967296 9999999999 99999999999999999999 \
                    18446744073709551616 340282366920938463463374607431768211456 129 33 00",
                    )
                    .to_vec()
            }
            _ => {}
        }
    }
    escaped(rng, &text, path);
}

pub(super) fn numbers(rng: &mut Rng, aims: &Aims, faulty: bool, path: &mut Vec<u8>) {
    let range = aims.block(rng, AS);
    if rng.once_in(3) {
        let number = near(rng, range, AS);
        return decimal(rng, number, faulty, path);
    }
    let (first, last) = match rng.below(4) {
        0 | 1 => (range.first, range.last),
        2 => (range.first, near(rng, range, AS)),
        _ => (near(rng, range, AS), near(rng, range, AS)),
    };
    let (first, last) = if faulty && rng.once_in(3) {
        (last, first)
    } else {
        (first.min(last), first.max(last))
    };
    let first_faulty = faulty && rng.once_in(4);
    decimal(rng, first, first_faulty, path);
    match rng.below(12) {
        0 => path.extend(b"%2D"),
        1 => path.extend(b"%2d"),
        2 if faulty => path.extend(rng.word(" -- / %2F + -1-")),
        _ => path.push(b'-'),
    }
    let last_faulty = faulty && rng.once_in(4);
    decimal(rng, last, last_faulty, path);
}

pub(super) fn host_segment(rng: &mut Rng, mut name: Vec<u8>, faulty: bool, path: &mut Vec<u8>) {
    if rng.once_in(3) {
        fold_some(rng, &mut name);
    }
    if rng.once_in(4) {
        name.push(b'.');
    }
    if faulty {
        match rng.below(3) {
            0 => damage_host(rng, &mut name),
            1 => spoil_text(rng, &mut name),
            _ => name.push(b'.'),
        }
    }
    escaped(rng, &name, path);
}

/// Writes a text with escapes where they are needed, and a few more.
pub(super) fn escaped(rng: &mut Rng, text: &[u8], path: &mut Vec<u8>) {
    let more = if rng.once_in(6) { rng.between(2, 8) } else { 0 };
    for &byte in text {
        let needed =
            !(byte.is_ascii_alphanumeric() || b"-._~!$'()*+,;=:@".contains(&byte)) || byte == b'%';
        if needed || (more > 0 && rng.once_in(more)) {
            let digits = if rng.once_in(2) {
                format!("%{byte:02X}")
            } else {
                format!("%{byte:02x}")
            };
            path.extend(digits.into_bytes());
        } else {
            path.push(byte);
        }
    }
}
