//! Paths and batches of paths.

use super::addresses::near;
use super::aims::Aims;
use super::numbers::Rng;
use super::spelling::{decimal, escaped, host_segment, network, numbers};
use super::texts::{fold_some, insert, spoil_text};
use crate::{
    Relation, AS, DOMAIN, ENTITY, IPV4, IPV6, LONGEST_PATH, MOST_PATHS, NAMESERVER, RELATIONS,
};

/// A text of paths that aim at the image, few where the image is large.
pub fn batch(rng: &mut Rng, aims: &Aims) -> Vec<u8> {
    let count = match rng.below(50) {
        _ if aims.is_large() => rng.between(1, 3),
        0 => *rng.pick(&ABOUT_MOST_PATHS),
        _ => rng.between(1, 8),
    };
    let mut paths: Vec<Vec<u8>> = (0..count).map(|_| batch_path(rng, aims)).collect();
    // short paths before and after these
    if rng.once_in(30) {
        let more = match rng.below(4) {
            0 => rng.between(67, 1000),
            _ => *rng.pick(&ABOUT_MOST_PATHS),
        };
        let short = rng.word(" / /help /ip/::1 /autnum/12 /domains?name=a*");
        paths.resize(more.max(count), short.to_vec());
        let before = rng.below(paths.len());
        paths.rotate_right(before);
    }
    let mut text = paths.join(&b'\n');
    spoil_batch(rng, &mut text);
    text
}

/// Numbers of paths about the limit.
const ABOUT_MOST_PATHS: [usize; 4] = [MOST_PATHS - 1, MOST_PATHS, MOST_PATHS + 1, MOST_PATHS + 2];

/// A path for a batch, now and then empty or of a length about the limit or far
/// past it.
fn batch_path(rng: &mut Rng, aims: &Aims) -> Vec<u8> {
    let mut path = path(rng, aims);
    match rng.below(400) {
        0..=9 => path.clear(),
        10..=13 => stretch(rng, &mut path, LONGEST_PATH),
        14..=17 => stretch(rng, &mut path, LONGEST_PATH + 1),
        18 => {
            let length = rng.between(LONGEST_PATH, 70_000);
            stretch(rng, &mut path, length);
        }
        _ => {}
    }
    path
}

/// Adds feeds at the ends or anywhere, and bytes that are no part of a path.
fn spoil_batch(rng: &mut Rng, text: &mut Vec<u8>) {
    let at = rng.below(text.len() + 1);
    match rng.below(40) {
        0 => text.clear(),
        1 | 2 => text.push(b'\n'),
        3 => text.extend(b"\n\n"),
        4 => text.insert(0, b'\n'),
        5 => text.insert(at, b'\n'),
        6 => insert(text, at, b"\r\n"),
        7 => text.insert(at, rng.between(0x80, 0xFF) as u8),
        // a feed with its high bit, or that is written as an escape
        8 => insert(text, at, b"\x8A"),
        9 => insert(text, at, b"%0A"),
        // a feed beside one
        10 => {
            let feed = text.iter().position(|&byte| byte == b'\n');
            text.insert(feed.unwrap_or(at), b'\n');
        }
        _ => {}
    }
}

/// A path that aims at the image, most of the time without a fault.
pub fn path(rng: &mut Rng, aims: &Aims) -> Vec<u8> {
    let faulty = rng.below(100) < 35;
    let mut path = draft_path(rng, aims, faulty);
    if faulty {
        match rng.below(8) {
            0..=2 => spoil_bytes(rng, &mut path),
            3..=4 => spoil_structure(rng, &mut path),
            5 => {
                // an escape from %80 up, in the last segment or the contents of
                // a parameter
                let escape = format!("%{:02X}", rng.between(0x7E, 0xFF));
                path.extend(escape.into_bytes());
            }
            _ => {}
        }
    }
    if rng.once_in(150) {
        let length = rng.between(1022, 1027);
        stretch(rng, &mut path, length);
    }
    path
}

/// Lengthens a path to `length` bytes.
fn stretch(rng: &mut Rng, path: &mut Vec<u8>, length: usize) {
    if path.len() + 3 < length {
        path.push(if path.contains(&b'?') { b'&' } else { b'?' });
        path.push(b'x');
        if rng.once_in(2) {
            path.push(b'=');
        }
        path.resize(length, *rng.pick(b"a=?/&"));
    } else {
        path.resize(length, b'a');
    }
}

fn relation_start(rng: &mut Rng, start: &[u8], path: &mut Vec<u8>) {
    path.extend(start);
    path.extend(relation_name(*rng.pick(&RELATIONS)));
    path.push(b'/');
}

fn draft_path(rng: &mut Rng, aims: &Aims, faulty: bool) -> Vec<u8> {
    let mut path = Vec::new();
    match rng.below(100) {
        0..=21 => {
            path.extend(b"/ip/");
            network(rng, aims, faulty, &mut path);
        }
        22..=45 => {
            relation_start(rng, b"/ips/rirSearch1/", &mut path);
            network(rng, aims, faulty, &mut path);
        }
        46..=52 => {
            path.extend(b"/autnum/");
            let range = aims.block(rng, AS);
            let number = near(rng, range, AS);
            decimal(rng, number, faulty, &mut path);
        }
        53..=62 => {
            relation_start(rng, b"/autnums/rirSearch1/", &mut path);
            numbers(rng, aims, faulty, &mut path);
        }
        63..=67 => {
            path.extend(b"/domain/");
            let name = aims.host(rng, DOMAIN);
            host_segment(rng, name, faulty, &mut path);
        }
        68..=71 => {
            path.extend(b"/nameserver/");
            let name = aims.host(rng, NAMESERVER);
            host_segment(rng, name, faulty, &mut path);
        }
        72..=76 => {
            path.extend(b"/entity/");
            let mut handle = aims.handle(rng, &[ENTITY]);
            if faulty {
                spoil_text(rng, &mut handle);
            }
            escaped(rng, &handle, &mut path);
        }
        77 => path.extend(b"/help"),
        _ => search(rng, aims, faulty, &mut path),
    }
    // Parameters that mean nothing there.
    if rng.once_in(12) && !path.contains(&b'?') {
        path.extend(rng.word(
            "? ?x ?x=y ?status ?name=a&name=b ?a?b/c ?status=active ?nsIp=1 ?&&=&== ?q=%7F%00",
        ));
    }
    path
}

pub fn relation_name(relation: Relation) -> &'static [u8] {
    match relation {
        Relation::Up => b"up",
        Relation::Down => b"down",
        Relation::Top => b"top",
        Relation::Bottom => b"bottom",
    }
}

/// A search with a pattern that matches something, unless it is spoilt.
fn search(rng: &mut Rng, aims: &Aims, faulty: bool, path: &mut Vec<u8>) {
    let searches: [(&[u8], &[u8], &[u8]); 8] = [
        (b"/domains?", b"name", &[DOMAIN]),
        (b"/nameservers?", b"name", &[NAMESERVER]),
        (b"/entities?", b"fn", &[ENTITY]),
        (b"/entities?", b"handle", &[ENTITY]),
        (b"/ips?", b"handle", &[IPV4, IPV6]),
        (b"/ips?", b"name", &[IPV4, IPV6]),
        (b"/autnums?", b"handle", &[AS]),
        (b"/autnums?", b"name", &[AS]),
    ];
    let &(start, parameter, tags) = rng.pick(&searches);
    let is_host = tags == [DOMAIN] || tags == [NAMESERVER];
    let mut pattern = if parameter == b"handle" {
        aims.handle(rng, tags)
    } else if is_host {
        aims.host(rng, tags[0])
    } else {
        aims.name(rng, tags)
    };
    if parameter != b"handle" && rng.once_in(3) {
        fold_some(rng, &mut pattern);
    }
    let length = pattern.len();
    match rng.below(6) {
        0 => {}
        1..=3 => {
            let kept = rng.below(length + 1).min(253);
            pattern.truncate(kept);
            if kept < 64 || is_host {
                pattern.push(b'*');
            }
        }
        _ if is_host && pattern.contains(&b'.') => {
            // an asterisk for the end of a label, or for more than one
            let dots: Vec<usize> = (0..length).filter(|&at| pattern[at] == b'.').collect();
            let dot = *rng.pick(&dots);
            let kept = rng.below(dot + 1);
            pattern.drain(kept..dot);
            pattern.insert(kept, b'*');
        }
        _ => pattern = b"*".to_vec(),
    }
    if faulty && rng.once_in(2) {
        spoil_text(rng, &mut pattern);
    } else if faulty {
        let at = rng.below(pattern.len() + 1);
        if rng.once_in(2) {
            pattern.truncate(at);
        }
        insert(&mut pattern, at, rng.word("* ** *. *.a *a .*"));
    }
    path.extend(start);
    if rng.once_in(8) {
        path.extend(rng.word("x=y& name& handle& nsIp& ip& status=a& =& & Name=a& nam%65=a&"));
    }
    path.extend(parameter);
    path.push(b'=');
    escaped(rng, &pattern, path);
    if rng.once_in(8) {
        path.extend(rng.word("& &x &x=y &name &ip &x=a=b &%41=1"));
    }
    if faulty && rng.once_in(3) {
        path.extend(rng.word(
            "&name=a &handle=a &fn=a &nsLdhName=a &nsIp=1 &ip=1 &ip= &status=x \
                &x=%80 =",
        ));
    }
}

fn spoil_bytes(rng: &mut Rng, path: &mut Vec<u8>) {
    let at = rng.below(path.len() + 1);
    let inside = at.min(path.len().saturating_sub(1));
    match rng.below(9) {
        0 => path.insert(at, rng.word64() as u8),
        1 => path[inside] = rng.word64() as u8,
        2 => {
            path.remove(inside);
        }
        3 => path.truncate(at),
        4 => path.insert(at, *rng.pick(b"\"#<>[\\]^`{|} \x7F\x80\xFF/?%*&=")),
        5 => {
            insert(
                path,
                at,
                rng.word(
                    "%80 %FF %ff %C3%A9 %7F %00 %25 %2580 %2A %2a %2F %3F % %4 %4g %%41 \
                    %G0",
                ),
            );
        }
        6 => path[inside] ^= 0x20,
        7 => path[inside] ^= 1 << rng.below(8),
        _ => {
            let copy = path[at..].to_vec();
            path.extend(copy);
        }
    }
}

/// Changes segments or parameters.
fn spoil_structure(rng: &mut Rng, path: &mut Vec<u8>) {
    let (before, after) = match path.iter().position(|&byte| byte == b'?') {
        Some(at) => (path[..at].to_vec(), path[at..].to_vec()),
        None => (path.clone(), Vec::new()),
    };
    let mut segments: Vec<Vec<u8>> = before
        .split(|&byte| byte == b'/')
        .map(<[u8]>::to_vec)
        .collect();
    let mut after = after;
    let at = rng.below(segments.len());
    match rng.below(12) {
        0 => segments.push(vec![]),
        1 => segments.push(b"8".to_vec()),
        2 => {
            segments.remove(at);
        }
        3 => segments.insert(at, vec![]),
        4 => segments[at].make_ascii_uppercase(),
        5 => {
            let copy = segments[at].clone();
            segments.insert(at, copy);
        }
        6 => {
            segments[at] = rng
                .word(
                    " ip ips autnum autnums domain domains nameserver \
                nameservers entity entities help rirSearch1 rirSearch2 up down top bottom Up \
                %75p %69p",
                )
                .to_vec()
        }
        7 => {
            let other = rng.below(segments.len());
            segments.swap(at, other);
        }
        8 => segments.truncate(at),
        9 => after.clear(),
        _ => {
            after.push(if after.is_empty() { b'?' } else { b'&' });
            after.extend(rng.word(
                "status=active status= status Status=a statu%73=a \
                nsLdhName=a nsIp=1 nsIp ip=1 ip name=a name handle=b fn=c x=%ff",
            ));
        }
    }
    *path = segments.join(&b'/');
    path.extend(after);
}
