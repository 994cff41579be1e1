//! The two implementations give the same on generated inputs.

use model::generate::{self, Aims, Rng};
use model::{Counted, Folded, Reply, LONGEST_TEXT, MOST_PREFIXES, RELATIONS};

const FILL: u32 = 0xA5A5_5A5A;
const FILL_BYTE: u8 = 0xA5;

/// Reply and list afterwards, for a list of so many places.
fn with_list(places: usize, call: impl Fn(&mut [u32]) -> Reply) -> (Reply, Vec<u32>) {
    with_room(places, FILL, call)
}

/// The same for any list, filled with `fill`.
fn with_room<T: Clone, R>(room: usize, fill: T, call: impl Fn(&mut [T]) -> R) -> (R, Vec<T>) {
    let mut list = vec![fill; room];
    let reply = call(&mut list);
    (reply, list)
}

#[test]
fn same_answers() {
    let mut rng = Rng::new(2);
    let mut calls = 0;
    let mut reasons = [0; 10];
    while calls < 100_000 {
        let image = generate::sound(&mut rng);
        let checked = model::check(&image);
        assert!(checked.is_ok(), "{}", image.escape_ascii());
        let aims = Aims::new(&image, &checked);
        for _ in 0..60 {
            let path = generate::path(&mut rng, &aims);
            let record = generate::record(&mut rng, &aims);
            let (full, _) = with_list(4096, |list| {
                model::answer_checked(&path, &image, &checked, list)
            });
            reasons[full.reason as usize] += 1;
            let places = generate::places(&mut rng, full.count as usize);
            assert_eq!(
                with_list(places, |list| fast::answer(&path, &image, list)),
                with_list(places, |list| model::answer_checked(
                    &path, &image, &checked, list
                )),
                "{} on {}",
                path.escape_ascii(),
                image.escape_ascii()
            );
            for relation in RELATIONS {
                let places = generate::places(&mut rng, 2);
                assert_eq!(
                    with_list(places, |list| fast::relation(
                        &image, record, relation, list
                    )),
                    with_list(places, |list| model::relation_checked(
                        &checked, record, relation, list
                    )),
                    "{relation:?} of {record} on {}",
                    image.escape_ascii()
                );
            }
            assert_eq!(
                fast::handle_part(&image, record),
                model::handle_part(&checked, record)
            );
            assert_eq!(
                fast::name_part(&image, record),
                model::name_part(&checked, record)
            );
            assert_eq!(
                fast::range_part(&image, record),
                model::range_part(&checked, record)
            );
            calls += 8;
        }
    }
    println!("{calls} calls, replies by reason from 0: {reasons:?}");
    // Every reason but 2 occurs.
    for reason in [0, 1, 3, 4, 5, 6, 7, 8] {
        assert!(reasons[reason] > 0, "reason {reason} did not occur");
    }
}

#[test]
fn same_batches() {
    let mut rng = Rng::new(5);
    let (mut reasons, mut within) = ([0; 11], [0; 11]);
    for number in 0..20_000 {
        let image = match number % 5 {
            0 => generate::damaged(&mut rng),
            _ => generate::sound(&mut rng),
        };
        let checked = model::check(&image);
        let aims = Aims::new(&image, &checked);
        let text = generate::batch(&mut rng, &aims);
        let plain = |list: &mut [u32]| model::batch_checked(&text, &image, &checked, list);
        let enough = generate::enough_places(&text, &aims);
        let (full, list) = with_list(enough, plain);
        let answers = generate::answers(&list, full.count);
        for places in [enough, generate::batch_places(&mut rng, &answers)] {
            let expected = with_list(places, plain);
            assert_eq!(
                with_list(places, |list| fast::batch(&text, &image, list)),
                expected,
                "{} on {}",
                text.escape_ascii(),
                image.escape_ascii()
            );
            reasons[expected.0.reason as usize] += 1;
            for (reason, _) in generate::answers(&expected.1, expected.0.count) {
                within[reason as usize] += 1;
            }
        }
    }
    println!("batches by reason from 0: {reasons:?}, answers in them: {within:?}");
    // A batch has the reasons 0, 2 and 10, its answers all others.
    for reason in 0..=10 {
        let refuses_all = reason == 2 || reason == 10;
        assert_eq!(reasons[reason] > 0, reason == 0 || refuses_all, "{reason}");
        assert_eq!(within[reason] > 0, !refuses_all, "{reason}");
    }
}

/// A call on a range or an address.
type OnBytes = fn(&[u8], &mut [u8]) -> Counted;

/// Holds 100,000 such calls to the model's; their reasons, and the largest count.
fn same_on_bytes(
    [fast, plain]: [OnBytes; 2],
    draw: fn(&mut Rng, &Aims) -> Vec<u8>,
    room: fn(&mut Rng, &[u8], usize) -> usize,
) -> ([u32; 11], usize) {
    let mut rng = Rng::new(6);
    let mut reasons = [0; 11];
    let mut largest = 0;
    while reasons.iter().sum::<u32>() < 100_000 {
        let image = generate::sound(&mut rng);
        let aims = Aims::new(&image, &model::check(&image));
        for _ in 0..100 {
            let input = draw(&mut rng, &aims);
            let count = plain(&input, &mut []).count as usize;
            let room = room(&mut rng, &input, count);
            let expected = with_room(room, FILL_BYTE, |out| plain(&input, out));
            assert_eq!(
                with_room(room, FILL_BYTE, |out| fast(&input, out)),
                expected,
                "{input:02x?} in {room} bytes"
            );
            reasons[expected.0.reason as usize] += 1;
            largest = largest.max(count);
        }
    }
    (reasons, largest)
}

#[test]
fn same_prefixes() {
    let calls: [OnBytes; 2] = [fast::prefixes, model::prefixes];
    let (reasons, longest) = same_on_bytes(calls, generate::range, generate::room);
    println!("lists of prefixes by reason from 0: {reasons:?}");
    assert_occurred(&reasons, &[0, 6, 9]);
    assert_eq!(longest, MOST_PREFIXES);
}

#[test]
fn same_address_texts() {
    let calls: [OnBytes; 2] = [fast::address_text, model::address_text];
    let room = |rng: &mut Rng, _: &[u8], length| generate::byte_room(rng, length);
    let (reasons, longest) = same_on_bytes(calls, generate::address, room);
    println!("texts of addresses by reason from 0: {reasons:?}");
    assert_occurred(&reasons, &[0, 6, 9]);
    assert_eq!(longest, LONGEST_TEXT);
}

/// An image and a change file: each limit once, then any.
fn fold_inputs(rng: &mut Rng, number: usize) -> (Vec<u8>, Vec<u8>) {
    if number < generate::FOLD_LIMITS {
        return generate::fold_limit(rng, number);
    }
    let image = match number - generate::FOLD_LIMITS {
        which @ 0..generate::LIMITS => generate::limit(rng, which),
        number if number % 5 == 0 => generate::damaged(rng),
        _ => generate::sound(rng),
    };
    let checked = model::check(&image);
    let aims = Aims::new(&image, &checked);
    let changes = generate::changes(rng, &aims, &generate::drafts_of(&image, &checked));
    (image, changes)
}

#[test]
fn same_folds() {
    let mut rng = Rng::new(7);
    let mut reasons = [0; 13];
    // by defect, under reasons 2 and 12
    let (mut before, mut after) = ([0; 8], [0; 8]);
    for number in 0..20_000 {
        let (image, changes) = fold_inputs(&mut rng, number);
        let made = model::final_image(&image, &model::check(&image), &changes);
        let length = made.as_ref().map_or(0, Vec::len);
        let room = generate::byte_room(&mut rng, length);
        let plain = |out: &mut [u8]| model::put_final(&made, out);
        let expected: (Folded, _) = with_room(room, FILL_BYTE, plain);
        assert!(
            with_room(room, FILL_BYTE, |out| fast::fold(&image, &changes, out)) == expected,
            "{changes:02x?} into {image:02x?}, {room} bytes lent"
        );
        reasons[expected.0.reason as usize] += 1;
        match expected.0.reason {
            2 => before[expected.0.defect as usize] += 1,
            12 => after[expected.0.defect as usize] += 1,
            _ => {}
        }
    }
    println!("folds by reason from 0: {reasons:?}, by defect: {before:?}, {after:?}");
    assert_occurred(&reasons, &[0, 2, 9, 11, 12]);
    assert_occurred(&before, &[1, 2, 3, 4, 5, 6, 7]);
    assert_occurred(&after, &[1, 3, 7]);
}

/// These occurred, and no others.
fn assert_occurred(counts: &[u32], wanted: &[usize]) {
    let found: Vec<usize> = (0..counts.len()).filter(|&at| counts[at] > 0).collect();
    assert_eq!(found, wanted);
}

#[test]
fn same_defects() {
    let mut rng = Rng::new(3);
    let mut defects = [0; 8];
    for number in 0..20_000 {
        let image = match number {
            0..generate::LIMITS => generate::limit(&mut rng, number),
            _ => generate::damaged(&mut rng),
        };
        let expected = model::check(&image).err();
        assert_eq!(
            fast::check(&image).err(),
            expected,
            "{}",
            image.escape_ascii()
        );
        defects[expected.map_or(0, |found| found.defect) as usize] += 1;
        if expected.is_some() {
            assert!(fast::handle(&image, 0).is_empty());
            assert!(fast::name(&image, 0).is_empty());
            assert!(fast::range(&image, 0).is_empty());
        }
    }
    println!("images by defect from 0: {defects:?}");
    assert!(defects.iter().all(|&images| images > 0), "{defects:?}");
}

/// Many blocks of one family.
#[test]
fn same_on_large_images() {
    let mut rng = Rng::new(4);
    for _ in 0..6 {
        let image = generate::many_blocks(&mut rng);
        let checked = model::check(&image);
        assert!(checked.is_ok());
        let aims = Aims::new(&image, &checked);
        for _ in 0..4 {
            let path = generate::path(&mut rng, &aims);
            assert_eq!(
                with_list(4096, |list| fast::answer(&path, &image, list)),
                with_list(4096, |list| model::answer_checked(
                    &path, &image, &checked, list
                )),
            );
        }
        let text = generate::batch(&mut rng, &aims);
        assert_eq!(
            with_list(4096, |list| fast::batch(&text, &image, list)),
            with_list(4096, |list| model::batch_checked(
                &text, &image, &checked, list
            )),
        );
        let record = generate::record(&mut rng, &aims);
        for relation in RELATIONS {
            assert_eq!(
                with_list(4096, |list| fast::relation(&image, record, relation, list)),
                with_list(4096, |list| model::relation_checked(
                    &checked, record, relation, list
                )),
            );
        }
    }
}
