//! Compares every public function with the model, call by call: the reply, the
//! whole list, entries, text or final image afterwards or the part, and that
//! nothing beside them was written. Folds of two files in turn are compared with
//! those of their joining, too.
//!
//!     compare [--calls N] [--seed S] [--seconds T] [--image I] [--trace]
//!
//! N calls of each function (100,000), from the seed S (1), for at most T
//! seconds (100). Among 100,000 folds each of their reasons and defects must occur,
//! and each of their reasons among so many lists of prefixes or texts of addresses.
//! Every image has a number; `--image I` runs the calls on that one only, and
//! `--trace` writes each call to standard error before it is made.
//! With the feature `ffi` the library is compared, else bench/fast.

use model::generate::{self, Aims, Draft, Rng};
use model::{Checked, Counted, Folded, Relation, LONGEST_CHANGES, RELATIONS};
use std::process::ExitCode;
use std::time::{Duration, Instant};

const FUNCTIONS: [&str; 12] = [
    "rdap_answer",
    "rdap_up",
    "rdap_down",
    "rdap_top",
    "rdap_bottom",
    "rdap_handle",
    "rdap_name",
    "rdap_batch",
    "rdap_range",
    "rdap_prefixes",
    "rdap_fold",
    "rdap_address_text",
];
const ANSWER: usize = 0;
const HANDLE: usize = 5;
const NAME: usize = 6;
const BATCH: usize = 7;
const RANGE: usize = 8;
const PREFIXES: usize = 9;
const FOLD: usize = 10;
const ADDRESS_TEXT: usize = 11;

/// How often each reason occurred.
type Reasons = [u64; 13];

/// After so many differences the run stops.
const ENOUGH: u64 = 10;

/// Among so many calls of a function each of their reasons and defects occurs.
const MANY: u64 = 100_000;

/// Whether something that is wanted did not occur.
fn lacks(counts: &[u64], wanted: &[usize]) -> bool {
    wanted.iter().any(|&at| counts[at] == 0)
}

/// What occurred among the calls on a range or on an address.
#[derive(Default)]
struct Counts {
    reasons: Reasons,
    largest: u32,
}

impl Counts {
    fn note(&mut self, reply: Counted) {
        self.reasons[reply.reason as usize] += 1;
        self.largest = self.largest.max(reply.count);
    }

    /// Whether something that should have occurred did not.
    fn lack(&self) -> bool {
        lacks(&self.reasons, &[0, 6, 9])
    }
}

/// What occurred among the folds.
#[derive(Default)]
struct Folds {
    reasons: Reasons,
    /// By defect, of the images (reason 2) and of the final images (reason 12).
    before: [u64; 8],
    after: [u64; 8],
    joined: u64,
}

impl Folds {
    fn note(&mut self, reply: Folded) {
        self.reasons[reply.reason as usize] += 1;
        match reply.reason {
            2 => self.before[reply.defect as usize] += 1,
            12 => self.after[reply.defect as usize] += 1,
            _ => {}
        }
    }

    /// Whether something that should have occurred did not.
    fn lack(&self) -> bool {
        lacks(&self.reasons, &[0, 2, 9, 11, 12])
            || lacks(&self.before, &[1, 2, 3, 4, 5, 6, 7])
            || lacks(&self.after, &[1, 3, 7])
            || self.joined == 0
    }
}

/// An image, what the model says of it, and what is aimed at.
struct Base {
    image: Vec<u8>,
    checked: Checked,
    aims: Aims,
    drafts: Vec<Draft>,
}

impl Base {
    fn new(image: Vec<u8>) -> Base {
        let checked = model::check(&image);
        Base {
            aims: Aims::new(&image, &checked),
            drafts: generate::drafts_of(&image, &checked),
            image,
            checked,
        }
    }
}

struct Options {
    calls: u64,
    seed: u64,
    seconds: u64,
    image: Option<u64>,
    trace: bool,
}

fn options() -> Result<Options, String> {
    let mut options = Options {
        calls: 100_000,
        seed: 1,
        seconds: 100,
        image: None,
        trace: false,
    };
    let mut words = std::env::args().skip(1);
    while let Some(word) = words.next() {
        if word == "--trace" {
            options.trace = true;
            continue;
        }
        let number = words
            .next()
            .and_then(|number| number.parse().ok())
            .ok_or_else(|| format!("{word}: a number is missing"))?;
        match word.as_str() {
            "--calls" => options.calls = number,
            "--seed" => options.seed = number,
            "--seconds" => options.seconds = number,
            "--image" => options.image = Some(number),
            _ => return Err(format!("{word}: no such option")),
        }
    }
    Ok(options)
}

/// A buffer between two guards.
struct Guarded<T> {
    cells: Vec<T>,
    guard: T,
    start: usize,
    length: usize,
}

const GUARD: usize = 64;

impl<T: Copy + PartialEq> Guarded<T> {
    fn new(guard: T) -> Guarded<T> {
        Guarded {
            cells: Vec::new(),
            guard,
            start: GUARD,
            length: 0,
        }
    }

    /// Places new contents, `shift` cells after the usual place.
    fn place(&mut self, contents: impl ExactSizeIterator<Item = T>, shift: usize) {
        self.start = GUARD + shift;
        self.length = contents.len();
        self.cells.clear();
        self.cells.resize(self.start, self.guard);
        self.cells.extend(contents);
        self.cells
            .resize(self.start + self.length + GUARD, self.guard);
    }

    fn contents(&self) -> &[T] {
        &self.cells[self.start..][..self.length]
    }

    fn contents_mut(&mut self) -> &mut [T] {
        &mut self.cells[self.start..][..self.length]
    }

    fn is_intact(&self) -> bool {
        let end = self.start + self.length;
        self.cells[..self.start]
            .iter()
            .chain(&self.cells[end..])
            .all(|&cell| cell == self.guard)
    }
}

/// What a place of the list holds before a call.
fn pattern(place: usize) -> u32 {
    0xA5A5_0000 ^ (place as u32).wrapping_mul(0x0001_0003)
}

/// The same for a byte among the entries, of the text or of the final image.
fn byte_pattern(place: usize) -> u8 {
    pattern(place) as u8 ^ 0xA5
}

/// The image of this number: each limit once, then any.
fn draw(number: u64, rng: &mut Rng) -> Vec<u8> {
    match (number as usize, rng.below(1000)) {
        (which @ 0..generate::LIMITS, _) => generate::limit(rng, which),
        (_, 0 | 1) => generate::many_blocks(rng),
        (_, 2..=799) => generate::damaged(rng),
        _ => generate::sound(rng),
    }
}

struct Run {
    options: Options,
    calls: [u64; FUNCTIONS.len()],
    reasons: Reasons,
    /// Those of the batches, and of the answers within them.
    batches: Reasons,
    answers: Reasons,
    lists: Counts,
    texts: Counts,
    folds: Folds,
    defects: [u64; 8],
    failed: u64,
    path: Guarded<u8>,
    image: Guarded<u8>,
    list: Guarded<u32>,
    out: Guarded<u8>,
    reply: Guarded<u32>,
}

impl Run {
    fn new(options: Options) -> Run {
        Run {
            options,
            calls: [0; FUNCTIONS.len()],
            reasons: Reasons::default(),
            batches: Reasons::default(),
            answers: Reasons::default(),
            lists: Counts::default(),
            texts: Counts::default(),
            folds: Folds::default(),
            defects: [0; 8],
            failed: 0,
            path: Guarded::new(0xC3),
            image: Guarded::new(0x3C),
            list: Guarded::new(0xDEAD_BEEF),
            out: Guarded::new(0x96),
            reply: Guarded::new(0xFEED_F00D),
        }
    }

    fn is_finished(&self) -> bool {
        self.calls.iter().all(|&calls| calls >= self.options.calls) || self.failed >= ENOUGH
    }

    fn image(&mut self, number: u64) {
        let mut rng = Rng::part(self.options.seed, number);
        let base = Base::new(draw(number, &mut rng));
        let (image, checked, aims) = (&base.image, &base.checked, &base.aims);
        self.defects[checked.as_ref().err().map_or(0, |found| found.defect) as usize] += 1;
        // The model is slow on large images, and a defective one has but one
        // answer.
        let rounds = match checked {
            Ok(_) if !aims.is_large() => 60,
            _ => 3,
        };
        let shift = rng.below(8);
        self.image.place(image.iter().copied(), shift);
        for _ in 0..rounds {
            if self.failed >= ENOUGH {
                return;
            }
            let path = generate::path(&mut rng, aims);
            self.answer(number, &mut rng, &path, image, checked);
            self.batch(number, &mut rng, aims, image, checked);
            for relation in RELATIONS {
                let record = generate::record(&mut rng, aims);
                self.relation(number, &mut rng, relation, record, image, checked);
            }
            for function in [HANDLE, NAME, RANGE] {
                let record = generate::record(&mut rng, aims);
                self.part(number, function, record, image, checked);
            }
            self.prefixes(number, &mut rng, aims);
            self.folds(number, &mut rng, &base);
            self.address_text(number, &mut rng, aims);
        }
        if (number as usize) < generate::FOLD_LIMITS {
            self.fold_limit(number, &mut rng);
        }
    }

    fn answer(&mut self, number: u64, rng: &mut Rng, path: &[u8], image: &[u8], checked: &Checked) {
        let mut expected: Vec<u32> = (0..model::MOST_RECORDS).map(pattern).collect();
        let full = model::answer_checked(path, image, checked, &mut expected);
        let places = generate::places(rng, full.count as usize);
        let mut expected: Vec<u32> = (0..places).map(pattern).collect();
        let wanted = model::answer_checked(path, image, checked, &mut expected);

        self.on_text(number, rng, ANSWER, path, image, wanted, &expected);
    }

    fn batch(&mut self, number: u64, rng: &mut Rng, aims: &Aims, image: &[u8], checked: &Checked) {
        let text = generate::batch(rng, aims);
        let places = generate::enough_places(&text, aims);
        let mut expected: Vec<u32> = (0..places).map(pattern).collect();
        let mut wanted = model::batch_checked(&text, image, checked, &mut expected);
        if !rng.once_in(3) {
            let answers = generate::answers(&expected, wanted.count);
            let places = generate::batch_places(rng, &answers);
            expected = (0..places).map(pattern).collect();
            wanted = model::batch_checked(&text, image, checked, &mut expected);
        }
        self.batches[wanted.reason as usize] += 1;
        for (reason, _) in generate::answers(&expected, wanted.count) {
            self.answers[reason as usize] += 1;
        }

        self.on_text(number, rng, BATCH, &text, image, wanted, &expected);
    }

    /// Makes a call that takes a path or a text of paths.
    #[allow(clippy::too_many_arguments)]
    fn on_text(
        &mut self,
        number: u64,
        rng: &mut Rng,
        function: usize,
        text: &[u8],
        image: &[u8],
        wanted: model::Reply,
        expected: &[u32],
    ) {
        self.trace(number, function, || text.escape_ascii().to_string());
        self.prepare(rng, text, expected.len());
        let call = if function == BATCH {
            subject::batch
        } else {
            subject::answer
        };
        call(
            self.path.contents(),
            self.image.contents(),
            self.list.contents_mut(),
            as_words(&mut self.reply),
        );
        let unchanged = self.path.contents() == text && self.path.is_intact();
        self.judge(
            number, function, text, 0, image, wanted, expected, unchanged,
        );
    }

    fn relation(
        &mut self,
        number: u64,
        rng: &mut Rng,
        relation: Relation,
        record: u32,
        image: &[u8],
        checked: &Checked,
    ) {
        let mut expected: Vec<u32> = (0..model::MOST_RECORDS).map(pattern).collect();
        let full = model::relation_checked(checked, record, relation, &mut expected);
        let places = generate::places(rng, full.count as usize);
        let mut expected: Vec<u32> = (0..places).map(pattern).collect();
        let wanted = model::relation_checked(checked, record, relation, &mut expected);

        let function = relation as usize;
        self.trace(number, function, || format!("record {record}"));
        self.prepare(rng, &[], places);
        subject::relation(
            relation,
            self.image.contents(),
            record,
            self.list.contents_mut(),
            as_words(&mut self.reply),
        );
        self.judge(
            number,
            function,
            &[],
            record,
            image,
            wanted,
            &expected,
            true,
        );
    }

    /// New buffers, and none of them where the last one was.
    fn prepare(&mut self, rng: &mut Rng, path: &[u8], places: usize) {
        self.path.place(path.iter().copied(), rng.below(8));
        self.list.place((0..places).map(pattern), rng.below(4));
        self.reply.place([0xFFFF_FFFF; 7].into_iter(), rng.below(4));
    }

    #[allow(clippy::too_many_arguments)]
    fn judge(
        &mut self,
        number: u64,
        function: usize,
        path: &[u8],
        record: u32,
        image: &[u8],
        wanted: model::Reply,
        expected: &[u32],
        unchanged: bool,
    ) {
        self.calls[function] += 1;
        self.reasons[wanted.reason as usize] += 1;
        let same_reply = self.reply.contents() == wanted.numbers();
        let same_list = self.list.contents() == expected;
        let intact = self.list.is_intact() && self.reply.is_intact();
        if same_reply && same_list && intact && unchanged && self.image_is_whole(image) {
            return;
        }
        self.report_on(number, function, image);
        if function == ANSWER || function == BATCH {
            println!("  text     {}", path.escape_ascii());
            println!("  in hex   {}", hex(path));
        } else {
            println!("  record   {record}");
        }
        println!("  places   {}", expected.len());
        println!("  reply    status reason kind relation count defect place");
        println!("  expected {:?}", wanted.numbers());
        println!("  got      {:?}", self.reply.contents());
        if !same_list {
            show_difference("list", expected, self.list.contents());
        }
        if !intact || !unchanged || !self.image_is_whole(image) {
            println!("  a byte beside the buffers, or an input, was written");
            self.image.place(image.iter().copied(), 0);
        }
    }

    fn part(&mut self, number: u64, function: usize, record: u32, image: &[u8], checked: &Checked) {
        type Plain = fn(&Checked, u32) -> (u32, u32);
        type Call = fn(&[u8], u32, &mut [u32; 2]);
        let (plain, call): (Plain, Call) = match function {
            HANDLE => (model::handle_part, subject::handle),
            NAME => (model::name_part, subject::name),
            _ => (model::range_part, subject::range),
        };
        let wanted: [u32; 2] = plain(checked, record).into();
        self.trace(number, function, || format!("record {record}"));
        self.reply.place([0xFFFF_FFFF; 2].into_iter(), 0);
        call(self.image.contents(), record, as_words(&mut self.reply));
        self.calls[function] += 1;
        if self.reply.contents() == wanted && self.reply.is_intact() && self.image_is_whole(image) {
            return;
        }
        self.report_on(number, function, image);
        println!("  record   {record}");
        println!("  expected {wanted:?} (offset, length)");
        println!("  got      {:?}", self.reply.contents());
        if !self.reply.is_intact() || !self.image_is_whole(image) {
            println!("  a byte beside the buffers, or the image, was written");
            self.image.place(image.iter().copied(), 0);
        }
    }

    fn prefixes(&mut self, number: u64, rng: &mut Rng, aims: &Aims) {
        let range = generate::range(rng, aims);
        let full = model::prefixes(&range, &mut []);
        let room = generate::room(rng, &range, full.count as usize);
        let wanted = self.on_bytes(number, rng, PREFIXES, &range, room);
        self.lists.note(wanted);
    }

    fn address_text(&mut self, number: u64, rng: &mut Rng, aims: &Aims) {
        let address = generate::address(rng, aims);
        let full = model::address_text(&address, &mut []);
        let room = generate::byte_room(rng, full.count as usize);
        let wanted = self.on_bytes(number, rng, ADDRESS_TEXT, &address, room);
        self.texts.note(wanted);
    }

    /// Makes a call that takes a range or an address; what it is to reply.
    fn on_bytes(
        &mut self,
        number: u64,
        rng: &mut Rng,
        function: usize,
        input: &[u8],
        room: usize,
    ) -> Counted {
        type Plain = fn(&[u8], &mut [u8]) -> Counted;
        type Call = fn(&[u8], &mut [u8], &mut [u32; 2]);
        let (plain, call): (Plain, Call) = match function {
            PREFIXES => (model::prefixes, subject::prefixes),
            _ => (model::address_text, subject::address_text),
        };
        let mut expected: Vec<u8> = (0..room).map(byte_pattern).collect();
        let wanted = plain(input, &mut expected);
        self.calls[function] += 1;

        self.trace(number, function, || {
            format!("{} in {room} bytes", hex(input))
        });
        self.prepare_bytes(rng, input, room, wanted.numbers().len());
        call(
            self.path.contents(),
            self.out.contents_mut(),
            as_words(&mut self.reply),
        );
        self.judge_bytes(number, function, input, None, &wanted.numbers(), &expected);
        wanted
    }

    fn fold_limit(&mut self, number: u64, rng: &mut Rng) {
        let (image, changes) = generate::fold_limit(rng, number as usize);
        self.image.place(image.iter().copied(), rng.below(8));
        self.fold(number, rng, &Base::new(image), &changes, None);
    }

    /// A fold into the image that is placed, or two in turn and their joining.
    fn folds(&mut self, number: u64, rng: &mut Rng, base: &Base) {
        let first = generate::changes(rng, &base.aims, &base.drafts);
        if !rng.once_in(4) {
            self.fold(number, rng, base, &first, None);
            return;
        }
        let room = base.image.len() + first.len();
        let Some(middle) = self.fold(number, rng, base, &first, Some(room)) else {
            return;
        };
        let middle = Base::new(middle);
        let second = generate::changes(rng, &middle.aims, &middle.drafts);
        let room = middle.image.len() + second.len();
        self.image.place(middle.image.iter().copied(), rng.below(8));
        let last = self.fold(number, rng, &middle, &second, Some(room));
        self.image.place(base.image.iter().copied(), rng.below(8));
        let joining = [first, second].concat();
        if last.is_some() && joining.len() <= LONGEST_CHANGES {
            self.join(number, rng, base, &joining);
        }
    }

    /// "Folding two files in turn equals folding their joining, all numbers and
    /// bytes": the fold of the second file was the last call.
    fn join(&mut self, number: u64, rng: &mut Rng, base: &Base, joining: &[u8]) {
        let reply = self.reply.contents().to_vec();
        let out = self.out.contents().to_vec();
        self.folds.joined += 1;
        self.fold(number, rng, base, joining, Some(out.len()));
        if self.reply.contents() != reply || self.out.contents() != out {
            self.report_on(number, FOLD, &base.image);
            println!("  joining  {}", hex_start(joining));
            println!("  in turn  {reply:?}");
            println!("  joined   {:?}", self.reply.contents());
        }
    }

    /// Folds a file into the image that is placed, into so many bytes if they are
    /// given. The final image, if it was written.
    fn fold(
        &mut self,
        number: u64,
        rng: &mut Rng,
        base: &Base,
        changes: &[u8],
        room: Option<usize>,
    ) -> Option<Vec<u8>> {
        let made = model::final_image(&base.image, &base.checked, changes);
        let length = made.as_ref().map_or(0, Vec::len);
        let room = room.unwrap_or_else(|| generate::byte_room(rng, length));
        let mut expected: Vec<u8> = (0..room).map(byte_pattern).collect();
        let wanted = model::put_final(&made, &mut expected);
        self.calls[FOLD] += 1;
        self.folds.note(wanted);

        self.trace(number, FOLD, || format!("{} in {room} bytes", hex(changes)));
        self.prepare_bytes(rng, changes, room, wanted.numbers().len());
        subject::fold(
            self.image.contents(),
            self.path.contents(),
            self.out.contents_mut(),
            as_words(&mut self.reply),
        );
        let image = Some(&base.image[..]);
        self.judge_bytes(number, FOLD, changes, image, &wanted.numbers(), &expected);
        made.ok().filter(|_| wanted.reason == 0)
    }

    /// New buffers for a call that bytes are lent to.
    fn prepare_bytes(&mut self, rng: &mut Rng, input: &[u8], room: usize, words: usize) {
        self.path.place(input.iter().copied(), rng.below(8));
        self.out.place((0..room).map(byte_pattern), rng.below(8));
        self.reply
            .place((0..words).map(|_| 0xFFFF_FFFF), rng.below(4));
    }

    /// Judges such a call on a range or an address, or on a change file and an
    /// image.
    fn judge_bytes(
        &mut self,
        number: u64,
        function: usize,
        input: &[u8],
        image: Option<&[u8]>,
        wanted: &[u32],
        expected: &[u8],
    ) {
        let same_reply = self.reply.contents() == wanted;
        let same_out = self.out.contents() == expected;
        let intact = self.out.is_intact() && self.reply.is_intact();
        let unchanged = self.path.contents() == input
            && self.path.is_intact()
            && image.is_none_or(|image| self.image_is_whole(image));
        if same_reply && same_out && intact && unchanged {
            return;
        }
        match image {
            Some(image) => self.report_on(number, function, image),
            None => self.report(number, function),
        }
        println!("  input    {}", hex_start(input));
        println!("  room     {} bytes", expected.len());
        println!("  expected {wanted:?}");
        println!("  got      {:?}", self.reply.contents());
        if !same_out {
            show_difference("out", expected, self.out.contents());
        }
        if !intact || !unchanged {
            println!("  a byte beside the buffers, or an input, was written");
            if let Some(image) = image {
                self.image.place(image.iter().copied(), 0);
            }
        }
    }

    fn image_is_whole(&self, image: &[u8]) -> bool {
        self.image.contents() == image && self.image.is_intact()
    }

    fn report(&mut self, number: u64, function: usize) {
        self.failed += 1;
        println!(
            "{} differs; again with --seed {} --image {number}",
            FUNCTIONS[function], self.options.seed
        );
    }

    fn report_on(&mut self, number: u64, function: usize, image: &[u8]) {
        self.report(number, function);
        println!("  image    {} bytes", image.len());
        println!("  {}", hex_start(image));
    }

    fn summarize(&self, elapsed: Duration) {
        println!(
            "{} and the model, seed {}, {} images, {:.1} s",
            subject::NAME,
            self.options.seed,
            self.defects.iter().sum::<u64>(),
            elapsed.as_secs_f64()
        );
        println!("images by defect, from 0 (sound): {:?}", self.defects);
        println!("replies by reason, from 0: {:?}", self.reasons);
        println!("of these, batches: {:?}", self.batches);
        println!("answers in batches, by reason: {:?}", self.answers);
        println!(
            "lists of prefixes, by reason: {:?}; at most {} prefixes",
            self.lists.reasons, self.lists.largest
        );
        println!(
            "texts of addresses, by reason: {:?}; at most {} bytes",
            self.texts.reasons, self.texts.largest
        );
        println!(
            "folds, by reason: {:?}; {} of them joinings",
            self.folds.reasons, self.folds.joined
        );
        println!(
            "folds by defect, reason 2: {:?}, reason 12: {:?}",
            self.folds.before, self.folds.after
        );
        for (name, calls) in FUNCTIONS.iter().zip(self.calls) {
            println!("{name:17} {calls:>9} calls");
        }
    }

    /// Whether something did not occur among many calls of a function.
    fn lacks(&self) -> bool {
        let lack = [
            (FOLD, self.folds.lack()),
            (PREFIXES, self.lists.lack()),
            (ADDRESS_TEXT, self.texts.lack()),
        ];
        lack.iter()
            .any(|&(function, lack)| lack && self.calls[function] >= MANY)
    }

    fn trace(&self, number: u64, function: usize, asked: impl FnOnce() -> String) {
        if self.options.trace {
            eprintln!("image {number}: {} {}", FUNCTIONS[function], asked());
        }
    }
}

fn as_words<const N: usize>(buffer: &mut Guarded<u32>) -> &mut [u32; N] {
    buffer.contents_mut().try_into().expect("so many words")
}

fn hex(bytes: &[u8]) -> String {
    bytes.iter().map(|byte| format!("{byte:02x}")).collect()
}

/// Short bytes are shown; longer ones the options make again.
fn hex_start(bytes: &[u8]) -> String {
    let shown = bytes.len().min(4096);
    let more = if shown < bytes.len() { "..." } else { "" };
    hex(&bytes[..shown]) + more
}

fn show_difference<T: PartialEq + std::fmt::LowerHex>(name: &str, expected: &[T], got: &[T]) {
    let mut pairs = expected.iter().zip(got).enumerate();
    if let Some((at, (expected, got))) = pairs.find(|(_, (expected, got))| expected != got) {
        println!("  {name:8} place {at}: expected {expected:#x}, got {got:#x}");
    }
}

fn main() -> ExitCode {
    let options = match options() {
        Ok(options) => options,
        Err(message) => {
            eprintln!("{message}");
            return ExitCode::FAILURE;
        }
    };
    let start = Instant::now();
    let limit = Duration::from_secs(options.seconds);
    let only = options.image;
    let mut run = Run::new(options);
    match only {
        Some(number) => run.image(number),
        None => {
            for number in 0.. {
                if run.is_finished() || start.elapsed() >= limit {
                    break;
                }
                run.image(number);
            }
        }
    }
    if run.lacks() {
        println!("a reason or a defect of the folds, the lists or the texts did not occur");
        run.failed += 1;
    }
    run.summarize(start.elapsed());
    let all: u64 = run.calls.iter().sum();
    println!("{} passed, {} failed", all - run.failed, run.failed);
    if run.failed == 0 && all > 0 {
        ExitCode::SUCCESS
    } else {
        ExitCode::FAILURE
    }
}
