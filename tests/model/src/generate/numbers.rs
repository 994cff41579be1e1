//! Random numbers, made from a seed.

use crate::Range;

/// SplitMix64.
pub struct Rng(u64);

impl Rng {
    pub fn new(seed: u64) -> Rng {
        Rng(seed)
    }

    /// A generator for the part `part` of the run with this seed.
    pub fn part(seed: u64, part: u64) -> Rng {
        let mut rng = Rng(seed ^ part.wrapping_mul(0xD129_0E2B_95C0_7A4D));
        rng.word64();
        rng
    }

    pub fn word64(&mut self) -> u64 {
        self.0 = self.0.wrapping_add(0x9E37_79B9_7F4A_7C15);
        let mut word = self.0;
        word = (word ^ (word >> 30)).wrapping_mul(0xBF58_476D_1CE4_E5B9);
        word = (word ^ (word >> 27)).wrapping_mul(0x94D0_49BB_1331_11EB);
        word ^ (word >> 31)
    }

    /// From 0 to `bound` less 1.
    pub fn below(&mut self, bound: usize) -> usize {
        (self.word64() % bound as u64) as usize
    }

    /// From `low` to `high`.
    pub fn between(&mut self, low: usize, high: usize) -> usize {
        low + self.below(high - low + 1)
    }

    /// True once in `times`.
    pub fn once_in(&mut self, times: usize) -> bool {
        self.below(times) == 0
    }

    pub fn pick<'a, T>(&mut self, items: &'a [T]) -> &'a T {
        &items[self.below(items.len())]
    }

    /// One of the words of a line, which a space parts; a line that starts with
    /// a space has an empty word.
    pub(super) fn word(&mut self, line: &'static str) -> &'static [u8] {
        let words: Vec<&str> = line.split(' ').collect();
        self.pick(&words).as_bytes()
    }

    pub fn wide(&mut self) -> u128 {
        u128::from(self.word64()) << 64 | u128::from(self.word64())
    }

    /// An address in a range.
    pub(super) fn within(&mut self, range: Range) -> u128 {
        match (range.last - range.first).checked_add(1) {
            Some(size) => range.first + self.wide() % size,
            None => self.wide(),
        }
    }
}
