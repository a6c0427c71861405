//! A small seeded generator: the same seed gives the same vectors.

use crate::layout::word;

/// SplitMix64.
pub struct Rng {
    state: u64,
}

impl Rng {
    pub fn new(seed: u64) -> Rng {
        Rng { state: seed }
    }

    fn next(&mut self) -> u64 {
        self.state = self.state.wrapping_add(0x9E37_79B9_7F4A_7C15);
        let mixed = (self.state ^ (self.state >> 30)).wrapping_mul(0xBF58_476D_1CE4_E5B9);
        let mixed = (mixed ^ (mixed >> 27)).wrapping_mul(0x94D0_49BB_1331_11EB);
        mixed ^ (mixed >> 31)
    }

    /// A number below the limit, which is not 0.
    pub fn below(&mut self, limit: usize) -> usize {
        let remainder = self.next() % limit as u64;
        remainder as usize
    }

    /// A number from `least` to `most`, both included.
    pub fn between(&mut self, least: usize, most: usize) -> usize {
        least + self.below(most - least + 1)
    }

    /// True in about this many of a hundred calls.
    pub fn percent(&mut self, share: usize) -> bool {
        self.below(100) < share
    }

    /// A word anywhere in 0..65535.
    pub fn any_word(&mut self) -> u16 {
        (self.next() >> 48) as u16
    }

    /// A word in which the ends of ranges are common.
    pub fn word(&mut self) -> u16 {
        let any = self.any_word();
        *self.pick(&[0, 1, 2, 255, 256, 32768, 65535, any, any, any])
    }

    /// A word near an old one, or one below a limit, or any.
    pub fn changed(&mut self, old: u16, limit: usize) -> u16 {
        match self.below(5) {
            0 => old.wrapping_add(1),
            1 => old.wrapping_sub(1),
            2 => old ^ (1 << self.below(16)),
            3 => word(self.below(limit)),
            _ => self.word(),
        }
    }

    /// A character, 0..255, in which both ends are common.
    pub fn character(&mut self) -> u16 {
        let any = self.any_word() % 256;
        *self.pick(&[0, 255, any, any])
    }

    /// One of a list that is not empty.
    pub fn pick<'a, T>(&mut self, list: &'a [T]) -> &'a T {
        &list[self.below(list.len())]
    }

    pub fn shuffle<T>(&mut self, list: &mut [T]) {
        for last in (1..list.len()).rev() {
            list.swap(last, self.below(last + 1));
        }
    }
}
