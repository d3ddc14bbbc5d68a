//! Numbers without a pattern, the same for the same seed and index.

use std::ops::RangeInclusive;

/// splitmix64: a counter that goes on by an odd step, each value mixed.
pub struct Random {
    counter: u64,
}

impl Random {
    pub fn of(seed: u64, index: u64) -> Random {
        let mut seeds = Random { counter: seed };
        Random { counter: seeds.number() ^ Random { counter: index }.number() }
    }

    pub fn number(&mut self) -> u64 {
        self.counter = self.counter.wrapping_add(0x9E37_79B9_7F4A_7C15);
        let mixed = self.counter;
        let mixed = (mixed ^ mixed >> 30).wrapping_mul(0xBF58_476D_1CE4_E5B9);
        let mixed = (mixed ^ mixed >> 27).wrapping_mul(0x94D0_49BB_1331_11EB);
        mixed ^ mixed >> 31
    }

    pub fn below(&mut self, bound: u64) -> u64 {
        self.number() % bound
    }

    pub fn between(&mut self, range: RangeInclusive<u64>) -> u64 {
        range.start() + self.below(range.end() - range.start() + 1)
    }

    pub fn one_in(&mut self, bound: u64) -> bool {
        self.below(bound) == 0
    }

    pub fn index(&mut self, length: usize) -> usize {
        self.below(length as u64) as usize
    }

    pub fn pick<T: Copy>(&mut self, items: &[T]) -> T {
        items[self.index(items.len())]
    }

    pub fn byte(&mut self) -> u8 {
        self.below(256) as u8
    }

    /// Fewer bytes than a bound, perhaps none.
    pub fn bytes_below(&mut self, bound: usize) -> Vec<u8> {
        (0..self.index(bound)).map(|_| self.byte()).collect()
    }

    pub fn shuffle<T>(&mut self, items: &mut [T]) {
        for end in (1..items.len()).rev() {
            items.swap(end, self.index(end + 1));
        }
    }

    /// A number of a range: often one of its ends or next to one, else of any magnitude.
    pub fn near_ends(&mut self, range: RangeInclusive<u64>) -> u64 {
        let (least, most) = (*range.start(), *range.end());
        match self.below(8) {
            0 => least,
            1 => most,
            2 => (least + 1).min(most),
            3 => most.saturating_sub(1).max(least),
            4 | 5 => self.between(range),
            _ => least + (self.number() >> self.below(64)) % (most - least + 1),
        }
    }
}
