//! Numbers that look random and come again with their seed (the generator splitmix64).

use std::time::{SystemTime, UNIX_EPOCH};

use second::LIMIT;

use crate::logs::OLD_LIMIT;

pub struct Random(u64);

impl Random {
    pub fn new(seed: u64) -> Random {
        Random(seed)
    }

    pub fn next(&mut self) -> u64 {
        self.0 = self.0.wrapping_add(0x9e37_79b9_7f4a_7c15);
        let mut mixed = self.0;
        mixed = (mixed ^ (mixed >> 30)).wrapping_mul(0xbf58_476d_1ce4_e5b9);
        mixed = (mixed ^ (mixed >> 27)).wrapping_mul(0x94d0_49bb_1331_11eb);
        mixed ^ (mixed >> 31)
    }

    /// A number below the end, which is not 0.
    pub fn below(&mut self, end: u64) -> u64 {
        self.next() % end
    }

    /// A number from first to last, both included.
    pub fn between(&mut self, first: u64, last: u64) -> u64 {
        first + self.below(last - first + 1)
    }

    /// A number from 1 to the most, small ones as likely as large ones.
    pub fn of_any_size(&mut self, most: u64) -> u64 {
        let bits = u64::from(64 - most.leading_zeros());
        let top = 1 << self.between(1, bits);
        self.below(top).clamp(1, most)
    }

    /// A place in something of that length, which is not 0.
    pub fn place(&mut self, length: usize) -> usize {
        self.below(length as u64) as usize
    }

    /// True once in so many times.
    pub fn once_in(&mut self, times: u64) -> bool {
        self.below(times) == 0
    }

    pub fn bytes(&mut self, length: usize) -> Vec<u8> {
        (0..length).map(|_| self.next() as u8).collect()
    }

    /// The number itself, one beside it, or one of those at which a sum or a shift could slip.
    pub fn number_near(&mut self, number: u64) -> u64 {
        let small = [0, 1, OLD_LIMIT, OLD_LIMIT + 1, 1 << 31, LIMIT - 1, LIMIT];
        let over = [LIMIT + 1, LIMIT + 2, 1 << 63, u64::MAX - 1, u64::MAX];
        let turned = [20, 31, 32, 40].map(|bit| number ^ (1 << bit));
        let at_the_ends = [&small[..], &over, &turned].concat();
        match self.below(6) {
            0 => number.wrapping_add(1),
            1 => number.wrapping_sub(1),
            2 => at_the_ends[self.place(at_the_ends.len())],
            3 => self.below(number.max(1)),
            _ => number,
        }
    }
}

/// A seed that no run before had.
pub fn fresh_seed() -> u64 {
    let now = SystemTime::now().duration_since(UNIX_EPOCH).expect("a clock after 1970");
    Random::new(now.as_nanos() as u64).next()
}
