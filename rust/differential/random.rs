//! Numbers that repeat from a seed.

use super::width::{BITS, M};

pub struct Random(u64);

impl Random {
    pub fn new(seed: u64) -> Random {
        Random(seed)
    }

    /// SplitMix64.
    pub fn next(&mut self) -> u64 {
        self.0 = self.0.wrapping_add(0x9e37_79b9_7f4a_7c15);
        let mut mixed = self.0;
        mixed = (mixed ^ (mixed >> 30)).wrapping_mul(0xbf58_476d_1ce4_e5b9);
        mixed = (mixed ^ (mixed >> 27)).wrapping_mul(0x94d0_49bb_1331_11eb);
        mixed ^ (mixed >> 31)
    }

    pub fn below(&mut self, bound: u64) -> u64 {
        self.next() % bound
    }

    pub fn one_in(&mut self, times: u64) -> bool {
        self.below(times) == 0
    }

    pub fn one_of(&mut self, list: &[u64]) -> u64 {
        list[self.below(list.len() as u64) as usize]
    }

    /// The number or one next to it, modulo M + 1.
    pub fn near(&mut self, number: u64) -> u64 {
        number.wrapping_add(self.below(5)).wrapping_sub(2) & M
    }

    /// As many numbers of each length in bits.
    pub fn log_uniform(&mut self) -> u64 {
        let bits = self.below(BITS + 1) as u32;
        self.next().checked_shr(64 - bits).unwrap_or(0)
    }
}
