//! Random numbers, the same for the same seed (the method is splitmix64).

use std::ops::RangeInclusive;

pub struct Generator {
    state: u64,
}

impl Generator {
    pub fn new(seed: u64) -> Generator {
        Generator { state: seed }
    }

    pub fn bits(&mut self) -> u64 {
        self.state = self.state.wrapping_add(0x9e37_79b9_7f4a_7c15);
        let mut bits = self.state;
        bits = (bits ^ (bits >> 30)).wrapping_mul(0xbf58_476d_1ce4_e5b9);
        bits = (bits ^ (bits >> 27)).wrapping_mul(0x94d0_49bb_1331_11eb);
        bits ^ (bits >> 31)
    }

    /// A number of any size up to 64 bits, small ones as often as large ones.
    pub fn number(&mut self) -> u64 {
        let shift = self.bits() % 64;
        self.bits() >> shift
    }

    pub fn number_in(&mut self, range: RangeInclusive<u64>) -> u64 {
        range.start() + self.bits() % (range.end() - range.start() + 1)
    }

    pub fn one_in(&mut self, times: u64) -> bool {
        self.bits() % times == 0
    }

    pub fn one_of<'a, T>(&mut self, choices: &'a [T]) -> &'a T {
        &choices[self.index(choices.len())]
    }

    pub fn index(&mut self, length: usize) -> usize {
        (self.bits() % length as u64) as usize
    }
}
