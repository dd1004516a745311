//! Made inputs: messages of every kind, and damage to them. The same seed makes the same input. Chosen ones, and cases with answers.
#![allow(dead_code, unused_imports)]

mod cases;
mod chosen;
mod damage;
mod grown;
mod made;
mod messages;
mod met;
mod ranges;
mod saves;
mod vectors;

pub use cases::{Case, ReasonCase, cases, reason_cases};
pub use chosen::*;
pub use damage::damaged;
pub use grown::{LONG_PART_SIZE, client_known_met, grown, long_part_met};
pub use made::*;
pub use messages::*;
pub use met::*;
pub use ranges::*;
pub use saves::*;
pub use vectors::vector_inputs;

/// SplitMix64.
pub struct Random(u64);

impl Random {
    pub fn new(seed: u64) -> Self {
        Random(seed)
    }

    pub fn next(&mut self) -> u64 {
        self.0 = self.0.wrapping_add(0x9E37_79B9_7F4A_7C15);
        let mut bits = self.0;
        bits = (bits ^ (bits >> 30)).wrapping_mul(0xBF58_476D_1CE4_E5B9);
        bits = (bits ^ (bits >> 27)).wrapping_mul(0x94D0_49BB_1331_11EB);
        bits ^ (bits >> 31)
    }

    /// A number below the bound, which is not 0.
    pub fn below(&mut self, bound: usize) -> usize {
        (self.next() % bound as u64) as usize
    }

    /// A number within the bounds, which may be taken.
    pub fn within(&mut self, low: usize, high: usize) -> usize {
        low + self.below(high - low + 1)
    }

    /// Once in so many times.
    pub fn once_in(&mut self, times: usize) -> bool {
        self.below(times) == 0
    }

    pub fn pick<T: Copy>(&mut self, choices: &[T]) -> T {
        choices[self.below(choices.len())]
    }

    pub fn byte(&mut self) -> u8 {
        self.next() as u8
    }

    pub fn bytes(&mut self, length: usize) -> Vec<u8> {
        (0..length).map(|_| self.byte()).collect()
    }

    /// A DWORD that is often at an edge.
    pub fn dword(&mut self) -> u32 {
        match self.below(4) {
            0 => self.pick(&[0, 1, 2, 255, 256, 65_535, 65_536, u32::MAX - 1, u32::MAX]),
            1 => self.below(100) as u32,
            _ => self.next() as u32,
        }
    }
}
