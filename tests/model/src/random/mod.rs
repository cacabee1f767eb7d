//! Makes random inputs of every sort from a seed: the same seed gives the same inputs everywhere.
//!
//! - `tables`: term tables that are accepted;
//! - `limits`: term tables with as many terms or cells as there may be;
//! - `netlists`: netlists that pass the cell checks and that no compiler made;
//! - `damage`: tables and netlists with one fault or two;
//! - `calls`: whole calls of each part, with faults in any argument;
//! - `faults`: whole calls with two chosen faults;
//! - `streams`: what the outside does to a circuit, cycle by cycle;
//! - `inputs`: bytes for the program.

pub mod calls;
pub mod damage;
pub mod faults;
pub mod inputs;
pub mod limits;
pub mod netlists;
pub mod streams;
pub mod tables;

use crate::words::largest;

/// A splitmix64 generator: small, and good enough to spread inputs.
pub struct Random {
    state: u64,
}

impl Random {
    /// Starts the sequence that belongs to a seed.
    pub fn new(seed: u64) -> Random {
        Random { state: seed }
    }

    /// Gives the next 64 bits.
    pub fn bits(&mut self) -> u64 {
        self.state = self.state.wrapping_add(0x9e37_79b9_7f4a_7c15);
        let mut z = self.state;
        z = (z ^ (z >> 30)).wrapping_mul(0xbf58_476d_1ce4_e5b9);
        z = (z ^ (z >> 27)).wrapping_mul(0x94d0_49bb_1331_11eb);
        z ^ (z >> 31)
    }

    /// Gives a number below the limit, which isn't 0.
    pub fn below(&mut self, limit: u32) -> u32 {
        (self.bits() % u64::from(limit)) as u32
    }

    /// Gives a number between two, both included.
    pub fn between(&mut self, low: u32, high: u32) -> u32 {
        low + self.below(high - low + 1)
    }

    /// Says yes in so many of a hundred cases.
    pub fn chance(&mut self, percent: u32) -> bool {
        self.below(100) < percent
    }

    /// Picks one of some numbers.
    pub fn pick(&mut self, from: &[u32]) -> u32 {
        from[self.below(from.len() as u32) as usize]
    }

    /// Gives a width, with the ends of the range more often than the rest.
    pub fn width(&mut self) -> u32 {
        match self.below(8) {
            0 => 1,
            1 => 32,
            2 => 8,
            _ => self.between(1, 32),
        }
    }

    /// Gives a word, with small words and the largest more often than the rest.
    pub fn word(&mut self, width: u32) -> u32 {
        let any = self.bits() as u32 & largest(width);
        match self.below(8) {
            0..=2 => any & 7,
            3 => largest(width) - (any & 1),
            _ => any,
        }
    }

    /// Gives so many words.
    pub fn words(&mut self, width: u32, count: u32) -> Vec<u32> {
        (0..count).map(|_| self.word(width)).collect()
    }
}
