//! The sets that are measured.

use crate::prng::Prng;
use fixedbitset::FixedBitSet as Rust;
use lent_bit_sets::ffi::{FbsPart, FbsSet};
use lent_bit_sets::View;

/// A set twice: lent words for the engine, and the Rust's own.
pub struct Twice {
    pub length: usize,
    pub words: Vec<u64>,
    pub rust: Rust,
}

impl Twice {
    pub fn new(length: usize, mut is_in: impl FnMut(usize) -> bool) -> Self {
        let mut words = vec![0; length.div_ceil(64)];
        for p in (0..length).filter(|p| is_in(*p)) {
            words[p / 64] |= 1 << (p % 64);
        }
        let rust = Rust::with_capacity_and_blocks(length, words.iter().map(|word| *word as usize));
        Twice { length, words, rust }
    }

    pub fn raw(&self) -> (FbsSet, *const u64, usize) {
        (FbsSet { length: self.length }, self.words.as_ptr(), self.words.len())
    }

    pub fn raw_mut(&mut self) -> (FbsSet, *mut u64, usize) {
        (FbsSet { length: self.length }, self.words.as_mut_ptr(), self.words.len())
    }

    /// The record of a part over the set at first.
    pub fn first(&self) -> FbsPart {
        FbsPart { low: 0, high: self.length }
    }

    pub fn view(&self) -> View<'_> {
        View::new(self.length, &self.words).expect("a whole set")
    }
}

/// Two sets in which one of `n` positions is a member; half of the members of each are in the other.
pub fn pair(random: &mut Prng, length: usize, n: usize) -> (Twice, Twice) {
    let a = Twice::new(length, |_| random.once_in(n));
    let b = Twice::new(length, |p| if a.rust.contains(p) { random.yes() } else { random.once_in(2 * n - 2) });
    (a, b)
}
