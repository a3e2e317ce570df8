//! Calls on one word and on ranges.

use crate::cases::{Answer, Outcome};

/// Bit j of a word.
fn bit(word: u64, j: usize) -> bool {
    (word >> j) & 1 == 1
}

pub fn count_ones(word: u64) -> usize {
    (0..64).filter(|j| bit(word, *j)).count()
}

/// 64 for 0.
pub fn leading_zeros(word: u64) -> usize {
    (0..64).rev().take_while(|j| !bit(word, *j)).count()
}

/// 64 for 0.
pub fn trailing_zeros(word: u64) -> usize {
    (0..64).take_while(|j| !bit(word, *j)).count()
}

/// The position of the lowest bit, and the word without it; 0 is refused with 9.
pub fn last_bit(word: u64) -> Outcome {
    if word == 0 {
        return Outcome { number: 9, answer: Answer::LastBit { position: 0, rest: 0 } };
    }
    let position = trailing_zeros(word);
    Outcome { number: 0, answer: Answer::LastBit { position, rest: word - (1 << position) } }
}

/// The lowest r bits; above 64 as for 64.
pub fn low_mask(r: usize) -> u64 {
    (0..64).filter(|j| *j < r).map(|j| 1u64 << j).sum()
}

/// The bits of a word that the range covers. A position may be more than a length can be.
pub fn range_mask(start: usize, end: usize, word: usize) -> u64 {
    let covered = |j: u64| {
        let p = 64 * word as u128 + j as u128;
        start as u128 <= p && p < end as u128
    };
    (0..64).filter(|j| covered(*j)).map(|j| 1u64 << j).sum()
}

/// The words that a range meets: none where it covers no position.
pub fn masks(start: usize, end: usize) -> Answer {
    let first_block = start / 64;
    let end_block = if start < end { (end - 1) / 64 + 1 } else { first_block };
    let last = end_block.saturating_sub(1);
    Answer::Masks { first_block, end_block, first_mask: range_mask(start, end, first_block), last_mask: range_mask(start, end, last) }
}
