//! A set as a row of yes and no, as many as its length.

use crate::cases::Lent;

pub type Members = Vec<bool>;

/// W: the length divided by 64, rounded up.
pub fn words_of(length: usize) -> usize {
    length / 64 + usize::from(length % 64 != 0)
}

/// Position p is bit p mod 64 of word p / 64, bit 0 lowest.
pub fn bit(words: &[u64], p: usize) -> bool {
    (words[p / 64] >> (p % 64)) & 1 == 1
}

/// Is p a member? No at or above the length.
pub fn has(members: &[bool], p: usize) -> bool {
    p < members.len() && members[p]
}

pub fn read(set: &Lent) -> Members {
    (0..set.length).map(|p| bit(&set.words, p)).collect()
}

/// Word k of a set.
pub fn word(members: &[bool], k: usize) -> u64 {
    let mut word = 0;
    for j in 0..64 {
        if has(members, 64 * k + j) {
            word += 1 << j;
        }
    }
    word
}

/// Puts a set into its first W words; the words after them stay.
pub fn write(members: &[bool], words: &mut [u64]) {
    for (k, own) in words[..words_of(members.len())].iter_mut().enumerate() {
        *own = word(members, k);
    }
}
