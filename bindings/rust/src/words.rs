//! One word.

use crate::ffi;
use crate::refusal::{accepted, Refusal};

/// The ones of a word.
pub fn count_ones(word: u64) -> usize {
    // SAFETY: a plain number.
    unsafe { ffi::fbs_word_count_ones(word) }
}

/// The zeros above the highest one; 64 for 0.
pub fn leading_zeros(word: u64) -> usize {
    // SAFETY: a plain number.
    unsafe { ffi::fbs_word_leading_zeros(word) }
}

/// The zeros below the lowest one; 64 for 0.
pub fn trailing_zeros(word: u64) -> usize {
    // SAFETY: a plain number.
    unsafe { ffi::fbs_word_trailing_zeros(word) }
}

/// The position of the lowest one, and the word without it.
///
/// # Errors
/// [`Refusal::NoBit`] where the word is 0.
///
/// ```
/// use lent_bit_sets::{words, Refusal};
/// assert_eq!(words::last_positive_bit_and_unset(12), Ok((2, 8)));
/// assert_eq!(words::last_positive_bit_and_unset(0), Err(Refusal::NoBit));
/// ```
pub fn last_positive_bit_and_unset(word: u64) -> Result<(usize, u64), Refusal> {
    // SAFETY: a plain number.
    let last = unsafe { ffi::fbs_last_positive_bit_and_unset(word) };
    accepted(last.number, (last.position, last.rest))
}

/// The word with the lowest `r` bits set; above 64 as for 64.
///
/// ```
/// assert_eq!(lent_bit_sets::words::low_mask(3), 0b111);
/// assert_eq!(lent_bit_sets::words::low_mask(65), u64::MAX);
/// ```
pub fn low_mask(r: usize) -> u64 {
    // SAFETY: a plain number.
    unsafe { ffi::fbs_low_mask(r) }
}
