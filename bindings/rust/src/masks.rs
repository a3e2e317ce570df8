//! Ranges of positions and their mask in each word.

use crate::ffi;
use crate::refusal::{accepted, Refusal};

/// The words that a range meets, `first_block..end_block`, and the masks of the first and the last of them.
pub type Masks = ffi::FbsMasks;

/// Is start at most end, and end at most the length?
///
/// # Errors
/// [`Refusal::Range`] where it is not so.
pub fn ask_range(start: usize, end: usize, length: usize) -> Result<(), Refusal> {
    // SAFETY: plain numbers.
    accepted(unsafe { ffi::fbs_ask_range(start, end, length) }, ())
}

/// The bits of word number `word` that the range start..end covers; 0 where it meets none.
///
/// ```
/// assert_eq!(lent_bit_sets::masks::range_mask(60, 70, 0), 0xF000_0000_0000_0000);
/// assert_eq!(lent_bit_sets::masks::range_mask(60, 70, 1), 0x3F);
/// ```
pub fn range_mask(start: usize, end: usize, word: usize) -> u64 {
    // SAFETY: plain numbers.
    unsafe { ffi::fbs_range_mask(start, end, word) }
}

/// The words that the range start..end meets.
pub fn masks(start: usize, end: usize) -> Masks {
    // SAFETY: plain numbers.
    unsafe { ffi::fbs_masks(start, end) }
}
