//! A whole history in one call: two fresh sets, a list of calls, a walk with its steps, and its count.

use crate::ffi;
use crate::refusal::{accepted, Refusal};

/// The walks that have steps at both ends, by their numbers.
#[derive(Clone, Copy, Debug, PartialEq, Eq, Hash)]
#[repr(u64)]
pub enum Walk {
    /// [`crate::Ones`].
    Ones = 0,
    /// [`crate::Intersection`].
    Intersection = 1,
    /// [`crate::Difference`].
    Difference = 2,
    /// [`crate::Union`].
    Union = 3,
    /// [`crate::SymmetricDifference`].
    SymmetricDifference = 4,
}

/// An answer of none.
pub const NONE: u64 = u64::MAX;

/// Both lengths after the calls, and the count of the walk.
#[derive(Clone, Copy, Debug, PartialEq, Eq)]
pub struct Ran {
    /// The length of the first set.
    pub a_length: usize,
    /// The length of the second set.
    pub b_length: usize,
    /// How many positions the walk's list has.
    pub count: usize,
}

/// Makes two fresh sets, makes the calls one after the other, takes the steps of the walk, and counts.
///
/// A call is five numbers: the set (0 or 1), the call (0 to 17, in the order `insert`, `remove`, `put`, `toggle`, `set`, `copy_bit`, `insert_range`, `remove_range`,
/// `toggle_range`, `set_range`, `clear`, `grow`, `grow_and_insert`, `union_with`, `intersect_with`, `difference_with`, `symmetric_difference_with`, `insert_all`), two numbers, and a yes or
/// no (0 is no). A call of `insert_all` marks the positions x..y of `positions`, where those are. A refused call does nothing. A step is 0 for the front, and any other number for the back; its answer in `out` is the position, or [`NONE`].
///
/// # Errors
/// [`Refusal::NewLength`] where a length is above 65,536, [`Refusal::Room`] where a buffer lacks the words for a set or for the answers. Nothing is
/// written then.
///
/// ```
/// use lent_bit_sets::history::{run_history, Walk, NONE};
/// use lent_bit_sets::Refusal;
///
/// let (mut words, mut other, mut out) = ([7; 2], [7; 1], [0; 4]);
/// // A inserts 1 and 70, B inserts 0..2.
/// let calls = [[0, 0, 1, 0, 0], [0, 0, 70, 0, 0], [1, 6, 0, 2, 0]];
/// let ran = run_history(71, &mut words, 2, &mut other, &calls, &[], Walk::Union, &[0, 1, 0, 0], &mut out)?;
/// assert_eq!((ran.a_length, ran.b_length, ran.count), (71, 2, 3));
/// assert_eq!(out, [1, 0, 70, NONE]);
/// // A marks the positions 1..3 of the lent list in one call.
/// let ran = run_history(71, &mut words, 2, &mut other, &[[0, 17, 1, 3, 0]], &[5, 9, 70, 9], Walk::Ones, &[0, 0, 0], &mut out)?;
/// assert_eq!((ran.count, &out[..3]), (2, &[9, 70, NONE][..]));
/// # Ok::<(), Refusal>(())
/// ```
#[allow(clippy::too_many_arguments)]
pub fn run_history(
    a_bits: usize,
    words: &mut [u64],
    b_bits: usize,
    other: &mut [u64],
    calls: &[[u64; 5]],
    positions: &[u64],
    walk: Walk,
    steps: &[u64],
    out: &mut [u64],
) -> Result<Ran, Refusal> {
    let calls = calls.as_flattened();
    // SAFETY: the pointers and the numbers of words are those of slices, and those that are written are borrowed alone.
    let ran = unsafe {
        ffi::fbs_run_history(
            a_bits,
            words.as_mut_ptr(),
            words.len(),
            b_bits,
            other.as_mut_ptr(),
            other.len(),
            calls.as_ptr(),
            calls.len(),
            positions.as_ptr(),
            positions.len(),
            walk as u64,
            steps.as_ptr(),
            steps.len(),
            out.as_mut_ptr(),
            out.len(),
        )
    };
    accepted(ran.number, Ran { a_length: ran.a.length, b_length: ran.b.length, count: ran.count })
}
