//! Sets of bits over lent 64-bit words: safe Rust over the verified engine in this repository.
//!
//! A set is a length in bits and words that the caller lends. [`FixedBitSet`] borrows the words for writing, [`View`] for reading. The names are
//! those of the Rust crate `fixedbitset`; where that crate panics or allocates, a call here gives a [`Refusal`] and changes nothing.
//!
//! A set passes questions 1 to 3 of the specification when it is made, and nothing else can write its words while it lives. So a call
//! returns a `Result` where a position, a range, a new length or the room for it can be refused, and otherwise its plain answer.
//!
//! ```
//! use lent_bit_sets::{FixedBitSet, Refusal};
//!
//! let (mut words, mut other) = ([0; 3], [0; 3]);
//! let mut a = FixedBitSet::with_capacity(71, &mut words)?;
//! let mut b = FixedBitSet::with_capacity(2, &mut other)?;
//! a.insert(1)?;
//! a.insert(70)?;
//! b.insert_range(..)?;
//! assert_eq!(a.insert(71), Err(Refusal::Position));
//!
//! // The members of the first set, then those of the second that are not in the first.
//! assert_eq!(a.union(&b).collect::<Vec<_>>(), [1, 70, 0]);
//! assert_eq!(a.union_count(&b), 3);
//!
//! b.union_with(&a)?;
//! assert_eq!(b.len(), 71);
//! assert_eq!(b.as_slice(), [0b11, 0b100_0000]);
//! # Ok::<(), Refusal>(())
//! ```
//!
//! The answers of the engine are proved; this crate only passes slices as pointers and numbers, and is not. [`ffi`] has the raw functions.

pub mod ffi;
pub mod history;
pub mod masks;
pub mod words;

mod ranges;
mod refusal;
mod renumberings;
mod set;
mod view;
mod walks;

pub use refusal::Refusal;
pub use renumberings::Pair;
pub use set::FixedBitSet;
pub use view::View;
pub use walks::{Difference, Intersection, Ones, SymmetricDifference, Union, Zeroes};

/// The most bits that a set can have.
pub const MAX_BITS: usize = 65_536;

/// How many words a set of `bits` bits has.
///
/// ```
/// assert_eq!(lent_bit_sets::words_for(0), 0);
/// assert_eq!(lent_bit_sets::words_for(64), 1);
/// assert_eq!(lent_bit_sets::words_for(65), 2);
/// ```
pub const fn words_for(bits: usize) -> usize {
    bits.div_ceil(64)
}
