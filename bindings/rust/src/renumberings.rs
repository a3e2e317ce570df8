//! A set moved to another layout, by a list of pairs of an old and a new offset.

use crate::ffi::{self, FbsEdited, FbsPair, FbsSet};
use crate::refusal::{accepted, Refusal};
use crate::set::FixedBitSet;
use crate::view::{of_both_types, View};
use std::mem::{offset_of, size_of};

/// A position of the old set and its place in the new one.
#[derive(Clone, Copy, Debug, PartialEq, Eq, Hash)]
#[repr(C)]
pub struct Pair {
    pub old: u64,
    pub new: u64,
}

/// A slice of pairs is lent to the engine as a slice of [`FbsPair`].
const SAME_LAYOUT: () = assert!(
    size_of::<Pair>() == size_of::<FbsPair>()
        && offset_of!(Pair, old) == offset_of!(FbsPair, old_offset)
        && offset_of!(Pair, new) == offset_of!(FbsPair, new_offset)
);

fn lent(pairs: &[Pair]) -> *const FbsPair {
    let () = SAME_LAYOUT;
    pairs.as_ptr().cast()
}

type Renumber = unsafe extern "C" fn(FbsSet, *const u64, usize, *const FbsPair, usize, usize, *mut u64, usize) -> FbsEdited;

impl View<'_> {
    fn renumbered<'o>(self, pairs: &[Pair], bits: usize, out: &'o mut [u64], call: Renumber) -> Result<FixedBitSet<'o>, Refusal> {
        let (set, words, size) = self.raw();
        // SAFETY: the pointers and the numbers of words and pairs are those of slices, and the one that is written is borrowed alone.
        let edited = unsafe { call(set, words, size, lent(pairs), pairs.len(), bits, out.as_mut_ptr(), out.len()) };
        FixedBitSet::fresh(edited, out)
    }
}

of_both_types! {
    /// The set of `bits` bits that has exactly the new offset of each member, written into a buffer. Pairs for positions that are no members move nothing.
    ///
    /// # Errors
    /// [`Refusal::NewLength`] where `bits` is above 65,536, [`Refusal::Room`] where the buffer has too few words for it, [`Refusal::SharedOld`] and
    /// [`Refusal::SharedNew`] where two pairs share an old or a new offset, [`Refusal::Position`] where a new offset is not below `bits`,
    /// [`Refusal::NoPair`] where a member has no pair. The buffer is as it was then.
    ///
    /// ```
    /// use lent_bit_sets::{Pair, Refusal, View};
    ///
    /// let set = View::new(4, &[0b1010])?;
    /// let pairs = [Pair { old: 1, new: 70 }, Pair { old: 2, new: 5 }, Pair { old: 3, new: 0 }];
    /// let mut out = [7; 3];
    /// let moved = set.renumber(&pairs, 71, &mut out)?;
    /// assert_eq!(moved.ones().collect::<Vec<_>>(), [0, 70]);
    /// assert_eq!(set.renumber(&pairs[1..], 71, &mut out).err(), Some(Refusal::NoPair));
    /// assert_eq!(out, [1, 0x40, 7]);
    /// # Ok::<(), Refusal>(())
    /// ```
    pub fn renumber<'o>(self, pairs: &[Pair], bits: usize, out: &'o mut [u64]) -> Result<FixedBitSet<'o>, Refusal> {
        self.renumbered(pairs, bits, out, ffi::fbs_renumber)
    }

    /// [`renumber`](Self::renumber) with every pair swapped. With the old length it gives the old set again, where every old offset is below that.
    ///
    /// # Errors
    /// As [`renumber`](Self::renumber), with the offsets of each pair in each other's place.
    ///
    /// ```
    /// use lent_bit_sets::{Pair, Refusal, View};
    ///
    /// let (set, pairs) = (View::new(4, &[0b1010])?, [Pair { old: 1, new: 70 }, Pair { old: 3, new: 0 }]);
    /// let (mut out, mut again) = ([0; 2], [0; 1]);
    /// let moved = set.renumber(&pairs, 71, &mut out)?;
    /// assert_eq!(moved.renumber_back(&pairs, 4, &mut again)?.as_slice(), [0b1010]);
    /// assert_eq!(moved.renumber_back(&pairs, 3, &mut again).err(), Some(Refusal::Position));
    /// # Ok::<(), Refusal>(())
    /// ```
    pub fn renumber_back<'o>(self, pairs: &[Pair], bits: usize, out: &'o mut [u64]) -> Result<FixedBitSet<'o>, Refusal> {
        self.renumbered(pairs, bits, out, ffi::fbs_renumber_back)
    }

    /// [`renumber`](Self::renumber) into `out`, then [`renumber_back`](Self::renumber_back) of that into `again` with the old length. Is the old set there?
    ///
    /// # Errors
    /// Those of the call that was refused. Where the first was, both buffers are as they were; else `out` has the new set.
    ///
    /// ```
    /// use lent_bit_sets::{Pair, Refusal, View};
    ///
    /// let (set, mut pairs) = (View::new(4, &[0b1010])?, [Pair { old: 1, new: 2 }, Pair { old: 3, new: 0 }, Pair { old: 2, new: 1 }]);
    /// let (mut out, mut again) = ([7; 1], [7; 2]);
    /// assert_eq!(set.renumber_and_back(&pairs, 3, &mut out, &mut again), Ok(true));
    /// assert_eq!((out, again), ([0b101], [0b1010, 7]));
    ///
    /// // An old offset that the old set does not have stands in the way of the way back.
    /// pairs[2].old = 4;
    /// assert_eq!(set.renumber_and_back(&pairs, 3, &mut out, &mut again), Err(Refusal::Position));
    /// # Ok::<(), Refusal>(())
    /// ```
    pub fn renumber_and_back(self, pairs: &[Pair], bits: usize, out: &mut [u64], again: &mut [u64]) -> Result<bool, Refusal> {
        let (set, words, size) = self.raw();
        let (o, n, a, m) = (out.as_mut_ptr(), out.len(), again.as_mut_ptr(), again.len());
        // SAFETY: the pointers and the numbers of words and pairs are those of slices, and the two that are written are borrowed alone.
        let told = unsafe { ffi::fbs_renumber_and_back(set, words, size, lent(pairs), pairs.len(), bits, o, n, a, m) };
        accepted(told.number, told.yes)
    }
}
