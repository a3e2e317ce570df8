//! Sets that are written. What is read of them stands in view.rs.

use crate::ffi::{self, FbsEdited, FbsSet};
use crate::ranges::ends;
use crate::refusal::{accepted, Refusal, UNREFUSED};
use crate::view::View;
use std::cmp::Ordering;
use std::ops::RangeBounds;

/// A set over words that are lent for writing. The words after its own are the caller's, and are written only when it grows into them.
///
/// ```
/// use lent_bit_sets::{FixedBitSet, Refusal};
///
/// let mut words = [7; 2];
/// let mut set = FixedBitSet::with_capacity(4, &mut words)?;
/// set.insert(3)?;
/// set.grow(65)?;
/// assert_eq!(set.grow(129), Err(Refusal::Room));
/// assert_eq!(set.into_parts(), (65, &mut [8, 0][..]));
/// # Ok::<(), Refusal>(())
/// ```
#[derive(Debug)]
pub struct FixedBitSet<'w> {
    set: FbsSet,
    words: &'w mut [u64],
}

impl<'w> FixedBitSet<'w> {
    /// A fresh set of `bits` bits with no members.
    ///
    /// # Errors
    /// [`Refusal::NewLength`] where `bits` is above 65,536, [`Refusal::Room`] where the words are too few for it.
    ///
    /// ```
    /// use lent_bit_sets::{FixedBitSet, Refusal};
    /// assert_eq!(FixedBitSet::with_capacity(10, &mut [1])?.as_slice(), [0]);
    /// assert_eq!(FixedBitSet::with_capacity(65, &mut [1]).err(), Some(Refusal::Room));
    /// assert_eq!(FixedBitSet::with_capacity(65_537, &mut []).err(), Some(Refusal::NewLength));
    /// # Ok::<(), Refusal>(())
    /// ```
    pub fn with_capacity(bits: usize, words: &'w mut [u64]) -> Result<Self, Refusal> {
        // SAFETY: the pointer and the number of words are those of a slice that is borrowed alone.
        let edited = unsafe { ffi::fbs_with_capacity(bits, words.as_mut_ptr(), words.len()) };
        FixedBitSet::fresh(edited, words)
    }

    /// A fresh set of `bits` bits with the members that the blocks name. Missing blocks count as 0; further ones, and bits from `bits` up, do not count.
    ///
    /// # Errors
    /// [`Refusal::NewLength`] where `bits` is above 65,536, [`Refusal::Room`] where the words are too few for it.
    ///
    /// ```
    /// use lent_bit_sets::{FixedBitSet, Refusal};
    /// assert_eq!(FixedBitSet::with_capacity_and_blocks(4, &[0xF4], &mut [0])?.as_slice(), [4]);
    /// # Ok::<(), Refusal>(())
    /// ```
    pub fn with_capacity_and_blocks(bits: usize, blocks: &[u64], words: &'w mut [u64]) -> Result<Self, Refusal> {
        // SAFETY: the pointers and the numbers of words are those of slices, and the one that is written is borrowed alone.
        let edited = unsafe { ffi::fbs_with_capacity_and_blocks(bits, blocks.as_ptr(), blocks.len(), words.as_mut_ptr(), words.len()) };
        FixedBitSet::fresh(edited, words)
    }

    /// The set of `length` bits that already is in the first of the words.
    ///
    /// # Errors
    /// As [`View::new`].
    pub fn from_parts(length: usize, words: &'w mut [u64]) -> Result<Self, Refusal> {
        View::new(length, words)?;
        Ok(FixedBitSet { set: FbsSet { length }, words })
    }

    /// The length and all the lent words.
    pub fn into_parts(self) -> (usize, &'w mut [u64]) {
        (self.set.length, self.words)
    }

    /// The set that a call has written into the words.
    pub(crate) fn fresh(edited: FbsEdited, words: &'w mut [u64]) -> Result<Self, Refusal> {
        accepted(edited.number, FixedBitSet { set: edited.set, words })
    }

    /// The set for reading.
    pub fn view(&self) -> View<'_> {
        View::whole(self.set, self.words)
    }

    // SAFETY of the calls that go through `edited`: it gives them the pointer and the number of words of a slice that is borrowed alone.

    /// Makes the position a member.
    ///
    /// # Errors
    /// [`Refusal::Position`] where it is not below the length.
    #[inline]
    pub fn insert(&mut self, bit: usize) -> Result<(), Refusal> {
        self.edited(|set, words, size| unsafe { ffi::fbs_insert(set, words, size, bit) })
    }

    /// Ends the position's membership.
    ///
    /// # Errors
    /// [`Refusal::Position`] where it is not below the length.
    #[inline]
    pub fn remove(&mut self, bit: usize) -> Result<(), Refusal> {
        self.edited(|set, words, size| unsafe { ffi::fbs_remove(set, words, size, bit) })
    }

    /// Inserts, and tells whether the position was a member.
    ///
    /// # Errors
    /// [`Refusal::Position`] where it is not below the length.
    ///
    /// ```
    /// use lent_bit_sets::{FixedBitSet, Refusal};
    /// let mut words = [0];
    /// let mut set = FixedBitSet::with_capacity(5, &mut words)?;
    /// assert_eq!((set.put(3), set.put(3), set.put(5)), (Ok(false), Ok(true), Err(Refusal::Position)));
    /// # Ok::<(), Refusal>(())
    /// ```
    #[inline]
    pub fn put(&mut self, bit: usize) -> Result<bool, Refusal> {
        // SAFETY: the pointer and the number of words are those of a slice that is borrowed alone.
        let replaced = unsafe { ffi::fbs_put(self.set, self.words.as_mut_ptr(), self.words.len(), bit) };
        self.set = replaced.set;
        accepted(replaced.number, replaced.was)
    }

    /// Flips the position.
    ///
    /// # Errors
    /// [`Refusal::Position`] where it is not below the length.
    #[inline]
    pub fn toggle(&mut self, bit: usize) -> Result<(), Refusal> {
        self.edited(|set, words, size| unsafe { ffi::fbs_toggle(set, words, size, bit) })
    }

    /// Makes the position a member or not.
    ///
    /// # Errors
    /// [`Refusal::Position`] where it is not below the length.
    #[inline]
    pub fn set(&mut self, bit: usize, enabled: bool) -> Result<(), Refusal> {
        self.edited(|set, words, size| unsafe { ffi::fbs_set(set, words, size, bit, enabled) })
    }

    /// Gives `to` the state that `from` has; a `from` at or above the length counts as no.
    ///
    /// # Errors
    /// [`Refusal::Position`] where `to` is not below the length.
    #[inline]
    pub fn copy_bit(&mut self, from: usize, to: usize) -> Result<(), Refusal> {
        self.edited(|set, words, size| unsafe { ffi::fbs_copy_bit(set, words, size, from, to) })
    }

    /// Makes each position of a list a member, or none where one is not below the length. A repeat marks once.
    ///
    /// # Errors
    /// [`Refusal::Position`] where a position is not below the length. Nothing is marked then.
    ///
    /// ```
    /// use lent_bit_sets::{FixedBitSet, Refusal};
    /// let mut words = [0; 2];
    /// let mut set = FixedBitSet::with_capacity(70, &mut words)?;
    /// set.insert_all(&[3, 69, 3])?;
    /// assert_eq!(set.as_slice(), [8, 0x20]);
    /// assert_eq!(set.insert_all(&[4, 70]), Err(Refusal::Position));
    /// assert_eq!(set.as_slice(), [8, 0x20]);
    /// # Ok::<(), Refusal>(())
    /// ```
    #[inline]
    pub fn insert_all(&mut self, positions: &[u64]) -> Result<(), Refusal> {
        self.edited(|set, words, size| unsafe { ffi::fbs_insert_all(set, words, size, positions.as_ptr(), positions.len()) })
    }

    /// Makes each position of the range a member.
    ///
    /// # Errors
    /// [`Refusal::Range`] where the range is inverted or ends above the length.
    ///
    /// ```
    /// use lent_bit_sets::{FixedBitSet, Refusal};
    /// let mut words = [0; 2];
    /// let mut set = FixedBitSet::with_capacity(70, &mut words)?;
    /// set.insert_range(60..)?;
    /// assert_eq!(set.as_slice(), [0xF000_0000_0000_0000, 0x3F]);
    /// assert_eq!(set.insert_range(..=70), Err(Refusal::Range));
    /// # Ok::<(), Refusal>(())
    /// ```
    #[inline]
    pub fn insert_range(&mut self, range: impl RangeBounds<usize>) -> Result<(), Refusal> {
        let (start, end) = ends(range, self.set.length);
        self.edited(|set, words, size| unsafe { ffi::fbs_insert_range(set, words, size, start, end) })
    }

    /// Ends the membership of each position of the range.
    ///
    /// # Errors
    /// [`Refusal::Range`] where the range is inverted or ends above the length.
    #[inline]
    pub fn remove_range(&mut self, range: impl RangeBounds<usize>) -> Result<(), Refusal> {
        let (start, end) = ends(range, self.set.length);
        self.edited(|set, words, size| unsafe { ffi::fbs_remove_range(set, words, size, start, end) })
    }

    /// Flips each position of the range.
    ///
    /// # Errors
    /// [`Refusal::Range`] where the range is inverted or ends above the length.
    #[inline]
    pub fn toggle_range(&mut self, range: impl RangeBounds<usize>) -> Result<(), Refusal> {
        let (start, end) = ends(range, self.set.length);
        self.edited(|set, words, size| unsafe { ffi::fbs_toggle_range(set, words, size, start, end) })
    }

    /// Makes each position of the range a member or not.
    ///
    /// # Errors
    /// [`Refusal::Range`] where the range is inverted or ends above the length.
    #[inline]
    pub fn set_range(&mut self, range: impl RangeBounds<usize>, enabled: bool) -> Result<(), Refusal> {
        let (start, end) = ends(range, self.set.length);
        self.edited(|set, words, size| unsafe { ffi::fbs_set_range(set, words, size, start, end, enabled) })
    }

    /// Ends every membership.
    #[inline]
    pub fn clear(&mut self) {
        self.edited(|set, words, size| unsafe { ffi::fbs_clear(set, words, size) }).expect(UNREFUSED);
    }

    /// Makes the length the larger of the length and `bits`; the new positions are no members.
    ///
    /// # Errors
    /// [`Refusal::NewLength`] where `bits` is above 65,536, [`Refusal::Room`] where the lent words are too few for it.
    #[inline]
    pub fn grow(&mut self, bits: usize) -> Result<(), Refusal> {
        self.edited(|set, words, size| unsafe { ffi::fbs_grow(set, words, size, bits) })
    }

    /// Grows to `bit` + 1 and inserts `bit`.
    ///
    /// # Errors
    /// [`Refusal::NewLength`] where `bit` is above 65,535, [`Refusal::Room`] where the lent words are too few for it.
    #[inline]
    pub fn grow_and_insert(&mut self, bit: usize) -> Result<(), Refusal> {
        self.edited(|set, words, size| unsafe { ffi::fbs_grow_and_insert(set, words, size, bit) })
    }

    /// Inserts the members of the other set; the length becomes the larger of the two.
    ///
    /// # Errors
    /// [`Refusal::Room`] where the lent words are too few for the larger length.
    #[inline]
    pub fn union_with<'o>(&mut self, other: impl Into<View<'o>>) -> Result<(), Refusal> {
        self.joined(other.into(), ffi::fbs_union_with)
    }

    /// Keeps the members that are in the other set. The length stays.
    #[inline]
    pub fn intersect_with<'o>(&mut self, other: impl Into<View<'o>>) {
        self.joined(other.into(), ffi::fbs_intersect_with).expect(UNREFUSED);
    }

    /// Keeps the members that are not in the other set. The length stays.
    #[inline]
    pub fn difference_with<'o>(&mut self, other: impl Into<View<'o>>) {
        self.joined(other.into(), ffi::fbs_difference_with).expect(UNREFUSED);
    }

    /// Flips the members of the other set; the length becomes the larger of the two.
    ///
    /// # Errors
    /// [`Refusal::Room`] where the lent words are too few for the larger length.
    #[inline]
    pub fn symmetric_difference_with<'o>(&mut self, other: impl Into<View<'o>>) -> Result<(), Refusal> {
        self.joined(other.into(), ffi::fbs_symmetric_difference_with)
    }

    /// An edit; `edit` calls it with the pointer and the number of words of a slice that is borrowed alone.
    #[inline]
    fn edited(&mut self, edit: impl FnOnce(FbsSet, *mut u64, usize) -> FbsEdited) -> Result<(), Refusal> {
        let edited = edit(self.set, self.words.as_mut_ptr(), self.words.len());
        self.set = edited.set;
        accepted(edited.number, ())
    }

    #[inline]
    fn joined(&mut self, other: View<'_>, join: Join) -> Result<(), Refusal> {
        let (b, others, other_size) = other.raw();
        // SAFETY: the pointers and the numbers of words are those of slices, and the one that is written is borrowed alone.
        self.edited(|a, words, size| unsafe { join(a, words, size, b, others, other_size) })
    }
}

type Join = unsafe extern "C" fn(FbsSet, *mut u64, usize, FbsSet, *const u64, usize) -> FbsEdited;

impl<'a> From<&'a FixedBitSet<'_>> for View<'a> {
    fn from(set: &'a FixedBitSet<'_>) -> View<'a> {
        set.view()
    }
}

/// Equal length and members.
impl PartialEq for FixedBitSet<'_> {
    fn eq(&self, other: &Self) -> bool {
        self.view() == other.view()
    }
}

impl Eq for FixedBitSet<'_> {}

impl PartialOrd for FixedBitSet<'_> {
    fn partial_cmp(&self, other: &Self) -> Option<Ordering> {
        Some(self.cmp(other))
    }
}

/// Length first, then words from word 0 upwards.
impl Ord for FixedBitSet<'_> {
    fn cmp(&self, other: &Self) -> Ordering {
        self.view().cmp(&other.view())
    }
}
