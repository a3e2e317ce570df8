//! Sets that are read, and what is read of every set.

use crate::ffi::{self, FbsCounted, FbsEdited, FbsFound, FbsSet, FbsTold};
use crate::ranges::ends;
use crate::refusal::{accepted, unrefused, Refusal};
use crate::set::FixedBitSet;
use crate::walks::{Difference, Intersection, Ones, SymmetricDifference, Union, Zeroes};
use std::cmp::Ordering;
use std::ops::RangeBounds;

/// A set over words that are lent for reading. A `&FixedBitSet` becomes one by `into`, so calls of two sets take either.
///
/// ```
/// use lent_bit_sets::{Refusal, View};
///
/// let words = [0x104, 99];
/// let set = View::new(10, &words)?;
/// assert!(set.contains(2) && set.contains(8) && !set.contains(99));
/// assert_eq!(set.count_ones(2..8)?, 1);
/// assert_eq!((set.minimum(), set.maximum()), (Some(2), Some(8)));
/// assert_eq!(set.as_slice(), [0x104]);
/// assert_eq!(View::new(8, &words), Err(Refusal::StrayBits));
/// # Ok::<(), Refusal>(())
/// ```
#[derive(Clone, Copy, Debug)]
pub struct View<'w> {
    set: FbsSet,
    words: &'w [u64],
}

/// The set, the pointer and the number of words.
pub(crate) type Raw = (FbsSet, *const u64, usize);

type OfOne<T> = unsafe extern "C" fn(FbsSet, *const u64, usize) -> T;
type OverRange<T> = unsafe extern "C" fn(FbsSet, *const u64, usize, usize, usize) -> T;
type OfTwo<T> = unsafe extern "C" fn(FbsSet, *const u64, usize, FbsSet, *const u64, usize) -> T;
type IntoThird = unsafe extern "C" fn(FbsSet, *const u64, usize, FbsSet, *const u64, usize, *mut u64, usize) -> FbsEdited;

impl<'w> View<'w> {
    /// The set of `length` bits in the first of the words. Further words are not looked at.
    ///
    /// # Errors
    /// [`Refusal::Length`] where the length is above 65,536, [`Refusal::Words`] where the words are too few for it, [`Refusal::StrayBits`] where a bit
    /// from the length up is set in the set's own words.
    pub fn new(length: usize, words: &'w [u64]) -> Result<Self, Refusal> {
        let set = View { set: FbsSet { length }, words };
        accepted(set.ask(ffi::fbs_as_slice_number), set)
    }

    /// A set that passed questions 1 to 3.
    pub(crate) fn whole(set: FbsSet, words: &'w [u64]) -> Self {
        View { set, words }
    }

    pub(crate) fn raw(self) -> Raw {
        (self.set, self.words.as_ptr(), self.words.len())
    }

    fn ask<T>(self, call: OfOne<T>) -> T {
        let (set, words, size) = self.raw();
        // SAFETY: the pointer and the number of words are those of a slice.
        unsafe { call(set, words, size) }
    }

    fn ask_over<T>(self, range: impl RangeBounds<usize>, call: OverRange<T>) -> T {
        let ((set, words, size), (start, end)) = (self.raw(), ends(range, self.set.length));
        // SAFETY: the pointer and the number of words are those of a slice.
        unsafe { call(set, words, size, start, end) }
    }

    fn ask_with<T>(self, other: impl Into<View<'w>>, call: OfTwo<T>) -> T {
        let ((a, words, size), (b, others, other_size)) = (self.raw(), other.into().raw());
        // SAFETY: the pointers and the numbers of words are those of slices.
        unsafe { call(a, words, size, b, others, other_size) }
    }

    fn third<'o>(self, other: impl Into<View<'w>>, out: &'o mut [u64], call: IntoThird) -> Result<FixedBitSet<'o>, Refusal> {
        let ((a, words, size), (b, others, other_size)) = (self.raw(), other.into().raw());
        // SAFETY: the pointers and the numbers of words are those of slices, and the one that is written is borrowed alone.
        let edited = unsafe { call(a, words, size, b, others, other_size, out.as_mut_ptr(), out.len()) };
        FixedBitSet::fresh(edited, out)
    }
}

fn told(told: FbsTold) -> bool {
    unrefused(told.number, told.yes)
}

fn counted(counted: FbsCounted) -> usize {
    unrefused(counted.number, counted.count)
}

fn found(found: FbsFound) -> Option<usize> {
    unrefused(found.number, found.found.then_some(found.at))
}

/// Writes each method for [`View`], and for [`FixedBitSet`] as the same method of its view. The two differ in the receiver and in how long an answer
/// can be kept, `'w`: as long as the words of a view are lent, or as long as a set is borrowed. Methods of a trait would have to be imported.
macro_rules! of_both_types {
    ($(
        $(#[$doc:meta])*
        pub fn $name:ident$(<$out:lifetime>)?($self:ident $(, $given:ident: $type:ty)*) -> $answer:ty $body:block
    )*) => {
        impl<'w> View<'w> {
            $($(#[$doc])*
            #[inline]
            pub fn $name$(<$out>)?($self $(, $given: $type)*) -> $answer $body)*
        }

        // Only the answers that borrow the set need `'w`.
        #[allow(clippy::needless_lifetimes)]
        impl FixedBitSet<'_> {
            $($(#[$doc])*
            #[inline]
            pub fn $name<'w $(, $out)?>(&'w self $(, $given: $type)*) -> $answer {
                self.view().$name($($given),*)
            })*
        }
    };
}

pub(crate) use of_both_types;

of_both_types! {
    /// The length in bits.
    pub fn len(self) -> usize {
        counted(self.ask(ffi::fbs_len))
    }

    /// Has the set no bits at all?
    pub fn is_empty(self) -> bool {
        told(self.ask(ffi::fbs_is_empty))
    }

    /// The set's own words, a part of the lent slice.
    pub fn as_slice(self) -> &'w [u64] {
        let part = self.ask(ffi::fbs_as_slice);
        &self.words[part.offset..part.offset + part.count]
    }

    /// Is the position a member? No at or above the length.
    pub fn contains(self, bit: usize) -> bool {
        let (set, words, size) = self.raw();
        // SAFETY: the pointer and the number of words are those of a slice.
        told(unsafe { ffi::fbs_contains(set, words, size, bit) })
    }

    /// Is each position of the range a member?
    ///
    /// # Errors
    /// [`Refusal::Range`] where the range is inverted or ends above the length.
    pub fn contains_all_in_range(self, range: impl RangeBounds<usize>) -> Result<bool, Refusal> {
        let told = self.ask_over(range, ffi::fbs_contains_all_in_range);
        accepted(told.number, told.yes)
    }

    /// Is some position of the range a member?
    ///
    /// # Errors
    /// [`Refusal::Range`] where the range is inverted or ends above the length.
    pub fn contains_any_in_range(self, range: impl RangeBounds<usize>) -> Result<bool, Refusal> {
        let told = self.ask_over(range, ffi::fbs_contains_any_in_range);
        accepted(told.number, told.yes)
    }

    /// Is every position a member?
    pub fn is_full(self) -> bool {
        told(self.ask(ffi::fbs_is_full))
    }

    /// Has the set no member?
    pub fn is_clear(self) -> bool {
        told(self.ask(ffi::fbs_is_clear))
    }

    /// The members in the range.
    ///
    /// # Errors
    /// [`Refusal::Range`] where the range is inverted or ends above the length.
    pub fn count_ones(self, range: impl RangeBounds<usize>) -> Result<usize, Refusal> {
        let counted = self.ask_over(range, ffi::fbs_count_ones);
        accepted(counted.number, counted.count)
    }

    /// The non-members in the range.
    ///
    /// # Errors
    /// [`Refusal::Range`] where the range is inverted or ends above the length.
    pub fn count_zeroes(self, range: impl RangeBounds<usize>) -> Result<usize, Refusal> {
        let counted = self.ask_over(range, ffi::fbs_count_zeroes);
        accepted(counted.number, counted.count)
    }

    /// The least member.
    pub fn minimum(self) -> Option<usize> {
        found(self.ask(ffi::fbs_minimum))
    }

    /// The greatest member.
    pub fn maximum(self) -> Option<usize> {
        found(self.ask(ffi::fbs_maximum))
    }

    /// The intersection, of the smaller length, written into a third buffer.
    ///
    /// # Errors
    /// [`Refusal::Room`] where the buffer has too few words.
    pub fn bitand<'o>(self, other: impl Into<View<'w>>, out: &'o mut [u64]) -> Result<FixedBitSet<'o>, Refusal> {
        self.third(other, out, ffi::fbs_bitand)
    }

    /// The union, of the larger length, written into a third buffer.
    ///
    /// # Errors
    /// [`Refusal::Room`] where the buffer has too few words.
    ///
    /// ```
    /// use lent_bit_sets::{Refusal, View};
    ///
    /// let (a, b) = (View::new(4, &[8])?, View::new(130, &[0, 0, 2])?);
    /// let mut out = [7; 4];
    /// assert_eq!(a.bitor(b, &mut out)?.as_slice(), [8, 0, 2]);
    /// assert_eq!(out, [8, 0, 2, 7]);
    /// assert_eq!(a.bitor(b, &mut out[..2]).err(), Some(Refusal::Room));
    /// # Ok::<(), Refusal>(())
    /// ```
    pub fn bitor<'o>(self, other: impl Into<View<'w>>, out: &'o mut [u64]) -> Result<FixedBitSet<'o>, Refusal> {
        self.third(other, out, ffi::fbs_bitor)
    }

    /// The symmetric difference, of the larger length, written into a third buffer.
    ///
    /// # Errors
    /// [`Refusal::Room`] where the buffer has too few words.
    pub fn bitxor<'o>(self, other: impl Into<View<'w>>, out: &'o mut [u64]) -> Result<FixedBitSet<'o>, Refusal> {
        self.third(other, out, ffi::fbs_bitxor)
    }

    /// How many positions [`union`](Self::union) gives.
    pub fn union_count(self, other: impl Into<View<'w>>) -> usize {
        counted(self.ask_with(other, ffi::fbs_union_count))
    }

    /// How many positions [`intersection`](Self::intersection) gives.
    pub fn intersection_count(self, other: impl Into<View<'w>>) -> usize {
        counted(self.ask_with(other, ffi::fbs_intersection_count))
    }

    /// How many positions [`difference`](Self::difference) gives.
    pub fn difference_count(self, other: impl Into<View<'w>>) -> usize {
        counted(self.ask_with(other, ffi::fbs_difference_count))
    }

    /// How many positions [`symmetric_difference`](Self::symmetric_difference) gives.
    pub fn symmetric_difference_count(self, other: impl Into<View<'w>>) -> usize {
        counted(self.ask_with(other, ffi::fbs_symmetric_difference_count))
    }

    /// Have the sets no common member?
    pub fn is_disjoint(self, other: impl Into<View<'w>>) -> bool {
        told(self.ask_with(other, ffi::fbs_is_disjoint))
    }

    /// Is each member in the other set?
    pub fn is_subset(self, other: impl Into<View<'w>>) -> bool {
        told(self.ask_with(other, ffi::fbs_is_subset))
    }

    /// Is each member of the other set in this one?
    pub fn is_superset(self, other: impl Into<View<'w>>) -> bool {
        told(self.ask_with(other, ffi::fbs_is_superset))
    }

    /// The words of the longer set; of equal lengths, the other's.
    pub fn longer(self, other: impl Into<View<'w>>) -> &'w [u64] {
        let other = other.into();
        let part = self.ask_with(other, ffi::fbs_longer);
        let slice = if part.second { other.words } else { self.words };
        &slice[part.offset..part.offset + part.count]
    }

    /// The members, rising.
    pub fn ones(self) -> Ones<'w> {
        Ones::new(self)
    }

    /// The non-members below the length, rising.
    pub fn zeroes(self) -> Zeroes<'w> {
        Zeroes::new(self)
    }

    /// The members that are in the other set, rising.
    pub fn intersection(self, other: impl Into<View<'w>>) -> Intersection<'w> {
        Intersection::new(self, other.into())
    }

    /// The members that are not in the other set, rising.
    pub fn difference(self, other: impl Into<View<'w>>) -> Difference<'w> {
        Difference::new(self, other.into())
    }

    /// The members, rising, then those of the other set that are not members, rising.
    pub fn union(self, other: impl Into<View<'w>>) -> Union<'w> {
        Union::new(self, other.into())
    }

    /// The members that are not in the other set, rising, then those of the other set that are not members, rising.
    pub fn symmetric_difference(self, other: impl Into<View<'w>>) -> SymmetricDifference<'w> {
        SymmetricDifference::new(self, other.into())
    }
}

/// Equal length and members.
impl PartialEq for View<'_> {
    fn eq(&self, other: &Self) -> bool {
        told(self.ask_with(*other, ffi::fbs_eq))
    }
}

impl Eq for View<'_> {}

impl PartialOrd for View<'_> {
    fn partial_cmp(&self, other: &Self) -> Option<Ordering> {
        Some(self.cmp(other))
    }
}

/// Length first, then words from word 0 upwards.
impl Ord for View<'_> {
    fn cmp(&self, other: &Self) -> Ordering {
        let compared = self.ask_with(*other, ffi::fbs_cmp);
        match unrefused(compared.number, compared.order) {
            0 => Ordering::Equal,
            1 => Ordering::Less,
            _ => Ordering::Greater,
        }
    }
}
