//! Walks as iterators. Each keeps the sets, the records of its parts, and some positions that one call has given for the front; a step at the back is a
//! call of its own.

use crate::ffi::{self, FbsNextMany, FbsNextManyPair, FbsPart, FbsSet, FbsStepped, FbsSteppedPair};
use crate::refusal::{unrefused, UNREFUSED};
use crate::view::View;
use std::fmt;
use std::iter::FusedIterator;

/// How many positions a call gives for the front. The first call of a walk asks for one: often only that is wanted.
const BUFFER: usize = 128;
const FIRST: usize = 1;

fn first(view: View<'_>) -> FbsPart {
    // SAFETY: a plain number.
    unsafe { ffi::fbs_first_part(view.raw().0) }
}

/// Positions of which a call has taken the front steps, and that are not given yet.
#[derive(Clone)]
struct Front {
    positions: [u64; BUFFER],
    next: usize,
    end: usize,
    /// How many positions calls have given, at both ends.
    taken: usize,
    /// Has a call said that the walk is over? What is here is then all that is left.
    over: bool,
}

impl Front {
    fn new() -> Self {
        Front { positions: [0; BUFFER], next: 0, end: 0, taken: 0, over: false }
    }

    fn left(&self) -> &[u64] {
        &self.positions[self.next..self.end]
    }

    fn pop(&mut self) -> Option<usize> {
        if self.next == self.end {
            return None;
        }
        // The remainder spares a test: `next` is below `end`, which is at most `BUFFER`.
        let position = self.positions[self.next % BUFFER];
        self.next += 1;
        Some(position as usize)
    }

    fn pop_back(&mut self) -> Option<usize> {
        let position = *self.left().last()?;
        self.end -= 1;
        Some(position as usize)
    }

    /// After a call for `size` positions that gave `count`.
    fn took(&mut self, count: usize, size: usize) {
        self.taken += count;
        self.over = count < size;
    }
}

impl fmt::Debug for Front {
    fn fmt(&self, f: &mut fmt::Formatter<'_>) -> fmt::Result {
        f.debug_struct("Front").field("left", &self.left()).field("taken", &self.taken).field("over", &self.over).finish()
    }
}

type StepOfOne = unsafe extern "C" fn(FbsSet, *const u64, usize, FbsPart) -> FbsStepped;
type StepOfTwo = unsafe extern "C" fn(FbsSet, *const u64, usize, FbsSet, *const u64, usize, FbsPart) -> FbsStepped;
type StepOfParts = unsafe extern "C" fn(FbsSet, *const u64, usize, FbsSet, *const u64, usize, FbsPart, FbsPart) -> FbsSteppedPair;
type ManyOfOne = unsafe extern "C" fn(FbsSet, *const u64, usize, FbsPart, *mut u64, usize) -> FbsNextMany;
type ManyOfTwo = unsafe extern "C" fn(FbsSet, *const u64, usize, FbsSet, *const u64, usize, FbsPart, *mut u64, usize) -> FbsNextMany;
type ManyOfParts = unsafe extern "C" fn(FbsSet, *const u64, usize, FbsSet, *const u64, usize, FbsPart, FbsPart, *mut u64, usize) -> FbsNextManyPair;

/// A walk over one set.
///
/// A step at the back changes one number of a record, so only that is copied: a copy of the whole record has to wait for the stores of the call.
#[derive(Clone, Debug)]
struct OneSet<'w> {
    set: View<'w>,
    part: FbsPart,
}

impl<'w> OneSet<'w> {
    fn new(set: View<'w>) -> Self {
        OneSet { set, part: first(set) }
    }

    #[inline]
    fn step_back(&mut self, step: StepOfOne) -> Option<usize> {
        let (set, words, size) = self.set.raw();
        // SAFETY: the pointer and the number of words are those of a slice.
        let stepped = unsafe { step(set, words, size, self.part) };
        self.part.high = stepped.part.high;
        unrefused(stepped.number, stepped.found.then_some(stepped.at))
    }

    fn many(&mut self, many: ManyOfOne, out: &mut [u64]) -> usize {
        let (set, words, size) = self.set.raw();
        // SAFETY: the pointers and the numbers of words are those of slices, and the one that is written is borrowed alone.
        let many = unsafe { many(set, words, size, self.part, out.as_mut_ptr(), out.len()) };
        self.part = many.part;
        unrefused(many.number, many.count)
    }
}

/// A walk of one part over two sets.
#[derive(Clone, Debug)]
struct TwoSets<'w> {
    a: View<'w>,
    b: View<'w>,
    part: FbsPart,
}

impl<'w> TwoSets<'w> {
    fn new(a: View<'w>, b: View<'w>) -> Self {
        TwoSets { a, b, part: first(a) }
    }

    #[inline]
    fn step_back(&mut self, step: StepOfTwo) -> Option<usize> {
        let ((a, words, size), (b, others, other_size)) = (self.a.raw(), self.b.raw());
        // SAFETY: the pointers and the numbers of words are those of slices.
        let stepped = unsafe { step(a, words, size, b, others, other_size, self.part) };
        self.part.high = stepped.part.high;
        unrefused(stepped.number, stepped.found.then_some(stepped.at))
    }

    fn many(&mut self, many: ManyOfTwo, out: &mut [u64]) -> usize {
        let ((a, words, size), (b, others, other_size)) = (self.a.raw(), self.b.raw());
        // SAFETY: the pointers and the numbers of words are those of slices, and the one that is written is borrowed alone.
        let many = unsafe { many(a, words, size, b, others, other_size, self.part, out.as_mut_ptr(), out.len()) };
        self.part = many.part;
        unrefused(many.number, many.count)
    }
}

/// A walk of two parts: the first over the first set, the second over the second.
#[derive(Clone, Debug)]
struct TwoParts<'w> {
    a: View<'w>,
    b: View<'w>,
    one: FbsPart,
    two: FbsPart,
}

impl<'w> TwoParts<'w> {
    fn new(a: View<'w>, b: View<'w>) -> Self {
        TwoParts { a, b, one: first(a), two: first(b) }
    }

    #[inline]
    fn step_back(&mut self, step: StepOfParts) -> Option<usize> {
        let ((a, words, size), (b, others, other_size)) = (self.a.raw(), self.b.raw());
        // SAFETY: the pointers and the numbers of words are those of slices.
        let stepped = unsafe { step(a, words, size, b, others, other_size, self.one, self.two) };
        if stepped.one.high == self.one.high {
            self.two.high = stepped.two.high;
        } else {
            // The second part is over: its record is closed, so that no later call looks through it again.
            (self.one.high, self.two.high) = (stepped.one.high, self.two.low);
        }
        unrefused(stepped.number, stepped.found.then_some(stepped.at))
    }

    fn many(&mut self, many: ManyOfParts, out: &mut [u64]) -> usize {
        let ((a, words, size), (b, others, other_size)) = (self.a.raw(), self.b.raw());
        // SAFETY: the pointers and the numbers of words are those of slices, and the one that is written is borrowed alone.
        let many = unsafe { many(a, words, size, b, others, other_size, self.one, self.two, out.as_mut_ptr(), out.len()) };
        self.one = many.one;
        if many.two != self.two {
            // The first part is over.
            self.one.low = self.one.high;
        }
        self.two = many.two;
        unrefused(many.number, many.count)
    }
}

/// An iterator over a kind of walk: its sets, its count, its front steps in one call and, where it has one, its back step.
macro_rules! walk {
    ($(#[$doc:meta])* $name:ident, $kind:ident, ($($set:ident),+), $count:expr, $next_many:ident $(, $next_back:ident)?) => {
        $(#[$doc])*
        #[derive(Clone, Debug)]
        pub struct $name<'w> {
            walk: $kind<'w>,
            front: Front,
        }

        impl<'w> $name<'w> {
            pub(crate) fn new($($set: View<'w>),+) -> Self {
                $name { walk: $kind::new($($set),+), front: Front::new() }
            }

            /// Writes the next positions to the first words of `out`, as many as it has words or as are left, and gives their number. The words after them
            /// stay.
            pub fn next_many(&mut self, out: &mut [u64]) -> usize {
                let kept = self.front.left();
                let kept = &kept[..kept.len().min(out.len())];
                let (first, rest) = out.split_at_mut(kept.len());
                first.copy_from_slice(kept);
                self.front.next += first.len();
                if self.front.over || rest.is_empty() {
                    return first.len();
                }
                let count = self.walk.many(ffi::$next_many, rest);
                self.front.took(count, rest.len());
                first.len() + count
            }

            /// Asks for `size` positions, which is at most `BUFFER`, where none is left here and the walk is not over.
            #[cold]
            #[inline(never)]
            fn fill(&mut self, size: usize) {
                if self.front.next == self.front.end && !self.front.over {
                    let count = self.walk.many(ffi::$next_many, &mut self.front.positions[..size]);
                    self.front.took(count, size);
                    (self.front.next, self.front.end) = (0, count);
                }
            }

            /// How many positions are left. The count of the whole walk is asked only where that is not known yet.
            fn left(&self) -> usize {
                let here = self.front.left().len();
                if self.front.over {
                    return here;
                }
                let whole: fn(&$kind<'w>) -> usize = $count;
                whole(&self.walk) - self.front.taken + here
            }
        }

        impl Iterator for $name<'_> {
            type Item = usize;

            #[inline]
            fn next(&mut self) -> Option<usize> {
                if self.front.next == self.front.end {
                    self.fill(if self.front.taken == 0 { FIRST } else { BUFFER });
                }
                self.front.pop()
            }

            /// Exact. It may cost a count over the sets.
            fn size_hint(&self) -> (usize, Option<usize>) {
                let left = self.left();
                (left, Some(left))
            }

            fn count(self) -> usize {
                self.left()
            }

            #[inline]
            fn fold<B, F: FnMut(B, usize) -> B>(mut self, init: B, mut f: F) -> B {
                let mut folded = init;
                loop {
                    self.fill(BUFFER);
                    if self.front.left().is_empty() {
                        return folded;
                    }
                    folded = self.front.left().iter().fold(folded, |folded, position| f(folded, *position as usize));
                    self.front.next = self.front.end;
                }
            }

            // A whole buffer first, since a walk that it holds needs no count; and by a range, whose length a vector relies on.
            #[inline]
            fn collect<B: FromIterator<usize>>(mut self) -> B {
                self.fill(BUFFER);
                let left = self.left();
                B::from_iter((0..left).map(|_| self.next().expect("as many positions as are counted")))
            }
        }

        $(impl DoubleEndedIterator for $name<'_> {
            #[inline]
            fn next_back(&mut self) -> Option<usize> {
                if !self.front.over {
                    let found = self.walk.step_back(ffi::$next_back);
                    self.front.took(usize::from(found.is_some()), 1);
                    if found.is_some() {
                        return found;
                    }
                }
                self.front.pop_back()
            }
        })?

        impl ExactSizeIterator for $name<'_> {}

        impl FusedIterator for $name<'_> {}
    };
}

walk! {
    /// The members of a set, rising.
    ///
    /// ```
    /// use lent_bit_sets::{Refusal, View};
    /// let words = [1 << 63 | 1, 1];
    /// let mut ones = View::new(65, &words)?.ones();
    /// assert_eq!((ones.next(), ones.next_back(), ones.next()), (Some(0), Some(64), Some(63)));
    /// assert_eq!((ones.next(), ones.next_back()), (None, None));
    /// # Ok::<(), Refusal>(())
    /// ```
    ///
    /// Many positions in one call:
    ///
    /// ```
    /// use lent_bit_sets::{Refusal, View};
    /// let words = [0b1011, 1];
    /// let mut ones = View::new(65, &words)?.ones();
    /// let mut out = [0; 3];
    /// assert_eq!(ones.len(), 4);
    /// assert_eq!((ones.next_many(&mut out), out), (3, [0, 1, 3]));
    /// assert_eq!((ones.next_many(&mut out), out), (1, [64, 1, 3]));
    /// assert_eq!(ones.next_many(&mut out), 0);
    /// # Ok::<(), Refusal>(())
    /// ```
    Ones, OneSet, (set), |walk| walk.set.count_ones(..).expect(UNREFUSED), fbs_ones_next_many, fbs_ones_next_back
}

walk! {
    /// The non-members below the length, rising; from the front only.
    ///
    /// ```
    /// use lent_bit_sets::{Refusal, View};
    /// let zeroes = View::new(3, &[2])?.zeroes();
    /// assert_eq!(zeroes.len(), 2);
    /// assert_eq!(zeroes.collect::<Vec<_>>(), [0, 2]);
    /// # Ok::<(), Refusal>(())
    /// ```
    Zeroes, OneSet, (set), |walk| walk.set.count_zeroes(..).expect(UNREFUSED), fbs_zeroes_next_many
}

walk! {
    /// The members of the first set that are in the second, rising.
    Intersection, TwoSets, (a, b), |walk| walk.a.intersection_count(walk.b), fbs_intersection_next_many, fbs_intersection_next_back
}

walk! {
    /// The members of the first set that are not in the second, rising.
    Difference, TwoSets, (a, b), |walk| walk.a.difference_count(walk.b), fbs_difference_next_many, fbs_difference_next_back
}

walk! {
    /// The members of the first set, rising, then those of the second that are not in the first, rising.
    ///
    /// ```
    /// use lent_bit_sets::{Refusal, View};
    /// let (a, b) = (View::new(71, &[2, 64])?, View::new(2, &[3])?);
    /// assert_eq!(a.union(b).collect::<Vec<_>>(), [1, 70, 0]);
    /// assert_eq!(a.union(b).rev().collect::<Vec<_>>(), [0, 70, 1]);
    /// # Ok::<(), Refusal>(())
    /// ```
    Union, TwoParts, (a, b), |walk| walk.a.union_count(walk.b), fbs_union_next_many, fbs_union_next_back
}

walk! {
    /// The members of the first set that are not in the second, rising, then those of the second that are not in the first, rising.
    SymmetricDifference, TwoParts, (a, b), |walk| walk.a.symmetric_difference_count(walk.b), fbs_symmetric_difference_next_many, fbs_symmetric_difference_next_back
}
