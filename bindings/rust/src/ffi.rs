//! The C interface as declared in bindings/c/fbs.h: the raw functions and records. tests/header.rs compares the two files.
//!
//! A slice is a pointer and a number of words, or of pairs. `number` is 0 for an accepted call and otherwise the number of the first question that was
//! answered no. Every function asks its questions itself, so the only duties of a caller are those of the pointers: each is valid for as many
//! words or pairs as the number beside it, and the words of a slice that is written overlap no other slice of the call.

/// A set: its length in bits. Its words are lent beside it.
#[repr(C)]
#[derive(Clone, Copy, Debug, PartialEq, Eq)]
pub struct FbsSet {
    pub length: usize,
}

/// The set after an edit.
#[repr(C)]
#[derive(Clone, Copy, Debug, PartialEq, Eq)]
pub struct FbsEdited {
    pub number: u64,
    pub set: FbsSet,
}

/// The set after `put`, and what was there.
#[repr(C)]
#[derive(Clone, Copy, Debug, PartialEq, Eq)]
pub struct FbsReplaced {
    pub number: u64,
    pub set: FbsSet,
    pub was: bool,
}

/// A yes or no.
#[repr(C)]
#[derive(Clone, Copy, Debug, PartialEq, Eq)]
pub struct FbsTold {
    pub number: u64,
    pub yes: bool,
}

/// A count.
#[repr(C)]
#[derive(Clone, Copy, Debug, PartialEq, Eq)]
pub struct FbsCounted {
    pub number: u64,
    pub count: usize,
}

/// An order: 0 equal, 1 below, 2 above.
#[repr(C)]
#[derive(Clone, Copy, Debug, PartialEq, Eq)]
pub struct FbsCompared {
    pub number: u64,
    pub order: u64,
}

/// A position, or none.
#[repr(C)]
#[derive(Clone, Copy, Debug, PartialEq, Eq)]
pub struct FbsFound {
    pub number: u64,
    pub found: bool,
    pub at: usize,
}

/// The lowest bit of a word, and the word without it.
#[repr(C)]
#[derive(Clone, Copy, Debug, PartialEq, Eq)]
pub struct FbsLastBit {
    pub number: u64,
    pub position: usize,
    pub rest: u64,
}

/// The words that a range meets, and the masks of the first and the last.
#[repr(C)]
#[derive(Clone, Copy, Debug, PartialEq, Eq)]
pub struct FbsMasks {
    pub first_block: usize,
    pub end_block: usize,
    pub first_mask: u64,
    pub last_mask: u64,
}

/// A part of the lent slice.
#[repr(C)]
#[derive(Clone, Copy, Debug, PartialEq, Eq)]
pub struct FbsSlice {
    pub offset: usize,
    pub count: usize,
}

/// A part of the second slice or of the first.
#[repr(C)]
#[derive(Clone, Copy, Debug, PartialEq, Eq)]
pub struct FbsLonger {
    pub second: bool,
    pub offset: usize,
    pub count: usize,
}

/// The record of a part of a walk.
#[repr(C)]
#[derive(Clone, Copy, Debug, PartialEq, Eq)]
pub struct FbsPart {
    pub low: usize,
    pub high: usize,
}

/// A step of a walk of one part.
#[repr(C)]
#[derive(Clone, Copy, Debug, PartialEq, Eq)]
pub struct FbsStepped {
    pub number: u64,
    pub found: bool,
    pub at: usize,
    pub part: FbsPart,
}

/// A step of a walk of two parts.
#[repr(C)]
#[derive(Clone, Copy, Debug, PartialEq, Eq)]
pub struct FbsSteppedPair {
    pub number: u64,
    pub found: bool,
    pub at: usize,
    pub one: FbsPart,
    pub two: FbsPart,
}

/// Many front steps of a walk of one part: how many positions are written.
#[repr(C)]
#[derive(Clone, Copy, Debug, PartialEq, Eq)]
pub struct FbsNextMany {
    pub number: u64,
    pub count: usize,
    pub part: FbsPart,
}

/// Many front steps of a walk of two parts.
#[repr(C)]
#[derive(Clone, Copy, Debug, PartialEq, Eq)]
pub struct FbsNextManyPair {
    pub number: u64,
    pub count: usize,
    pub one: FbsPart,
    pub two: FbsPart,
}

/// A position of the old set and its place in the new one.
#[repr(C)]
#[derive(Clone, Copy, Debug, PartialEq, Eq)]
pub struct FbsPair {
    pub old_offset: u64,
    pub new_offset: u64,
}

/// Both sets after a history, and the count of its walk.
#[repr(C)]
#[derive(Clone, Copy, Debug, PartialEq, Eq)]
pub struct FbsRan {
    pub number: u64,
    pub a: FbsSet,
    pub b: FbsSet,
    pub count: usize,
}

extern "C" {
    // one word
    pub fn fbs_word_count_ones(word: u64) -> usize;
    pub fn fbs_word_leading_zeros(word: u64) -> usize;
    pub fn fbs_word_trailing_zeros(word: u64) -> usize;
    pub fn fbs_last_positive_bit_and_unset(word: u64) -> FbsLastBit;
    pub fn fbs_low_mask(r: usize) -> u64;
    // ranges
    pub fn fbs_ask_range(start: usize, end: usize, length: usize) -> u64;
    pub fn fbs_range_mask(start: usize, end: usize, word: usize) -> u64;
    pub fn fbs_masks(start: usize, end: usize) -> FbsMasks;
    // fresh sets
    pub fn fbs_with_capacity(bits: usize, words: *mut u64, size: usize) -> FbsEdited;
    pub fn fbs_with_capacity_and_blocks(bits: usize, blocks: *const u64, count: usize, words: *mut u64, size: usize) -> FbsEdited;
    // views
    pub fn fbs_len(set: FbsSet, words: *const u64, size: usize) -> FbsCounted;
    pub fn fbs_is_empty(set: FbsSet, words: *const u64, size: usize) -> FbsTold;
    pub fn fbs_as_slice(set: FbsSet, words: *const u64, size: usize) -> FbsSlice;
    pub fn fbs_as_slice_number(set: FbsSet, words: *const u64, size: usize) -> u64;
    // edits
    pub fn fbs_insert(set: FbsSet, words: *mut u64, size: usize, bit: usize) -> FbsEdited;
    pub fn fbs_remove(set: FbsSet, words: *mut u64, size: usize, bit: usize) -> FbsEdited;
    pub fn fbs_put(set: FbsSet, words: *mut u64, size: usize, bit: usize) -> FbsReplaced;
    pub fn fbs_toggle(set: FbsSet, words: *mut u64, size: usize, bit: usize) -> FbsEdited;
    pub fn fbs_set(set: FbsSet, words: *mut u64, size: usize, bit: usize, enabled: bool) -> FbsEdited;
    pub fn fbs_copy_bit(set: FbsSet, words: *mut u64, size: usize, from: usize, to: usize) -> FbsEdited;
    pub fn fbs_insert_range(set: FbsSet, words: *mut u64, size: usize, start: usize, end: usize) -> FbsEdited;
    pub fn fbs_remove_range(set: FbsSet, words: *mut u64, size: usize, start: usize, end: usize) -> FbsEdited;
    pub fn fbs_toggle_range(set: FbsSet, words: *mut u64, size: usize, start: usize, end: usize) -> FbsEdited;
    pub fn fbs_set_range(set: FbsSet, words: *mut u64, size: usize, start: usize, end: usize, enabled: bool) -> FbsEdited;
    pub fn fbs_clear(set: FbsSet, words: *mut u64, size: usize) -> FbsEdited;
    pub fn fbs_grow(set: FbsSet, words: *mut u64, size: usize, bits: usize) -> FbsEdited;
    pub fn fbs_grow_and_insert(set: FbsSet, words: *mut u64, size: usize, bit: usize) -> FbsEdited;
    pub fn fbs_insert_all(set: FbsSet, words: *mut u64, size: usize, positions: *const u64, positions_size: usize) -> FbsEdited;
    // tests and counts
    pub fn fbs_contains(set: FbsSet, words: *const u64, size: usize, bit: usize) -> FbsTold;
    pub fn fbs_contains_all_in_range(set: FbsSet, words: *const u64, size: usize, start: usize, end: usize) -> FbsTold;
    pub fn fbs_contains_any_in_range(set: FbsSet, words: *const u64, size: usize, start: usize, end: usize) -> FbsTold;
    pub fn fbs_is_full(set: FbsSet, words: *const u64, size: usize) -> FbsTold;
    pub fn fbs_is_clear(set: FbsSet, words: *const u64, size: usize) -> FbsTold;
    pub fn fbs_count_ones(set: FbsSet, words: *const u64, size: usize, start: usize, end: usize) -> FbsCounted;
    pub fn fbs_count_zeroes(set: FbsSet, words: *const u64, size: usize, start: usize, end: usize) -> FbsCounted;
    pub fn fbs_minimum(set: FbsSet, words: *const u64, size: usize) -> FbsFound;
    pub fn fbs_maximum(set: FbsSet, words: *const u64, size: usize) -> FbsFound;
    // two sets: the first is a over words, the second b over other
    pub fn fbs_union_with(a: FbsSet, words: *mut u64, size: usize, b: FbsSet, other: *const u64, other_size: usize) -> FbsEdited;
    pub fn fbs_intersect_with(a: FbsSet, words: *mut u64, size: usize, b: FbsSet, other: *const u64, other_size: usize) -> FbsEdited;
    pub fn fbs_difference_with(a: FbsSet, words: *mut u64, size: usize, b: FbsSet, other: *const u64, other_size: usize) -> FbsEdited;
    pub fn fbs_symmetric_difference_with(a: FbsSet, words: *mut u64, size: usize, b: FbsSet, other: *const u64, other_size: usize) -> FbsEdited;
    pub fn fbs_bitand(
        a: FbsSet,
        words: *const u64,
        size: usize,
        b: FbsSet,
        other: *const u64,
        other_size: usize,
        out: *mut u64,
        out_size: usize,
    ) -> FbsEdited;
    pub fn fbs_bitor(
        a: FbsSet,
        words: *const u64,
        size: usize,
        b: FbsSet,
        other: *const u64,
        other_size: usize,
        out: *mut u64,
        out_size: usize,
    ) -> FbsEdited;
    pub fn fbs_bitxor(
        a: FbsSet,
        words: *const u64,
        size: usize,
        b: FbsSet,
        other: *const u64,
        other_size: usize,
        out: *mut u64,
        out_size: usize,
    ) -> FbsEdited;
    pub fn fbs_union_count(a: FbsSet, words: *const u64, size: usize, b: FbsSet, other: *const u64, other_size: usize) -> FbsCounted;
    pub fn fbs_intersection_count(a: FbsSet, words: *const u64, size: usize, b: FbsSet, other: *const u64, other_size: usize) -> FbsCounted;
    pub fn fbs_difference_count(a: FbsSet, words: *const u64, size: usize, b: FbsSet, other: *const u64, other_size: usize) -> FbsCounted;
    pub fn fbs_symmetric_difference_count(a: FbsSet, words: *const u64, size: usize, b: FbsSet, other: *const u64, other_size: usize) -> FbsCounted;
    pub fn fbs_is_disjoint(a: FbsSet, words: *const u64, size: usize, b: FbsSet, other: *const u64, other_size: usize) -> FbsTold;
    pub fn fbs_is_subset(a: FbsSet, words: *const u64, size: usize, b: FbsSet, other: *const u64, other_size: usize) -> FbsTold;
    pub fn fbs_is_superset(a: FbsSet, words: *const u64, size: usize, b: FbsSet, other: *const u64, other_size: usize) -> FbsTold;
    pub fn fbs_eq(a: FbsSet, words: *const u64, size: usize, b: FbsSet, other: *const u64, other_size: usize) -> FbsTold;
    pub fn fbs_cmp(a: FbsSet, words: *const u64, size: usize, b: FbsSet, other: *const u64, other_size: usize) -> FbsCompared;
    pub fn fbs_longer(a: FbsSet, words: *const u64, size: usize, b: FbsSet, other: *const u64, other_size: usize) -> FbsLonger;
    pub fn fbs_longer_number(a: FbsSet, words: *const u64, size: usize, b: FbsSet, other: *const u64, other_size: usize) -> u64;
    // a set moved to another layout by pairs of an old and a new offset, the same with every pair swapped, and both: does the old set stand again?
    pub fn fbs_renumber(
        set: FbsSet,
        words: *const u64,
        size: usize,
        pairs: *const FbsPair,
        pairs_size: usize,
        bits: usize,
        out: *mut u64,
        out_size: usize,
    ) -> FbsEdited;
    pub fn fbs_renumber_back(
        set: FbsSet,
        words: *const u64,
        size: usize,
        pairs: *const FbsPair,
        pairs_size: usize,
        bits: usize,
        out: *mut u64,
        out_size: usize,
    ) -> FbsEdited;
    pub fn fbs_renumber_and_back(
        set: FbsSet,
        words: *const u64,
        size: usize,
        pairs: *const FbsPair,
        pairs_size: usize,
        bits: usize,
        out: *mut u64,
        out_size: usize,
        again: *mut u64,
        again_size: usize,
    ) -> FbsTold;
    // walks: a part's record goes in and comes back
    pub fn fbs_first_part(set: FbsSet) -> FbsPart;
    pub fn fbs_ones_next(set: FbsSet, words: *const u64, size: usize, part: FbsPart) -> FbsStepped;
    pub fn fbs_ones_next_back(set: FbsSet, words: *const u64, size: usize, part: FbsPart) -> FbsStepped;
    pub fn fbs_zeroes_next(set: FbsSet, words: *const u64, size: usize, part: FbsPart) -> FbsStepped;
    pub fn fbs_intersection_next(
        a: FbsSet,
        words: *const u64,
        size: usize,
        b: FbsSet,
        other: *const u64,
        other_size: usize,
        part: FbsPart,
    ) -> FbsStepped;
    pub fn fbs_intersection_next_back(
        a: FbsSet,
        words: *const u64,
        size: usize,
        b: FbsSet,
        other: *const u64,
        other_size: usize,
        part: FbsPart,
    ) -> FbsStepped;
    pub fn fbs_difference_next(
        a: FbsSet,
        words: *const u64,
        size: usize,
        b: FbsSet,
        other: *const u64,
        other_size: usize,
        part: FbsPart,
    ) -> FbsStepped;
    pub fn fbs_difference_next_back(
        a: FbsSet,
        words: *const u64,
        size: usize,
        b: FbsSet,
        other: *const u64,
        other_size: usize,
        part: FbsPart,
    ) -> FbsStepped;
    pub fn fbs_union_next(
        a: FbsSet,
        words: *const u64,
        size: usize,
        b: FbsSet,
        other: *const u64,
        other_size: usize,
        one: FbsPart,
        two: FbsPart,
    ) -> FbsSteppedPair;
    pub fn fbs_union_next_back(
        a: FbsSet,
        words: *const u64,
        size: usize,
        b: FbsSet,
        other: *const u64,
        other_size: usize,
        one: FbsPart,
        two: FbsPart,
    ) -> FbsSteppedPair;
    pub fn fbs_symmetric_difference_next(
        a: FbsSet,
        words: *const u64,
        size: usize,
        b: FbsSet,
        other: *const u64,
        other_size: usize,
        one: FbsPart,
        two: FbsPart,
    ) -> FbsSteppedPair;
    pub fn fbs_symmetric_difference_next_back(
        a: FbsSet,
        words: *const u64,
        size: usize,
        b: FbsSet,
        other: *const u64,
        other_size: usize,
        one: FbsPart,
        two: FbsPart,
    ) -> FbsSteppedPair;
    // many front steps in one call: their positions in the first words of out, as many as it has or as the walk has left
    pub fn fbs_ones_next_many(set: FbsSet, words: *const u64, size: usize, part: FbsPart, out: *mut u64, out_size: usize) -> FbsNextMany;
    pub fn fbs_zeroes_next_many(set: FbsSet, words: *const u64, size: usize, part: FbsPart, out: *mut u64, out_size: usize) -> FbsNextMany;
    pub fn fbs_intersection_next_many(
        a: FbsSet,
        words: *const u64,
        size: usize,
        b: FbsSet,
        other: *const u64,
        other_size: usize,
        part: FbsPart,
        out: *mut u64,
        out_size: usize,
    ) -> FbsNextMany;
    pub fn fbs_difference_next_many(
        a: FbsSet,
        words: *const u64,
        size: usize,
        b: FbsSet,
        other: *const u64,
        other_size: usize,
        part: FbsPart,
        out: *mut u64,
        out_size: usize,
    ) -> FbsNextMany;
    pub fn fbs_union_next_many(
        a: FbsSet,
        words: *const u64,
        size: usize,
        b: FbsSet,
        other: *const u64,
        other_size: usize,
        one: FbsPart,
        two: FbsPart,
        out: *mut u64,
        out_size: usize,
    ) -> FbsNextManyPair;
    pub fn fbs_symmetric_difference_next_many(
        a: FbsSet,
        words: *const u64,
        size: usize,
        b: FbsSet,
        other: *const u64,
        other_size: usize,
        one: FbsPart,
        two: FbsPart,
        out: *mut u64,
        out_size: usize,
    ) -> FbsNextManyPair;
    // a step of the walker that keeps the set's words: back is the end
    pub fn fbs_walker_step(set: FbsSet, words: *const u64, size: usize, part: FbsPart, back: bool) -> FbsStepped;
    // a whole history: two fresh sets, calls of five numbers each, positions that the calls of insert_all (17) name by start and end, a walk (0 ones, 1 intersection, 2 difference, 3 union, 4 symmetric difference; any other is refused with 99), steps (0 front, else back), an answer for each step in out (the position, or 2^64 - 1 for none), and the walk's count
    pub fn fbs_run_history(
        a_bits: usize,
        words: *mut u64,
        size: usize,
        b_bits: usize,
        other: *mut u64,
        other_size: usize,
        calls: *const u64,
        calls_size: usize,
        positions: *const u64,
        positions_size: usize,
        walk: u64,
        steps: *const u64,
        steps_size: usize,
        out: *mut u64,
        out_size: usize,
    ) -> FbsRan;
}
