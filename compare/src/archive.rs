//! The engine's archive, through the raw C interface of the bindings.

use crate::cases::{
    accepted, Answer, Call, Case, Direction, Edit, Engine, History, Lent, Outcome, Ran, Record, Renumbering, Step, Walk, WalkCase, Walked,
};
use crate::inputs::CALLERS;
use lent_bit_sets::ffi::*;

pub struct Archive;

fn set(lent: &Lent) -> FbsSet {
    FbsSet { length: lent.length }
}

fn part(record: Record) -> FbsPart {
    FbsPart { low: record.low, high: record.high }
}

fn record(part: FbsPart) -> Record {
    Record { low: part.low, high: part.high }
}

/// `at` is 0 where none is found; any other number there is shown as a position, so that it differs.
fn found(found: bool, at: usize) -> Option<usize> {
    (found || at != 0).then_some(at)
}

fn edited(edited: FbsEdited) -> Outcome {
    Outcome { number: edited.number, answer: Answer::Length(edited.set.length) }
}

fn told(told: FbsTold) -> Outcome {
    Outcome { number: told.number, answer: Answer::Yes(told.yes) }
}

fn counted(counted: FbsCounted) -> Outcome {
    Outcome { number: counted.number, answer: Answer::Count(counted.count) }
}

fn extreme(at: FbsFound) -> Outcome {
    Outcome { number: at.number, answer: Answer::Found(found(at.found, at.at)) }
}

fn edit(edit: Edit, a: &mut Lent, b: &Lent) -> Outcome {
    let (s, w, n) = (set(a), a.words.as_mut_ptr(), a.words.len());
    let (t, v, m) = (set(b), b.words.as_ptr(), b.words.len());
    // SAFETY: each pointer is that of a slice, with its number of words; none overlaps that of the first set.
    unsafe {
        edited(match edit {
            Edit::Insert(p) => fbs_insert(s, w, n, p),
            Edit::Remove(p) => fbs_remove(s, w, n, p),
            Edit::Put(p) => {
                let replaced = fbs_put(s, w, n, p);
                return Outcome { number: replaced.number, answer: Answer::Put { length: replaced.set.length, was: replaced.was } };
            }
            Edit::Toggle(p) => fbs_toggle(s, w, n, p),
            Edit::Set(p, enabled) => fbs_set(s, w, n, p, enabled),
            Edit::CopyBit(from, to) => fbs_copy_bit(s, w, n, from, to),
            Edit::InsertRange(start, end) => fbs_insert_range(s, w, n, start, end),
            Edit::RemoveRange(start, end) => fbs_remove_range(s, w, n, start, end),
            Edit::ToggleRange(start, end) => fbs_toggle_range(s, w, n, start, end),
            Edit::SetRange(start, end, enabled) => fbs_set_range(s, w, n, start, end, enabled),
            Edit::Clear => fbs_clear(s, w, n),
            Edit::Grow(bits) => fbs_grow(s, w, n, bits),
            Edit::GrowAndInsert(p) => fbs_grow_and_insert(s, w, n, p),
            Edit::UnionWith => fbs_union_with(s, w, n, t, v, m),
            Edit::IntersectWith => fbs_intersect_with(s, w, n, t, v, m),
            Edit::DifferenceWith => fbs_difference_with(s, w, n, t, v, m),
            Edit::SymmetricDifferenceWith => fbs_symmetric_difference_with(s, w, n, t, v, m),
            Edit::InsertAll(list) => fbs_insert_all(s, w, n, list.as_ptr(), list.len()),
        })
    }
}

/// Calls on no set.
fn of_words(call: Call) -> Option<Outcome> {
    // SAFETY: plain numbers.
    Some(accepted(unsafe {
        match call {
            Call::WordCountOnes(word) => Answer::Count(fbs_word_count_ones(word)),
            Call::WordLeadingZeros(word) => Answer::Count(fbs_word_leading_zeros(word)),
            Call::WordTrailingZeros(word) => Answer::Count(fbs_word_trailing_zeros(word)),
            Call::LastPositiveBitAndUnset(word) => {
                let last = fbs_last_positive_bit_and_unset(word);
                return Some(Outcome { number: last.number, answer: Answer::LastBit { position: last.position, rest: last.rest } });
            }
            Call::LowMask(r) => Answer::Word(fbs_low_mask(r)),
            Call::AskRange { start, end, length } => Answer::Word(fbs_ask_range(start, end, length)),
            Call::RangeMask { start, end, word } => Answer::Word(fbs_range_mask(start, end, word)),
            Call::Masks { start, end } => {
                let FbsMasks { first_block, end_block, first_mask, last_mask } = fbs_masks(start, end);
                Answer::Masks { first_block, end_block, first_mask, last_mask }
            }
            _ => return None,
        }
    }))
}

fn of_sets(case: &mut Case) -> Outcome {
    let (s, w, n) = (set(&case.a), case.a.words.as_mut_ptr(), case.a.words.len());
    let (t, v, m) = (set(&case.b), case.b.words.as_mut_ptr().cast_const(), case.b.words.len());
    let (o, k) = (case.out.as_mut_ptr(), case.out.len());
    let r = w.cast_const();
    // SAFETY: each pointer is that of a vector, with its number of words; the three vectors do not overlap.
    unsafe {
        match case.call {
            Call::WithCapacity(bits) => edited(fbs_with_capacity(bits, w, n)),
            Call::WithCapacityAndBlocks(bits) => edited(fbs_with_capacity_and_blocks(bits, v, m, w, n)),
            Call::Len => counted(fbs_len(s, r, n)),
            Call::IsEmpty => told(fbs_is_empty(s, r, n)),
            Call::AsSlice => {
                let slice = fbs_as_slice(s, r, n);
                Outcome { number: fbs_as_slice_number(s, r, n), answer: Answer::Part { second: false, offset: slice.offset, count: slice.count } }
            }
            Call::Contains(p) => told(fbs_contains(s, r, n, p)),
            Call::ContainsAllInRange(start, end) => told(fbs_contains_all_in_range(s, r, n, start, end)),
            Call::ContainsAnyInRange(start, end) => told(fbs_contains_any_in_range(s, r, n, start, end)),
            Call::IsFull => told(fbs_is_full(s, r, n)),
            Call::IsClear => told(fbs_is_clear(s, r, n)),
            Call::CountOnes(start, end) => counted(fbs_count_ones(s, r, n, start, end)),
            Call::CountZeroes(start, end) => counted(fbs_count_zeroes(s, r, n, start, end)),
            Call::Minimum => extreme(fbs_minimum(s, r, n)),
            Call::Maximum => extreme(fbs_maximum(s, r, n)),
            Call::BitAnd => edited(fbs_bitand(s, r, n, t, v, m, o, k)),
            Call::BitOr => edited(fbs_bitor(s, r, n, t, v, m, o, k)),
            Call::BitXor => edited(fbs_bitxor(s, r, n, t, v, m, o, k)),
            Call::UnionCount => counted(fbs_union_count(s, r, n, t, v, m)),
            Call::IntersectionCount => counted(fbs_intersection_count(s, r, n, t, v, m)),
            Call::DifferenceCount => counted(fbs_difference_count(s, r, n, t, v, m)),
            Call::SymmetricDifferenceCount => counted(fbs_symmetric_difference_count(s, r, n, t, v, m)),
            Call::IsDisjoint => told(fbs_is_disjoint(s, r, n, t, v, m)),
            Call::IsSubset => told(fbs_is_subset(s, r, n, t, v, m)),
            Call::IsSuperset => told(fbs_is_superset(s, r, n, t, v, m)),
            Call::Eq => told(fbs_eq(s, r, n, t, v, m)),
            Call::Cmp => {
                let compared = fbs_cmp(s, r, n, t, v, m);
                Outcome { number: compared.number, answer: Answer::Order(compared.order) }
            }
            Call::Longer => {
                let longer = fbs_longer(s, r, n, t, v, m);
                let number = fbs_longer_number(s, r, n, t, v, m);
                Outcome { number, answer: Answer::Part { second: longer.second, offset: longer.offset, count: longer.count } }
            }
            Call::FirstPart => accepted(Answer::Record(record(fbs_first_part(s)))),
            Call::Step { walk, back, one, two } => step(walk, back, &case.a, &case.b, one, two),
            Call::NextMany { walk, one, two } => next_many(walk, &case.a, &case.b, one, two, &mut case.out),
            Call::WalkerStep { back, part: p } => stepped(fbs_walker_step(s, r, n, part(p), back), Record::EMPTY),
            _ => unreachable!("every call has a function"),
        }
    }
}

fn stepped(step: FbsStepped, two: Record) -> Outcome {
    Outcome { number: step.number, answer: Answer::Stepped { found: found(step.found, step.at), one: record(step.part), two } }
}

fn stepped_pair(step: FbsSteppedPair) -> Outcome {
    let answer = Answer::Stepped { found: found(step.found, step.at), one: record(step.one), two: record(step.two) };
    Outcome { number: step.number, answer }
}

/// One step.
pub fn step(walk: Walk, back: bool, a: &Lent, b: &Lent, one: Record, two: Record) -> Outcome {
    let (s, w, n) = (set(a), a.words.as_ptr(), a.words.len());
    let (t, v, m) = (set(b), b.words.as_ptr(), b.words.len());
    let (p, q) = (part(one), part(two));
    // SAFETY: each pointer is that of a vector, with its number of words.
    unsafe {
        match (walk, back) {
            (Walk::Ones, false) => stepped(fbs_ones_next(s, w, n, p), two),
            (Walk::Ones, true) => stepped(fbs_ones_next_back(s, w, n, p), two),
            (Walk::Zeroes, _) => stepped(fbs_zeroes_next(s, w, n, p), two),
            (Walk::Intersection, false) => stepped(fbs_intersection_next(s, w, n, t, v, m, p), two),
            (Walk::Intersection, true) => stepped(fbs_intersection_next_back(s, w, n, t, v, m, p), two),
            (Walk::Difference, false) => stepped(fbs_difference_next(s, w, n, t, v, m, p), two),
            (Walk::Difference, true) => stepped(fbs_difference_next_back(s, w, n, t, v, m, p), two),
            (Walk::Union, false) => stepped_pair(fbs_union_next(s, w, n, t, v, m, p, q)),
            (Walk::Union, true) => stepped_pair(fbs_union_next_back(s, w, n, t, v, m, p, q)),
            (Walk::SymmetricDifference, false) => stepped_pair(fbs_symmetric_difference_next(s, w, n, t, v, m, p, q)),
            (Walk::SymmetricDifference, true) => stepped_pair(fbs_symmetric_difference_next_back(s, w, n, t, v, m, p, q)),
        }
    }
}

fn many(many: FbsNextMany, two: Record) -> Outcome {
    Outcome { number: many.number, answer: Answer::Many { count: many.count, one: record(many.part), two } }
}

fn many_pair(many: FbsNextManyPair) -> Outcome {
    Outcome { number: many.number, answer: Answer::Many { count: many.count, one: record(many.one), two: record(many.two) } }
}

/// Front steps in one call.
fn next_many(walk: Walk, a: &Lent, b: &Lent, one: Record, two: Record, out: &mut [u64]) -> Outcome {
    let (s, w, n) = (set(a), a.words.as_ptr(), a.words.len());
    let (t, v, m) = (set(b), b.words.as_ptr(), b.words.len());
    let (p, q) = (part(one), part(two));
    let (o, k) = (out.as_mut_ptr(), out.len());
    // SAFETY: each pointer is that of a slice, with its number of words; the three do not overlap.
    unsafe {
        match walk {
            Walk::Ones => many(fbs_ones_next_many(s, w, n, p, o, k), two),
            Walk::Zeroes => many(fbs_zeroes_next_many(s, w, n, p, o, k), two),
            Walk::Intersection => many(fbs_intersection_next_many(s, w, n, t, v, m, p, o, k), two),
            Walk::Difference => many(fbs_difference_next_many(s, w, n, t, v, m, p, o, k), two),
            Walk::Union => many_pair(fbs_union_next_many(s, w, n, t, v, m, p, q, o, k)),
            Walk::SymmetricDifference => many_pair(fbs_symmetric_difference_next_many(s, w, n, t, v, m, p, q, o, k)),
        }
    }
}

/// The new set in `out`, with its count; a refused one has no bits, and its count none.
fn renumbered(edited: FbsEdited, out: &[u64]) -> Outcome {
    // SAFETY: the pointer is that of a slice, with its number of words.
    let counted = unsafe { fbs_count_ones(edited.set, out.as_ptr(), out.len(), 0, edited.set.length) };
    Outcome { number: edited.number, answer: Answer::Renumbered { length: edited.set.length, count: counted.count } }
}

pub fn renumber(case: &mut Renumbering) -> Outcome {
    let pairs: Vec<FbsPair> = case.pairs.iter().map(|pair| FbsPair { old_offset: pair.old, new_offset: pair.new }).collect();
    let (s, w, n) = (set(&case.set), case.set.words.as_ptr(), case.set.words.len());
    let (p, m) = (pairs.as_ptr(), pairs.len());
    let (o, k) = (case.out.as_mut_ptr(), case.out.len());
    let (a, l) = (case.again.as_mut_ptr(), case.again.len());
    // SAFETY: each pointer is that of a vector, with its number of words or pairs; the vectors do not overlap.
    unsafe {
        match case.direction {
            Direction::Forward => renumbered(fbs_renumber(s, w, n, p, m, case.bits, o, k), &case.out),
            Direction::Back => renumbered(fbs_renumber_back(s, w, n, p, m, case.bits, o, k), &case.out),
            Direction::ForwardAndBack => told(fbs_renumber_and_back(s, w, n, p, m, case.bits, o, k, a, l)),
        }
    }
}

/// The answer of each word of a buffer after many steps: a position for each that is counted, none where the caller's word still stands. A word that was
/// written and is not counted is shown as a position that no set has, so that it differs.
pub fn of_buffer(out: &[u64], count: usize) -> impl Iterator<Item = Option<usize>> + '_ {
    out.iter().enumerate().map(move |(k, word)| match *word {
        word if k < count => Some(word as usize),
        CALLERS => None,
        word => Some(!word as usize),
    })
}

/// The record of a set's part at first.
fn first(lent: &Lent) -> Record {
    // SAFETY: a plain number.
    record(unsafe { fbs_first_part(set(lent)) })
}

impl Engine for Archive {
    fn name(&self) -> &'static str {
        "archive"
    }

    fn call(&self, case: &mut Case) -> Option<Outcome> {
        if let Some(call) = case.call.edit(&case.b.words) {
            return Some(edit(call, &mut case.a, &case.b));
        }
        Some(of_words(case.call).unwrap_or_else(|| of_sets(case)))
    }

    fn renumber(&self, renumbering: &mut Renumbering) -> Option<Outcome> {
        Some(renumber(renumbering))
    }

    fn walk(&self, case: &WalkCase) -> Option<Walked> {
        if case.walk == Walk::Zeroes && case.steps.contains(&Step::Back) {
            return None;
        }
        let mut one = first(&case.a);
        let mut two = if case.walk.of_two_parts() { first(&case.b) } else { Record::EMPTY };
        let mut walked = Walked { number: 0, answers: Vec::with_capacity(case.answers()), records: None };
        for given in &case.steps {
            let mut out = vec![CALLERS; if let Step::Many(size) = given { *size } else { 0 }];
            let outcome = match given {
                Step::Many(_) => next_many(case.walk, &case.a, &case.b, one, two, &mut out),
                end => step(case.walk, *end == Step::Back, &case.a, &case.b, one, two),
            };
            match outcome.answer {
                Answer::Stepped { found, one: first, two: second } => {
                    walked.answers.push(found);
                    (one, two) = (first, second);
                }
                Answer::Many { count, one: first, two: second } => {
                    walked.answers.extend(of_buffer(&out, count));
                    (one, two) = (first, second);
                }
                _ => {}
            }
            if outcome.number != 0 {
                walked.number = outcome.number;
            }
        }
        walked.records = Some((one, two));
        Some(walked)
    }

    fn history(&self, history: &mut History) -> Option<Ran> {
        // SAFETY: each pointer is that of a vector, with its number of words; the vectors do not overlap.
        let ran = unsafe {
            fbs_run_history(
                history.a_bits,
                history.a_words.as_mut_ptr(),
                history.a_words.len(),
                history.b_bits,
                history.b_words.as_mut_ptr(),
                history.b_words.len(),
                history.calls.as_ptr(),
                history.calls.len(),
                history.positions.as_ptr(),
                history.positions.len(),
                history.walk,
                history.steps.as_ptr(),
                history.steps.len(),
                history.out.as_mut_ptr(),
                history.out.len(),
            )
        };
        Some(Ran { number: ran.number, a_length: ran.a.length, b_length: ran.b.length, count: ran.count })
    }
}
