//! The Rust reference, unchanged, over the same cases. A panic is the refusal that it matches: 4 of a position, 5 of a range.
//!
//! It can be asked what it has a meaning for: sets that pass questions 1 to 3, new lengths that pass 6 and 7, walks from their start.

use crate::by_name::{ask_by_name, front_steps, steps};
use crate::cases::{
    accepted, swapped, Answer, Call, Case, Direction, Edit, Engine, History, Lent, Outcome, Pair, Ran, Renumbering, Step, Walk, WalkCase, Walked,
    NONE,
};
use crate::inputs::{words_of, MOST};
use fixedbitset::{FixedBitSet, Ones};
use std::cell::Cell;
use std::cmp::Ordering;
use std::collections::{HashMap, HashSet};
use std::panic::{self, AssertUnwindSafe};

pub struct Reference;

thread_local! {
    static QUIET: Cell<bool> = const { Cell::new(false) };
}

/// Keeps the panics of the reference silent, and no others.
pub fn silence_panics() {
    let shown = panic::take_hook();
    panic::set_hook(Box::new(move |info| {
        if !QUIET.get() {
            shown(info);
        }
    }));
}

/// None where the reference panics.
fn caught<T>(run: impl FnOnce() -> T) -> Option<T> {
    QUIET.set(true);
    let result = panic::catch_unwind(AssertUnwindSafe(run)).ok();
    QUIET.set(false);
    result
}

/// Does a length with its words pass questions 1 to 3?
fn passes(set: &Lent) -> bool {
    let (length, words) = (set.length, &set.words);
    length <= MOST && words.len() >= words_of(length) && (length % 64 == 0 || words[length / 64] >> (length % 64) == 0)
}

/// Does a new length pass questions 6 and 7?
fn fits(length: usize, size: usize) -> bool {
    length <= MOST && words_of(length) <= size
}

/// A set of the reference from lent words; none where it fails 1 to 3.
fn load(set: &Lent) -> Option<FixedBitSet> {
    passes(set).then(|| FixedBitSet::with_capacity_and_blocks(set.length, set.words.iter().map(|word| *word as usize)))
}

/// The words of a set of the reference, written to the lent words; those after them stay.
fn store(set: &FixedBitSet, words: &mut [u64]) {
    for (word, block) in words.iter_mut().zip(set.as_slice()) {
        *word = *block as u64;
    }
}

/// The length that an accepted edit leaves; more than any length where it cannot be.
fn length_after(edit: Edit, length: usize, other: usize) -> usize {
    match edit {
        Edit::Grow(n) => length.max(n),
        Edit::GrowAndInsert(p) => length.max(p.saturating_add(1)),
        Edit::UnionWith | Edit::SymmetricDifferenceWith => length.max(other),
        _ => length,
    }
}

/// None where it panics; else what `put` tells.
fn make_edit(edit: Edit, set: &mut FixedBitSet, other: &FixedBitSet) -> Option<bool> {
    caught(|| {
        match edit {
            Edit::Insert(p) => set.insert(p),
            Edit::Remove(p) => set.remove(p),
            Edit::Put(p) => return set.put(p),
            Edit::Toggle(p) => set.toggle(p),
            Edit::Set(p, enabled) => set.set(p, enabled),
            Edit::CopyBit(from, to) => set.copy_bit(from, to),
            Edit::InsertRange(start, end) => set.insert_range(start..end),
            Edit::RemoveRange(start, end) => set.remove_range(start..end),
            Edit::ToggleRange(start, end) => set.toggle_range(start..end),
            Edit::SetRange(start, end, enabled) => set.set_range(start..end, enabled),
            Edit::Clear => set.clear(),
            Edit::Grow(n) => set.grow(n),
            Edit::GrowAndInsert(p) => set.grow_and_insert(p),
            Edit::UnionWith => set.union_with(other),
            Edit::IntersectWith => set.intersect_with(other),
            Edit::DifferenceWith => set.difference_with(other),
            Edit::SymmetricDifferenceWith => set.symmetric_difference_with(other),
            Edit::InsertAll(list) => {
                // On a copy, since the Rust has inserted the positions before the one that it panics at.
                let mut marked = set.clone();
                list.iter().for_each(|p| marked.insert(*p as usize));
                *set = marked;
            }
        }
        false
    })
}

/// The refusal that a panic of an edit matches.
fn panic_of(edit: Edit) -> u64 {
    match edit {
        Edit::InsertRange(..) | Edit::RemoveRange(..) | Edit::ToggleRange(..) | Edit::SetRange(..) => 5,
        _ => 4,
    }
}

fn edit(edit: Edit, a: &mut Lent, b: &Lent) -> Option<Outcome> {
    let mut set = load(a)?;
    let other = if edit.reads_other() { load(b)? } else { FixedBitSet::new() };
    if !fits(length_after(edit, set.len(), other.len()), a.words.len()) {
        return None;
    }
    let made = make_edit(edit, &mut set, &other);
    store(&set, &mut a.words);
    let number = if made.is_some() { 0 } else { panic_of(edit) };
    let (length, was) = (set.len(), made.unwrap_or(false));
    let answer = if matches!(edit, Edit::Put(_)) { Answer::Put { length, was } } else { Answer::Length(length) };
    Some(Outcome { number, answer })
}

fn fresh(n: usize, blocks: Option<&[u64]>, buffer: &mut [u64]) -> Option<Outcome> {
    if !fits(n, buffer.len()) {
        return None;
    }
    let set = match blocks {
        None => FixedBitSet::with_capacity(n),
        // Blocks with bits from n up are outside the comparison.
        Some(blocks) if n % 64 != 0 && blocks.len() > n / 64 && blocks[n / 64] >> (n % 64) != 0 => return None,
        Some(blocks) => FixedBitSet::with_capacity_and_blocks(n, blocks.iter().map(|word| *word as usize)),
    };
    store(&set, buffer);
    Some(accepted(Answer::Length(set.len())))
}

fn third(case: &mut Case, join: fn(&FixedBitSet, &FixedBitSet) -> FixedBitSet) -> Option<Outcome> {
    let set = join(&load(&case.a)?, &load(&case.b)?);
    if !fits(set.len(), case.out.len()) {
        return None;
    }
    store(&set, &mut case.out);
    Some(accepted(Answer::Length(set.len())))
}

/// A plain loop, since the Rust has no such call: each member is inserted at its new offset. None where the call is refused.
fn renumbered(set: &FixedBitSet, pairs: &[Pair], bits: usize, out: &mut [u64]) -> Option<FixedBitSet> {
    if !fits(bits, out.len()) || pairs.iter().any(|pair| pair.new >= bits as u64) {
        return None;
    }
    let places: HashMap<u64, u64> = pairs.iter().map(|pair| (pair.old, pair.new)).collect();
    let news: HashSet<u64> = pairs.iter().map(|pair| pair.new).collect();
    if places.len() < pairs.len() || news.len() < pairs.len() {
        return None;
    }
    let mut moved = FixedBitSet::with_capacity(bits);
    for p in set.ones() {
        moved.insert(*places.get(&(p as u64))? as usize);
    }
    store(&moved, out);
    Some(moved)
}

/// An answer over a range; a panic is 5 with the answer of a refusal.
fn ranged<T: Default>(ask: impl FnOnce() -> T, answer: fn(T) -> Answer) -> Outcome {
    let result = caught(ask);
    let number = if result.is_some() { 0 } else { 5 };
    Outcome { number, answer: answer(result.unwrap_or_default()) }
}

ask_by_name!(&FixedBitSet);

/// One word of a set whose members are a range.
fn range_word(start: usize, end: usize, word: usize) -> Option<Outcome> {
    if start > end || end > MOST || word >= MOST / 64 {
        return None;
    }
    let mut set = FixedBitSet::with_capacity(end.max(64 * (word + 1)));
    set.insert_range(start..end);
    Some(accepted(Answer::Word(set.as_slice()[word] as u64)))
}

/// The count that belongs to a walk of a history.
fn count(walk: Walk, a: &FixedBitSet, b: &FixedBitSet) -> usize {
    match walk {
        Walk::Ones => a.count_ones(..),
        Walk::Zeroes => a.count_zeroes(..),
        Walk::Intersection => a.intersection_count(b),
        Walk::Difference => a.difference_count(b),
        Walk::Union => a.union_count(b),
        Walk::SymmetricDifference => a.symmetric_difference_count(b),
    }
}

impl Engine for Reference {
    fn name(&self) -> &'static str {
        "reference"
    }

    fn call(&self, case: &mut Case) -> Option<Outcome> {
        if let Some(call) = case.call.edit(&case.b.words) {
            return edit(call, &mut case.a, &case.b);
        }
        match case.call {
            Call::WithCapacity(n) => fresh(n, None, &mut case.a.words),
            Call::WithCapacityAndBlocks(n) => fresh(n, Some(&case.b.words), &mut case.a.words),
            Call::BitAnd => third(case, |a, b| a & b),
            Call::BitOr => third(case, |a, b| a | b),
            Call::BitXor => third(case, |a, b| a ^ b),
            Call::LastPositiveBitAndUnset(0) => None,
            Call::LastPositiveBitAndUnset(word) => {
                let mut rest = word as usize;
                let position = Ones::last_positive_bit_and_unset(&mut rest);
                Some(accepted(Answer::LastBit { position, rest: rest as u64 }))
            }
            Call::LowMask(r) => range_word(0, r.min(64), 0),
            Call::RangeMask { start, end, word } => range_word(start, end, word),
            Call::AskRange { start, end, length } if length <= MOST => {
                let set = FixedBitSet::with_capacity(length);
                let number = if caught(|| set.contains_any_in_range(start..end)).is_some() { 0 } else { 5 };
                Some(accepted(Answer::Word(number)))
            }
            call if call.reads_second() => of_two(call, &load(&case.a)?, &load(&case.b)?),
            call => of_one(call, &load(&case.a)?),
        }
    }

    fn renumber(&self, renumbering: &mut Renumbering) -> Option<Outcome> {
        let set = load(&renumbering.set)?;
        let moved = renumbered(&set, &renumbering.sided(), renumbering.bits, &mut renumbering.out)?;
        if renumbering.direction == Direction::ForwardAndBack {
            let back = renumbered(&moved, &swapped(&renumbering.pairs), set.len(), &mut renumbering.again)?;
            return Some(accepted(Answer::Yes(back == set)));
        }
        Some(accepted(Answer::Renumbered { length: moved.len(), count: moved.count_ones(..) }))
    }

    fn walk(&self, case: &WalkCase) -> Option<Walked> {
        let a = load(&case.a)?;
        let b = if case.walk.of_two_sets() { load(&case.b)? } else { FixedBitSet::new() };
        let answers = walk_sets(case.walk, &a, &b, &case.steps)?;
        Some(Walked { number: 0, answers, records: None })
    }

    fn history(&self, history: &mut History) -> Option<Ran> {
        let walk = *Walk::OF_HISTORIES.get(usize::try_from(history.walk).ok()?)?;
        let (a_size, b_size) = (history.a_words.len(), history.b_words.len());
        if !fits(history.a_bits, a_size) || !fits(history.b_bits, b_size) || history.out.len() < history.steps.len() {
            return None;
        }
        let mut a = FixedBitSet::with_capacity(history.a_bits);
        let mut b = FixedBitSet::with_capacity(history.b_bits);
        for five in history.calls.chunks_exact(5) {
            let (set, other, size) = match five[0] {
                0 => (&mut a, &b, a_size),
                1 => (&mut b, &a, b_size),
                _ => continue,
            };
            // 6 and 7 are not the reference's own, and a panic does nothing.
            match Edit::of_five(&history.positions, five) {
                Some(edit) if fits(length_after(edit, set.len(), other.len()), size) => make_edit(edit, set, other),
                _ => None,
            };
        }
        store(&a, &mut history.a_words);
        store(&b, &mut history.b_words);
        let steps: Vec<Step> = history.steps.iter().map(|step| Step::at(*step != 0)).collect();
        let answers = walk_sets(walk, &a, &b, &steps)?;
        for (word, answer) in history.out.iter_mut().zip(answers) {
            *word = answer.map_or(NONE, |p| p as u64);
        }
        Some(Ran { number: 0, a_length: a.len(), b_length: b.len(), count: count(walk, &a, &b) })
    }
}
