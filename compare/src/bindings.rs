//! The engine's archive through the safe types of the bindings. They cannot hold a damaged set, so they are asked whole ones.

use crate::archive::of_buffer;
use crate::by_name::ask_by_name;
use crate::cases::{accepted, Answer, Call, Case, Direction, Edit, Engine, History, Lent, Outcome, Ran, Renumbering, Step, Walk, WalkCase, Walked};
use crate::inputs::CALLERS;
use lent_bit_sets::history::{run_history, Walk as HistoryWalk};
use lent_bit_sets::{masks, words, Difference, FixedBitSet, Intersection, Ones, Pair, Refusal, SymmetricDifference, Union, View, Zeroes};
use std::cmp::Ordering;

pub struct Bindings;

fn view(set: &Lent) -> Option<View<'_>> {
    View::new(set.length, &set.words).ok()
}

fn number<T>(result: &Result<T, Refusal>) -> u64 {
    result.as_ref().map_or_else(|refusal| refusal.number(), |_| 0)
}

/// An answer, or the number of its refusal with the answer of one.
fn outcome<T: Default>(result: Result<T, Refusal>, answer: impl Fn(T) -> Answer) -> Outcome {
    Outcome { number: number(&result), answer: answer(result.unwrap_or_default()) }
}

fn ranged<T: Default>(ask: impl FnOnce() -> Result<T, Refusal>, answer: fn(T) -> Answer) -> Outcome {
    outcome(ask(), answer)
}

/// The iterators, which take many steps in one call.
trait NextMany: Iterator<Item = usize> {
    fn next_many(&mut self, out: &mut [u64]) -> usize;
}

macro_rules! iterators {
    ($($name:ident)*) => {
        $(impl NextMany for $name<'_> {
            fn next_many(&mut self, out: &mut [u64]) -> usize {
                $name::next_many(self, out)
            }
        })*
    };
}

iterators! { Ones Zeroes Intersection Difference Union SymmetricDifference }

fn next_many(walk: &mut impl NextMany, size: usize) -> Vec<Option<usize>> {
    let mut out = vec![CALLERS; size];
    let count = walk.next_many(&mut out);
    of_buffer(&out, count).collect()
}

/// The position of each step.
fn steps(mut walk: impl NextMany + DoubleEndedIterator, steps: &[Step]) -> Vec<Option<usize>> {
    let mut answers = Vec::new();
    for step in steps {
        match step {
            Step::Front => answers.push(walk.next()),
            Step::Back => answers.push(walk.next_back()),
            Step::Many(size) => answers.extend(next_many(&mut walk, *size)),
        }
    }
    answers
}

/// The same of a walk that has no steps at the back; none where there is one.
fn front_steps(mut walk: impl NextMany, steps: &[Step]) -> Option<Vec<Option<usize>>> {
    let mut answers = Vec::new();
    for step in steps {
        match step {
            Step::Front => answers.push(walk.next()),
            Step::Back => return None,
            Step::Many(size) => answers.extend(next_many(&mut walk, *size)),
        }
    }
    Some(answers)
}

ask_by_name!(View<'_>);

fn edit(edit: Edit, a: &mut Lent, b: &Lent) -> Option<Outcome> {
    let mut set = FixedBitSet::from_parts(a.length, &mut a.words).ok()?;
    let other = if edit.reads_other() { view(b)? } else { View::new(0, &[]).ok()? };
    let result = match edit {
        Edit::Insert(p) => set.insert(p),
        Edit::Remove(p) => set.remove(p),
        Edit::Put(p) => {
            let was = set.put(p);
            let length = set.len();
            return Some(outcome(was, |was| Answer::Put { length, was }));
        }
        Edit::Toggle(p) => set.toggle(p),
        Edit::Set(p, enabled) => set.set(p, enabled),
        Edit::CopyBit(from, to) => set.copy_bit(from, to),
        Edit::InsertRange(start, end) => set.insert_range(start..end),
        Edit::RemoveRange(start, end) => set.remove_range(start..end),
        Edit::ToggleRange(start, end) => set.toggle_range(start..end),
        Edit::SetRange(start, end, enabled) => set.set_range(start..end, enabled),
        Edit::Clear => {
            set.clear();
            Ok(())
        }
        Edit::Grow(n) => set.grow(n),
        Edit::GrowAndInsert(p) => set.grow_and_insert(p),
        Edit::UnionWith => set.union_with(other),
        Edit::IntersectWith => {
            set.intersect_with(other);
            Ok(())
        }
        Edit::DifferenceWith => {
            set.difference_with(other);
            Ok(())
        }
        Edit::SymmetricDifferenceWith => set.symmetric_difference_with(other),
        Edit::InsertAll(list) => set.insert_all(list),
    };
    Some(Outcome { number: number(&result), answer: Answer::Length(set.len()) })
}

fn fresh(made: Result<FixedBitSet<'_>, Refusal>) -> Outcome {
    Outcome { number: number(&made), answer: Answer::Length(made.map_or(0, |set| set.len())) }
}

fn third(case: &mut Case) -> Option<Outcome> {
    let (a, b) = (view(&case.a)?, view(&case.b)?);
    Some(fresh(match case.call {
        Call::BitAnd => a.bitand(b, &mut case.out),
        Call::BitOr => a.bitor(b, &mut case.out),
        _ => a.bitxor(b, &mut case.out),
    }))
}

/// The part is of the second slice where it starts as that does. Two buffers of no words can start at one place, and then it does not tell.
fn longer(case: &Case) -> Option<Outcome> {
    let second = case.b.words.as_ptr();
    if case.a.words.as_ptr() == second {
        return None;
    }
    let longer = view(&case.a)?.longer(view(&case.b)?);
    Some(accepted(Answer::Part { second: longer.as_ptr() == second, offset: 0, count: longer.len() }))
}

/// Calls on no set.
fn of_words(call: Call) -> Option<Outcome> {
    Some(match call {
        Call::WordCountOnes(word) => accepted(Answer::Count(words::count_ones(word))),
        Call::WordLeadingZeros(word) => accepted(Answer::Count(words::leading_zeros(word))),
        Call::WordTrailingZeros(word) => accepted(Answer::Count(words::trailing_zeros(word))),
        Call::LastPositiveBitAndUnset(word) => {
            outcome(words::last_positive_bit_and_unset(word), |(position, rest)| Answer::LastBit { position, rest })
        }
        Call::LowMask(r) => accepted(Answer::Word(words::low_mask(r))),
        Call::AskRange { start, end, length } => accepted(Answer::Word(number(&masks::ask_range(start, end, length)))),
        Call::RangeMask { start, end, word } => accepted(Answer::Word(masks::range_mask(start, end, word))),
        _ => return None,
    })
}

/// The new set, with its count.
fn renumbered(made: Result<FixedBitSet<'_>, Refusal>) -> Outcome {
    let number = number(&made);
    let (length, count) = made.map_or((0, 0), |set| (set.len(), set.ones().count()));
    Outcome { number, answer: Answer::Renumbered { length, count } }
}

impl Engine for Bindings {
    fn name(&self) -> &'static str {
        "bindings"
    }

    fn call(&self, case: &mut Case) -> Option<Outcome> {
        if let Some(call) = case.call.edit(&case.b.words) {
            return edit(call, &mut case.a, &case.b);
        }
        match case.call {
            Call::WithCapacity(n) => Some(fresh(FixedBitSet::with_capacity(n, &mut case.a.words))),
            Call::WithCapacityAndBlocks(n) => Some(fresh(FixedBitSet::with_capacity_and_blocks(n, &case.b.words, &mut case.a.words))),
            Call::BitAnd | Call::BitOr | Call::BitXor => third(case),
            Call::Longer => longer(case),
            call if call.reads_second() => of_two(call, view(&case.a)?, view(&case.b)?),
            call => of_words(call).or_else(|| of_one(call, view(&case.a)?)),
        }
    }

    fn renumber(&self, renumbering: &mut Renumbering) -> Option<Outcome> {
        let Renumbering { direction, set, pairs, bits, out, again } = renumbering;
        let (set, bits) = (view(set)?, *bits);
        let pairs: Vec<Pair> = pairs.iter().map(|pair| Pair { old: pair.old, new: pair.new }).collect();
        Some(match direction {
            Direction::Forward => renumbered(set.renumber(&pairs, bits, out)),
            Direction::Back => renumbered(set.renumber_back(&pairs, bits, out)),
            Direction::ForwardAndBack => outcome(set.renumber_and_back(&pairs, bits, out, again), Answer::Yes),
        })
    }

    fn walk(&self, case: &WalkCase) -> Option<Walked> {
        let a = view(&case.a)?;
        let b = if case.walk.of_two_sets() { view(&case.b)? } else { a };
        let answers = walk_sets(case.walk, a, b, &case.steps)?;
        Some(Walked { number: 0, answers, records: None })
    }

    fn history(&self, history: &mut History) -> Option<Ran> {
        let walk = match history.walk {
            0 => HistoryWalk::Ones,
            1 => HistoryWalk::Intersection,
            2 => HistoryWalk::Difference,
            3 => HistoryWalk::Union,
            4 => HistoryWalk::SymmetricDifference,
            _ => return None,
        };
        let calls: Vec<[u64; 5]> = history.calls.chunks_exact(5).map(|five| [five[0], five[1], five[2], five[3], five[4]]).collect();
        let (a, b, out) = (&mut history.a_words, &mut history.b_words, &mut history.out);
        let ran = run_history(history.a_bits, a, history.b_bits, b, &calls, &history.positions, walk, &history.steps, out);
        let (a_length, b_length, count) = ran.map_or((0, 0, 0), |ran| (ran.a_length, ran.b_length, ran.count));
        Some(Ran { number: number(&ran), a_length, b_length, count })
    }
}
