//! Every call of document 01, and `insert_all` of document 02, with its questions, its answer and what it writes.

use super::members::{bit, has, read, word, words_of, write, Members};
use super::{edits, questions, walks, words};
use crate::cases::{accepted, Answer, Call, Case, Edit, Lent, Outcome, Record, Walk};

pub fn call(case: &mut Case) -> Outcome {
    if let Some(edit) = case.call.edit(&case.b.words) {
        return make_edit(edit, &mut case.a, &case.b);
    }
    match case.call {
        Call::WithCapacity(n) => fresh(n, &[], &mut case.a.words),
        Call::WithCapacityAndBlocks(n) => fresh(n, &case.b.words, &mut case.a.words),
        Call::BitAnd => third(case, true, |x, y| x && y),
        Call::BitOr => third(case, false, |x, y| x || y),
        Call::BitXor => third(case, false, |x, y| x != y),
        Call::FirstPart => accepted(Answer::Record(Record { low: 0, high: case.a.length })),
        Call::Step { walk, back, one, two } => walks::step(walk, &case.a, &case.b, back, one, two),
        Call::NextMany { walk, one, two } => walks::next_many(walk, &case.a, &case.b, one, two, &mut case.out),
        Call::WalkerStep { back, part } => walks::step(Walk::Ones, &case.a, &case.b, back, part, Record::EMPTY),
        Call::WordCountOnes(word) => accepted(Answer::Count(words::count_ones(word))),
        Call::WordLeadingZeros(word) => accepted(Answer::Count(words::leading_zeros(word))),
        Call::WordTrailingZeros(word) => accepted(Answer::Count(words::trailing_zeros(word))),
        Call::LastPositiveBitAndUnset(word) => words::last_bit(word),
        Call::LowMask(r) => accepted(Answer::Word(words::low_mask(r))),
        Call::AskRange { start, end, length } => accepted(Answer::Word(questions::range(start, end, length))),
        Call::RangeMask { start, end, word } => accepted(Answer::Word(words::range_mask(start, end, word))),
        Call::Masks { start, end } => accepted(words::masks(start, end)),
        _ if case.call.reads_second() => of_two(case),
        _ => of_one(case),
    }
}

fn make_edit(edit: Edit, set: &mut Lent, other: &Lent) -> Outcome {
    let both = if edit.reads_other() { questions::of_both(set, other) } else { questions::of_set(set) };
    let number = questions::first(&[both, questions::of_edit(edit, set.length, set.words.len(), other.length)]);
    let (length, was) = if number == 0 {
        let mut members = read(set);
        let second = if edit.reads_other() { read(other) } else { Members::new() };
        let was = edits::apply(edit, &mut members, &second);
        write(&members, &mut set.words);
        (members.len(), was)
    } else {
        (set.length, false)
    };
    let answer = if matches!(edit, Edit::Put(_)) { Answer::Put { length, was } } else { Answer::Length(length) };
    Outcome { number, answer }
}

/// A fresh set with the members that the blocks name below n.
fn fresh(n: usize, blocks: &[u64], buffer: &mut [u64]) -> Outcome {
    let number = questions::new_length(n as u128, buffer.len());
    if number != 0 {
        return Outcome { number, answer: Answer::Length(0) };
    }
    let members: Members = (0..n).map(|p| p / 64 < blocks.len() && bit(blocks, p)).collect();
    write(&members, buffer);
    accepted(Answer::Length(n))
}

/// `&`, `|` and `^`: of the smaller length for `&`, else the larger.
fn third(case: &mut Case, smaller: bool, operation: fn(bool, bool) -> bool) -> Outcome {
    let (a, b) = (case.a.length, case.b.length);
    let length = if smaller { a.min(b) } else { a.max(b) };
    let number = questions::first(&[questions::of_both(&case.a, &case.b), questions::new_length(length as u128, case.out.len())]);
    if number != 0 {
        return Outcome { number, answer: Answer::Length(0) };
    }
    let (a, b) = (read(&case.a), read(&case.b));
    let members: Members = (0..length).map(|p| operation(has(&a, p), has(&b, p))).collect();
    write(&members, &mut case.out);
    accepted(Answer::Length(length))
}

/// Views, tests and counts of one set.
fn of_one(case: &Case) -> Outcome {
    let length = case.a.length;
    let range = match case.call {
        Call::ContainsAllInRange(start, end) | Call::ContainsAnyInRange(start, end) => Some((start, end)),
        Call::CountOnes(start, end) | Call::CountZeroes(start, end) => Some((start, end)),
        _ => None,
    };
    let asked = range.map_or(0, |(start, end)| questions::range(start, end, length));
    let number = questions::first(&[questions::of_set(&case.a), asked]);
    let members = if number == 0 { read(&case.a) } else { Members::new() };
    let (start, end) = if number == 0 { range.unwrap_or((0, length)) } else { (0, 0) };
    let yes = number == 0;
    let answer = match case.call {
        Call::Len => Answer::Count(members.len()),
        Call::IsEmpty => Answer::Yes(yes && members.is_empty()),
        Call::AsSlice => Answer::Part { second: false, offset: 0, count: words_of(members.len()) },
        Call::Contains(p) => Answer::Yes(has(&members, p)),
        Call::ContainsAllInRange(..) | Call::IsFull => Answer::Yes(yes && (start..end).all(|p| has(&members, p))),
        Call::ContainsAnyInRange(..) => Answer::Yes((start..end).any(|p| has(&members, p))),
        Call::IsClear => Answer::Yes(yes && !members.contains(&true)),
        Call::CountOnes(..) => Answer::Count((start..end).filter(|p| has(&members, *p)).count()),
        Call::CountZeroes(..) => Answer::Count((start..end).filter(|p| !has(&members, *p)).count()),
        Call::Minimum => Answer::Found((0..members.len()).find(|p| has(&members, *p))),
        Call::Maximum => Answer::Found((0..members.len()).rev().find(|p| has(&members, *p))),
        _ => unreachable!("a call of one set"),
    };
    Outcome { number, answer }
}

/// Counts, tests, equality, order and the longer of two sets.
fn of_two(case: &Case) -> Outcome {
    let number = questions::of_both(&case.a, &case.b);
    let yes = number == 0;
    let (a, b) = if yes { (read(&case.a), read(&case.b)) } else { (Members::new(), Members::new()) };
    let size = |walk| Answer::Count(walks::list(walk, &a, &b).len());
    let answer = match case.call {
        Call::UnionCount => size(Walk::Union),
        Call::IntersectionCount => size(Walk::Intersection),
        Call::DifferenceCount => size(Walk::Difference),
        Call::SymmetricDifferenceCount => size(Walk::SymmetricDifference),
        Call::IsDisjoint => Answer::Yes(yes && !(0..a.len()).any(|p| has(&a, p) && has(&b, p))),
        Call::IsSubset => Answer::Yes(yes && (0..a.len()).all(|p| !has(&a, p) || has(&b, p))),
        Call::IsSuperset => Answer::Yes(yes && (0..b.len()).all(|p| !has(&b, p) || has(&a, p))),
        Call::Eq => Answer::Yes(yes && a == b),
        Call::Cmp => Answer::Order(order(&a, &b)),
        Call::Longer if !yes || a.len() > b.len() => Answer::Part { second: false, offset: 0, count: words_of(a.len()) },
        Call::Longer => Answer::Part { second: true, offset: 0, count: words_of(b.len()) },
        _ => unreachable!("a call of two sets"),
    };
    Outcome { number, answer }
}

/// Length first, then words from word 0 upwards, as unsigned numbers.
fn order(a: &[bool], b: &[bool]) -> u64 {
    if a.len() != b.len() {
        return if a.len() < b.len() { 1 } else { 2 };
    }
    for k in 0..words_of(a.len()) {
        let (x, y) = (word(a, k), word(b, k));
        if x != y {
            return if x < y { 1 } else { 2 };
        }
    }
    0
}
