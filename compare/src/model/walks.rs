//! Walks: the parts, their records and their lists.

use super::members::{has, read, Members};
use super::questions;
use crate::cases::{Answer, Lent, Outcome, Record, Step, Walk, WalkCase, Walked};

/// Is p in the first part? It is a list over the first set.
fn in_first(walk: Walk, a: &[bool], b: &[bool], p: usize) -> bool {
    match walk {
        Walk::Ones | Walk::Union => has(a, p),
        Walk::Zeroes => p < a.len() && !has(a, p),
        Walk::Intersection => has(a, p) && has(b, p),
        Walk::Difference | Walk::SymmetricDifference => has(a, p) && !has(b, p),
    }
}

/// Is p in the second part? It is a list over the second set, where the walk has one.
fn in_second(walk: Walk, a: &[bool], b: &[bool], p: usize) -> bool {
    walk.of_two_parts() && has(b, p) && !has(a, p)
}

/// The walk's list.
pub fn list(walk: Walk, a: &[bool], b: &[bool]) -> Vec<usize> {
    let first = (0..a.len()).filter(|p| in_first(walk, a, b, *p));
    let second = (0..b.len()).filter(|p| in_second(walk, a, b, *p));
    first.chain(second).collect()
}

/// A step of one part: the smallest or the largest position of it with low <= p < high.
fn step_part(is_in: impl Fn(usize) -> bool, back: bool, record: &mut Record) -> Option<usize> {
    let mut range = record.low..record.high;
    if back {
        let p = range.rev().find(|p| is_in(*p))?;
        record.high = p;
        Some(p)
    } else {
        let p = range.find(|p| is_in(*p))?;
        record.low = p + 1;
        Some(p)
    }
}

/// A step of a walk: at the front the first part before the second, at the back the second before the first.
fn step_members(walk: Walk, a: &[bool], b: &[bool], back: bool, one: &mut Record, two: &mut Record) -> Option<usize> {
    if !walk.of_two_parts() {
        return step_part(|p| in_first(walk, a, b, p), back, one);
    }
    if back {
        step_part(|p| in_second(walk, a, b, p), back, two).or_else(|| step_part(|p| in_first(walk, a, b, p), back, one))
    } else {
        step_part(|p| in_first(walk, a, b, p), back, one).or_else(|| step_part(|p| in_second(walk, a, b, p), back, two))
    }
}

fn set_questions(walk: Walk, a: &Lent, b: &Lent) -> u64 {
    if walk.of_two_sets() {
        questions::of_both(a, b)
    } else {
        questions::of_set(a)
    }
}

/// The questions of a step, with the records as they are handed in.
fn step_questions(walk: Walk, a: &Lent, b: &Lent, one: Record, two: Record) -> u64 {
    let second = if walk.of_two_parts() { questions::record(two, b.length) } else { 0 };
    questions::first(&[set_questions(walk, a, b), questions::record(one, a.length), second])
}

/// The members of the first set, and of the second where the walk reads it.
fn read_both(walk: Walk, a: &Lent, b: &Lent) -> (Members, Members) {
    (read(a), if walk.of_two_sets() { read(b) } else { Members::new() })
}

/// One step.
pub fn step(walk: Walk, a: &Lent, b: &Lent, back: bool, mut one: Record, mut two: Record) -> Outcome {
    let number = step_questions(walk, a, b, one, two);
    if number != 0 {
        return Outcome { number, answer: Answer::Stepped { found: None, one, two } };
    }
    let (a, b) = read_both(walk, a, b);
    let found = step_members(walk, &a, &b, back, &mut one, &mut two);
    Outcome { number, answer: Answer::Stepped { found, one, two } }
}

/// Front steps in a row: as many as `out` has words, or as the walk has left.
pub fn next_many(walk: Walk, a: &Lent, b: &Lent, mut one: Record, mut two: Record, out: &mut [u64]) -> Outcome {
    let number = step_questions(walk, a, b, one, two);
    if number != 0 {
        return Outcome { number, answer: Answer::Many { count: 0, one, two } };
    }
    let (a, b) = read_both(walk, a, b);
    let mut count = 0;
    for word in out {
        let Some(p) = step_members(walk, &a, &b, false, &mut one, &mut two) else { break };
        *word = p as u64;
        count += 1;
    }
    Outcome { number, answer: Answer::Many { count, one, two } }
}

/// Steps from the first records on, 0 and the length.
pub fn walk(case: &WalkCase) -> Walked {
    let mut one = Record { low: 0, high: case.a.length };
    let mut two = if case.walk.of_two_parts() { Record { low: 0, high: case.b.length } } else { Record::EMPTY };
    let number = set_questions(case.walk, &case.a, &case.b);
    if number != 0 {
        return Walked { number, answers: vec![None; case.answers()], records: Some((one, two)) };
    }
    let (a, b) = read_both(case.walk, &case.a, &case.b);
    let mut answers = Vec::with_capacity(case.answers());
    for step in &case.steps {
        // After a step that gives none, the front steps of the same call give none.
        let mut over = false;
        for _ in 0..step.answers() {
            let found = if over { None } else { step_members(case.walk, &a, &b, *step == Step::Back, &mut one, &mut two) };
            over = found.is_none();
            answers.push(found);
        }
    }
    Walked { number, answers, records: Some((one, two)) }
}
