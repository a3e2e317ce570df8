//! The history rule: two rows of yes and no, the calls one after the other, then the walk's list taken from both ends.

use super::members::{write, Members};
use super::walks::list;
use super::{edits, questions};
use crate::cases::{Edit, History, Ran, Walk, NONE};
use std::collections::VecDeque;

/// The number for a walk that is none of the five.
const NO_WALK: u64 = 99;

fn refused(number: u64) -> Ran {
    Ran { number, a_length: 0, b_length: 0, count: 0 }
}

pub fn run(history: &mut History) -> Ran {
    if history.walk >= Walk::OF_HISTORIES.len() as u64 {
        return refused(NO_WALK);
    }
    let number = questions::first(&[
        questions::new_length(history.a_bits as u128, history.a_words.len()),
        questions::new_length(history.b_bits as u128, history.b_words.len()),
        if history.steps.len() <= history.out.len() { 0 } else { 7 },
    ]);
    if number != 0 {
        return refused(number);
    }
    let mut a = vec![false; history.a_bits];
    let mut b = vec![false; history.b_bits];
    for five in history.calls.chunks_exact(5) {
        match (five[0], Edit::of_five(&history.positions, five)) {
            (0, Some(edit)) => make(edit, &mut a, history.a_words.len(), &b),
            (1, Some(edit)) => make(edit, &mut b, history.b_words.len(), &a),
            _ => {}
        }
    }
    write(&a, &mut history.a_words);
    write(&b, &mut history.b_words);
    let positions = list(Walk::OF_HISTORIES[history.walk as usize], &a, &b);
    let count = positions.len();
    let mut left = VecDeque::from(positions);
    for (step, answer) in history.steps.iter().zip(history.out.iter_mut()) {
        let position = if *step == 0 { left.pop_front() } else { left.pop_back() };
        *answer = position.map_or(NONE, |p| p as u64);
    }
    Ran { number: 0, a_length: a.len(), b_length: b.len(), count }
}

/// An accepted call does what is written of it; a refused one does nothing.
fn make(edit: Edit, set: &mut Members, size: usize, other: &Members) {
    if questions::of_edit(edit, set.len(), size, other.len()) == 0 {
        edits::apply(edit, set, other);
    }
}
