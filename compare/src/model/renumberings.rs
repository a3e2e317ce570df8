//! C-12 of document 02: a set moved to another layout.

use super::members::{has, read, words_of, write, Members};
use super::questions;
use crate::cases::{Answer, Direction, Lent, Outcome, Pair, Renumbering};

/// How many members a set has.
fn count(members: &[bool]) -> usize {
    members.iter().filter(|member| **member).count()
}

fn questions(set: &Lent, pairs: &[Pair], bits: usize, size: usize) -> u64 {
    let number = questions::first(&[questions::of_set(set), questions::new_length(bits as u128, size)]);
    if number != 0 {
        return number;
    }
    questions::of_pairs(pairs, bits, &read(set))
}

/// The new set has exactly the new offset of each member.
fn renumbered(members: &[bool], pairs: &[Pair], bits: usize) -> Members {
    let mut moved = vec![false; bits];
    for pair in pairs.iter().filter(|pair| has(members, pair.old as usize)) {
        moved[pair.new as usize] = true;
    }
    moved
}

pub fn call(case: &mut Renumbering) -> Outcome {
    let pairs = case.sided();
    let number = questions(&case.set, &pairs, case.bits, case.out.len());
    let back = case.direction == Direction::ForwardAndBack;
    if number != 0 {
        return Outcome { number, answer: if back { Answer::Yes(false) } else { Answer::Renumbered { length: 0, count: 0 } } };
    }
    let members = read(&case.set);
    write(&renumbered(&members, &pairs, case.bits), &mut case.out);
    if back {
        return way_back(case, &members);
    }
    // The counts of both sets are equal.
    Outcome { number, answer: Answer::Renumbered { length: case.bits, count: count(&members) } }
}

/// The way back of an accepted call: 7 where the buffer has not the words of the old length, 4 where an old offset is not below that, else the old set again.
fn way_back(case: &mut Renumbering, members: &[bool]) -> Outcome {
    let length = case.set.length;
    let number = if case.again.len() < words_of(length) {
        7
    } else if case.pairs.iter().any(|pair| pair.old >= length as u64) {
        4
    } else {
        write(members, &mut case.again);
        0
    };
    Outcome { number, answer: Answer::Yes(number == 0) }
}
