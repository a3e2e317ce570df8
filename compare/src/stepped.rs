//! The archive's steps one by one, where it is asked for many in one call: front steps of a walk, a renumbering with its way back, and pairs swapped before
//! the call; nothing else is asked of it.

use crate::archive::{self, step, Archive};
use crate::cases::{swapped, Answer, Call, Case, Direction, Engine, History, Lent, Outcome, Pair, Ran, Renumbering, Step, WalkCase, Walked};
use crate::inputs::words_of;
use std::rc::Rc;

pub struct Stepped;

/// The archive's `renumber` into a buffer.
fn renumber(set: &Lent, pairs: &[Pair], bits: usize, out: &mut Vec<u64>) -> Outcome {
    let (set, pairs) = (set.clone(), Rc::new(pairs.to_vec()));
    let mut case = Renumbering { direction: Direction::Forward, set, pairs, bits, out: std::mem::take(out), again: Vec::new() };
    let outcome = archive::renumber(&mut case);
    *out = case.out;
    outcome
}

/// Two calls, the second with every pair swapped: does the old set stand again?
fn forward_and_back(case: &mut Renumbering) -> Outcome {
    let forward = renumber(&case.set, &case.pairs, case.bits, &mut case.out);
    if forward.number != 0 {
        return Outcome { number: forward.number, answer: Answer::Yes(false) };
    }
    let moved = Lent { length: case.bits, words: case.out.clone() };
    let back = renumber(&moved, &swapped(&case.pairs), case.set.length, &mut case.again);
    let own = words_of(case.set.length);
    Outcome { number: back.number, answer: Answer::Yes(back.number == 0 && case.again.get(..own) == case.set.words.get(..own)) }
}

impl Engine for Stepped {
    fn name(&self) -> &'static str {
        "its steps"
    }

    fn call(&self, case: &mut Case) -> Option<Outcome> {
        let Call::NextMany { walk, mut one, mut two } = case.call else { return None };
        let (a, b) = (&case.a, &case.b);
        // A step that is not taken, since a buffer of no words is asked the questions too.
        let number = step(walk, false, a, b, one, two).number;
        let mut count = 0;
        for word in if number == 0 { &mut case.out[..] } else { &mut [] } {
            match step(walk, false, a, b, one, two).answer {
                Answer::Stepped { found: Some(p), one: first, two: second } => {
                    *word = p as u64;
                    (count, one, two) = (count + 1, first, second);
                }
                _ => break,
            }
        }
        Some(Outcome { number, answer: Answer::Many { count, one, two } })
    }

    fn renumber(&self, case: &mut Renumbering) -> Option<Outcome> {
        match case.direction {
            Direction::Forward => None,
            Direction::Back => Some(renumber(&case.set, &swapped(&case.pairs), case.bits, &mut case.out)),
            Direction::ForwardAndBack => Some(forward_and_back(case)),
        }
    }

    fn walk(&self, case: &WalkCase) -> Option<Walked> {
        // A buffer of no words has no steps, and stays for its questions.
        let single = |step: &Step| match step {
            Step::Many(size) if *size > 0 => vec![Step::Front; *size],
            step => vec![*step],
        };
        let many = case.steps.iter().any(|step| matches!(step, Step::Many(_)));
        many.then(|| Archive.walk(&WalkCase { steps: case.steps.iter().flat_map(single).collect(), ..case.clone() }))?
    }

    fn history(&self, _: &mut History) -> Option<Ran> {
        None
    }
}
