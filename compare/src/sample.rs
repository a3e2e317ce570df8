//! Answers of the unchanged Rust as a fixed list, for a program that replays it with no Rust at hand.

use crate::cases::{Edit, Engine, History, Walk};
use crate::inputs::{words_of, CALLERS, MOST};
use crate::judge::{Difference, Judge};
use crate::prng::Prng;
use crate::reference::Reference;
use std::fmt::Write;

const LENGTHS: [usize; 11] = [0, 1, 63, 64, 65, 127, 128, 4_095, 4_096, 65_535, 65_536];
const SEED: u64 = 20_260_704;

const HEADER: &str = "\
# Answers of the unchanged Rust (petgraph/fixedbitset 111fb25521, 64-bit blocks), written by compare/run --sample with a fixed seed.
# One history a line, decimal numbers with a blank between them, in this order:
#   a_bits b_bits, the lengths of the two fresh sets, each in a buffer of 1024 words, filled with anything;
#   the number of calls, and five numbers for each: the set (0 A, 1 B), the call (0 to 16 from insert), two numbers, a yes or no (docs/DECISIONS.md, History);
#   the walk: 0 ones, 1 intersection, 2 difference, 3 union, 4 symmetric difference;
#   the number of steps, and the steps: 0 front, 1 back;
#   what is expected: the length of A, the length of B, the walk's count, an answer for each step (18446744073709551615 for none), the checksum of A, the checksum of B.
# A checksum is the sum of (word k xor k) over the set's own words k = 0, 1, .., modulo 2^64. A call at which the Rust panics is in the list too; it changes nothing.
";

/// The list as text. The engines must agree on it first.
pub fn text(judge: &mut Judge) -> Result<String, Difference> {
    let mut random = Prng::new(SEED);
    let mut text = String::from(HEADER);
    let mut made = 0;
    for a in LENGTHS {
        for b in LENGTHS {
            for walk in 0..Walk::OF_HISTORIES.len() as u64 {
                let history = history(&mut random, a, b, walk, made);
                judge.check_history(&history)?;
                text.push_str(&line(&history));
                made += 1;
            }
        }
    }
    Ok(text)
}

/// Sets that reach the two lengths, filled by ranges and edge positions, then a call of each kind in turn.
fn history(random: &mut Prng, a: usize, b: usize, walk: u64, made: usize) -> History {
    let mut calls = Vec::new();
    let mut bits = [a, b];
    for (on, length) in [a, b].into_iter().enumerate() {
        // Every third set starts shorter and grows to its length.
        if length > 0 && random.once_in(3) {
            bits[on] = random.below(length);
            calls.push(Edit::Grow(length).encode(0, on as u64));
        }
        for edit in filling(random, length) {
            calls.push(edit.encode(0, on as u64));
        }
    }
    let on = random.below(2);
    let length = [a, b][on];
    for k in [made as u64 % Edit::OF_NUMBERS, (made / 17) as u64 % Edit::OF_NUMBERS, 13 + (made as u64 / 5) % 4] {
        calls.push(featured(random, k, length).encode(0, if k >= 13 { random.word() % 2 } else { on as u64 }));
    }
    let lean = 1 + random.below(3);
    let steps: Vec<u64> = (0..8 + random.below(6)).map(|_| u64::from(random.below(4) < lean)).collect();
    let out = vec![0; steps.len()];
    let buffer = vec![CALLERS; MOST / 64];
    let (calls, positions) = (calls.concat(), Vec::new());
    History { a_bits: bits[0], a_words: buffer.clone(), b_bits: bits[1], b_words: buffer, calls, positions, walk, steps, out }
}

fn filling(random: &mut Prng, length: usize) -> Vec<Edit<'static>> {
    if length == 0 {
        return vec![Edit::InsertRange(0, 0)];
    }
    let (x, y) = (random.below(length + 1), random.below(length + 1));
    let mut edits = vec![if random.yes() { Edit::InsertRange(x.min(y), x.max(y)) } else { Edit::ToggleRange(x.min(y), length) }];
    let last = length - 1;
    edits.push(random.one_of(&[Edit::Insert(last), Edit::Toggle(last), Edit::Put(last / 64 * 64), Edit::Set(0, true), Edit::Insert(x.min(last))]));
    edits
}

/// A call of a number near the edges of the set; sometimes one that the Rust panics at. No length above the most.
fn featured(random: &mut Prng, code: u64, length: usize) -> Edit<'static> {
    let near = [0, 1, 63, 64, length / 2, length.saturating_sub(1), length, length + 1];
    let (x, y) = (random.one_of(&near), random.one_of(&near));
    let (x, y) = match code {
        6..=9 if !random.once_in(6) => (x.min(y).min(length), x.max(y).min(length)),
        11 => (x.min(MOST), 0),
        12 => (x.min(MOST - 1), 0),
        13.. => (0, 0),
        _ => (x, y),
    };
    Edit::decode(&[], code, x, y, random.yes()).expect("a call of numbers alone")
}

fn line(history: &History) -> String {
    let mut ran = history.clone();
    let expected = Reference.history(&mut ran).expect("a history in the reference's domain");
    let mut numbers = vec![history.a_bits as u64, history.b_bits as u64, (history.calls.len() / 5) as u64];
    numbers.extend(&history.calls);
    numbers.extend([history.walk, history.steps.len() as u64]);
    numbers.extend(&history.steps);
    numbers.extend([expected.a_length as u64, expected.b_length as u64, expected.count as u64]);
    numbers.extend(&ran.out);
    numbers.extend([checksum(&ran.a_words[..words_of(expected.a_length)]), checksum(&ran.b_words[..words_of(expected.b_length)])]);
    let mut text = String::new();
    for (k, number) in numbers.iter().enumerate() {
        write!(text, "{}{number}", if k == 0 { "" } else { " " }).expect("a string takes every text");
    }
    text.push('\n');
    text
}

/// The sum of (word k xor k), modulo 2^64.
fn checksum(words: &[u64]) -> u64 {
    words.iter().enumerate().fold(0, |sum, (k, word)| sum.wrapping_add(word ^ k as u64))
}
