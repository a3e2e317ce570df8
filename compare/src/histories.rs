//! Random whole histories: calls on two sets, then a walk with mixed steps and its count.

use crate::cases::{Edit, History};
use crate::inputs::{random_edit, random_length, random_long, random_range, words_of, HUGE, MOST};
use crate::judge::{Difference, Judge};
use crate::lists::random_list;
use crate::prng::Prng;

pub fn run(judge: &mut Judge, random: &mut Prng, histories: u64) -> Result<(), Difference> {
    for _ in 0..histories {
        let history = random_history(random);
        judge.check_history(&history)?;
    }
    Ok(())
}

fn random_history(random: &mut Prng) -> History {
    let long = random.once_in(100);
    let length = |random: &mut Prng| if long { random_long(random) } else { random_length(random).min(2_000) };
    let (a_bits, b_bits) = (length(random), length(random));
    let (a_words, b_words) = (buffer(random, a_bits), buffer(random, b_bits));
    let (mut calls, mut positions) = (Vec::new(), Vec::new());
    let mut reach = [a_bits, b_bits];
    for _ in 0..random.few(16, 60) {
        let on = random.below(2);
        if random.once_in(12) {
            calls.extend(call_of_list(random, on as u64, reach[on], &mut positions));
            continue;
        }
        let edit = random_edit(random, reach[on]);
        if let Edit::Grow(n) | Edit::GrowAndInsert(n) = edit {
            reach[on] = reach[on].max(n.min(MOST));
        }
        calls.extend(edit.encode(0, on as u64));
    }
    if random.once_in(30) {
        strange_numbers(random, &mut calls);
    }
    let n = random.few(24, 300);
    let lean = random.below(4);
    let steps: Vec<u64> = (0..n).map(|_| if random.below(4) < lean { back(random) } else { 0 }).collect();
    let further = random.below(3);
    let out = (0..steps.len() + further).map(|_| random.word()).collect();
    let mut history = History { a_bits, a_words, b_bits, b_words, calls, positions, walk: random.word() % 5, steps, out };
    if random.once_in(60) {
        refused(random, &mut history);
    }
    history
}

/// A call of a list that is put after the positions so far; once in eight times of any part of them and a little more.
fn call_of_list(random: &mut Prng, on: u64, length: usize, positions: &mut Vec<u64>) -> [u64; 5] {
    let at = positions.len();
    if random.once_in(8) {
        let (x, y) = random_range(random, at);
        return [on, 17, x as u64, y as u64, random.word()];
    }
    let list = random_list(random, length);
    positions.extend(&list);
    Edit::InsertAll(&list).encode(at, on)
}

/// A buffer with what the caller had in it, and some words to spare, or none.
fn buffer(random: &mut Prng, bits: usize) -> Vec<u64> {
    let spare = if random.yes() { random.below(6) } else { 0 };
    (0..words_of(bits) + spare).map(|_| random.word()).collect()
}

/// Any number but 0 is a step at the back.
fn back(random: &mut Prng) -> u64 {
    if random.once_in(20) {
        random.word() | 1
    } else {
        1
    }
}

/// Numbers that name no set or no call, and fewer than five at the end.
fn strange_numbers(random: &mut Prng, calls: &mut Vec<u64>) {
    if !calls.is_empty() {
        let place = random.below(calls.len());
        calls[place] = random.one_of(&[2, 17, 18, 99, u64::MAX, 1 << 63]);
    }
    calls.extend((0..random.below(5)).map(|_| 1));
}

/// A run that is refused: a length too large, too few words, or no room for the answers.
fn refused(random: &mut Prng, history: &mut History) {
    match random.below(6) {
        0 => history.a_bits = random.one_of(&HUGE),
        1 => history.b_bits = random.one_of(&HUGE),
        2 => history.a_words.truncate(words_of(history.a_bits).saturating_sub(1)),
        3 => history.b_words.truncate(words_of(history.b_bits).saturating_sub(1)),
        4 => history.out.truncate(history.steps.len().saturating_sub(1)),
        _ => history.walk = 5 + random.word() % 3,
    }
}
