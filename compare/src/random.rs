//! Random calls and walks, with whole sets and with damaged ones.

use crate::cases::{Call, Case, Lent, Record, Step, Walk, WalkCase};
use crate::inputs::{
    at_position, over_range, random_edit, random_length, random_number, random_range, random_set, to_length, trim, words_of, BUFFERS, HUGE, OF_TWO,
    PLAIN,
};
use crate::judge::{Difference, Judge};
use crate::lists::random_list;
use crate::prng::Prng;

/// Makes cases until the judge has compared `answers` more.
pub fn run(judge: &mut Judge, random: &mut Prng, answers: u64) -> Result<(), Difference> {
    let until = judge.tally.answers + answers;
    while judge.tally.answers < until {
        let mut case = whole(random);
        if random.once_in(6) {
            damage(random, &mut case);
        }
        judge.check(&case)?;
        if random.once_in(16) {
            judge.check(&walk(random))?;
        }
    }
    Ok(())
}

/// A case whose sets pass questions 1 to 3.
fn whole(random: &mut Prng) -> Case {
    let length = random_length(random);
    let other = if random.once_in(3) { length } else { random_length(random) };
    let further = random.below(3) * random.below(3);
    let mut a = random_set(random, length, further);
    let mut b = random_set(random, other, further.min(1));
    if random.once_in(8) && words_of(length) == words_of(other) {
        // Sets that are nearly the same, for equality, order and subsets.
        let last = b.words.len();
        a.words.resize(last.max(words_of(length)), 0);
        let shorter = length.min(other);
        (a.length, b.length) = (shorter, shorter);
        b.words.clone_from(&a.words);
        trim(&mut a);
        trim(&mut b);
        if shorter > 0 && random.yes() {
            let p = random.below(shorter);
            b.words[p / 64] ^= 1 << (p % 64);
        }
    }
    let call = random_call(random, a.length, b.length);
    if call == Call::InsertAll {
        b = Lent { length: 0, words: random_list(random, a.length) };
    }
    if call.reads_second() && random.yes() {
        a.words.resize(words_of(a.length.max(b.length)).max(a.words.len()), 7);
    }
    let room = match call {
        Call::NextMany { .. } => random.one_of(&BUFFERS) + random.few(2, 100),
        _ => (words_of(length.max(other)) + random.below(2)).saturating_sub(usize::from(random.once_in(8))),
    };
    let out = (0..room).map(|_| random.word()).collect();
    Case { call, a, b, out }
}

fn random_call(random: &mut Prng, length: usize, other: usize) -> Call {
    match random.below(13) {
        0 => random.one_of(&PLAIN),
        1 | 2 => Call::Edit(random_edit(random, length)),
        3 => {
            let p = random_number(random, length);
            at_position(p)[random.below(7)]
        }
        4..=6 => {
            let (start, end) = random_range(random, length);
            over_range(start, end)[random.below(9)]
        }
        7 => {
            let n = random_number(random, length);
            to_length(n)[random.below(4)]
        }
        8 | 9 => random.one_of(&OF_TWO),
        10 => {
            let walk = random.one_of(&Walk::ALL);
            let (one, two) = (random_record(random, length), random_record(random, other));
            if random.yes() {
                Call::NextMany { walk, one, two }
            } else {
                Call::Step { walk, back: walk != Walk::Zeroes && random.yes(), one, two }
            }
        }
        11 => Call::InsertAll,
        _ => Call::WalkerStep { back: random.yes(), part: random_record(random, length) },
    }
}

fn random_record(random: &mut Prng, length: usize) -> Record {
    let (low, high) = random_range(random, length);
    Record { low, high }
}

/// Stray bits, too few words, lengths that no set has, wrong records: in the first set, the second, or both.
fn damage(random: &mut Prng, case: &mut Case) {
    if random.yes() {
        damage_set(random, &mut case.a);
    }
    if random.yes() {
        damage_set(random, &mut case.b);
    }
    if random.once_in(4) {
        let fewer = random.below(case.out.len() + 1);
        case.out.truncate(fewer);
    }
}

pub fn damage_set(random: &mut Prng, set: &mut Lent) {
    match random.below(5) {
        0 => set.length = random.one_of(&HUGE),
        1 => {
            let fewer = random.below(set.words.len() + 1);
            set.words.truncate(fewer);
        }
        2 => set.length = random_number(random, set.length),
        _ => {
            let own = words_of(set.length);
            if set.length % 64 != 0 && set.words.len() >= own {
                let j = set.length % 64 + random.below(64 - set.length % 64);
                set.words[own - 1] |= 1 << j;
            }
        }
    }
}

/// A walk by a random mix of steps, seldom to its end.
fn walk(random: &mut Prng) -> WalkCase {
    let (length, other) = (random_length(random), random_length(random));
    let (a, b) = (random_set(random, length, 1), random_set(random, other, 1));
    let walk = random.one_of(&Walk::ALL);
    let n = 1 + random.few(24, 200);
    let lean = random.below(4);
    let many = if random.yes() { 0 } else { random.below(8) };
    let mut left = 400;
    let mut steps: Vec<Step> = Vec::with_capacity(n);
    for _ in 0..n {
        if random.below(8) < many && left > 0 {
            let size = random.few(12, 70).min(left);
            left -= size;
            steps.push(Step::Many(size));
        } else {
            steps.push(Step::at(walk != Walk::Zeroes && random.below(4) < lean));
        }
    }
    let mut case = WalkCase { walk, a, b, steps };
    if random.once_in(16) {
        damage_set(random, &mut case.a);
        damage_set(random, &mut case.b);
    }
    case
}
