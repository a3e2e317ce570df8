//! Smaller inputs, for the smallest that still shows a difference: shorter lengths first, then fewer calls and steps, then simpler words and numbers.

use crate::cases::{Call, Case, Edit, History, Lent, Pair, Record, Renumbering, Step, WalkCase};
use crate::inputs::trim;
use std::rc::Rc;

/// Numbers below n, the boldest first.
fn below(n: usize) -> Vec<usize> {
    let mut smaller = Vec::new();
    for candidate in [0, n / 2, n.saturating_sub(64), n.saturating_sub(1)] {
        if candidate < n && !smaller.contains(&candidate) {
            smaller.push(candidate);
        }
    }
    smaller
}

/// The parts of a list of n, the largest first, down to those of `unit`.
fn parts(n: usize, unit: usize) -> Vec<(usize, usize)> {
    let mut parts = Vec::new();
    let mut size = n.div_ceil(unit);
    while size > 0 {
        parts.extend((0..n).step_by(size * unit).map(|start| (start, (start + size * unit).min(n))));
        size /= 2;
    }
    parts
}

/// The least part that is left out of n positions: of many, no small one.
fn unit(n: usize) -> usize {
    n.div_ceil(64).max(1)
}

/// Lists with a part left out, the largest parts first.
fn shorter<T: Clone>(list: &[T], unit: usize) -> Vec<Vec<T>> {
    parts(list.len(), unit).into_iter().map(|(start, end)| [&list[..start], &list[end..]].concat()).collect()
}

/// Lists with a position lower, one of the first that are not 0.
fn lower(list: &[u64]) -> Vec<Vec<u64>> {
    let mut smaller = Vec::new();
    for (k, p) in list.iter().enumerate().filter(|(_, p)| **p != 0).take(8) {
        for less in below(*p as usize) {
            let mut other = list.to_vec();
            other[k] = less as u64;
            smaller.push(other);
        }
    }
    smaller
}

/// Words with fewer of them, then with a word of 0, then with a bit less.
fn simpler_words(words: &[u64]) -> Vec<Vec<u64>> {
    let mut smaller: Vec<Vec<u64>> = below(words.len()).into_iter().map(|n| words[..n].to_vec()).collect();
    let changed = |k: usize, word: u64| {
        let mut other = words.to_vec();
        other[k] = word;
        other
    };
    let kept: Vec<usize> = (0..words.len()).filter(|k| words[*k] != 0).take(40).collect();
    for k in &kept {
        smaller.push(changed(*k, 0));
    }
    for k in kept.into_iter().take(4) {
        let word = words[k];
        smaller.push(changed(k, word & 0xFFFF_FFFF));
        smaller.push(changed(k, word & (word - 1)));
        smaller.push(changed(k, word & !(1 << (63 - word.leading_zeros()))));
    }
    smaller
}

/// Words of which a part is 0, the largest parts first.
fn bare(words: &[u64]) -> Vec<Vec<u64>> {
    let mut smaller = Vec::new();
    for (start, end) in parts(words.len(), unit(words.len())) {
        if words[start..end].iter().any(|word| *word != 0) {
            let mut other = words.to_vec();
            other[start..end].fill(0);
            smaller.push(other);
        }
    }
    smaller
}

fn lents(set: &Lent) -> Vec<Lent> {
    let mut smaller: Vec<Lent> = below(set.length).into_iter().map(|length| Lent { length, words: set.words.clone() }).collect();
    smaller.extend(below(set.length).into_iter().map(|length| cut(set, length)));
    smaller.extend(simpler_words(&set.words).into_iter().map(|words| Lent { length: set.length, words }));
    smaller
}

/// Both sets shorter by the same: cut to one length, or without one word; then one of them smaller.
fn pairs(a: &Lent, b: &Lent) -> Vec<(Lent, Lent)> {
    let mut smaller: Vec<(Lent, Lent)> = below(a.length.max(b.length)).into_iter().map(|length| (cut(a, length), cut(b, length))).collect();
    for k in 0..a.words.len().min(b.words.len()).min(8) {
        smaller.extend(without_word(a, k).zip(without_word(b, k)));
    }
    smaller.extend(lents(a).into_iter().map(|a| (a, b.clone())));
    smaller.extend(lents(b).into_iter().map(|b| (a.clone(), b)));
    smaller
}

/// The set cut to a length, with no stray bit.
fn cut(set: &Lent, length: usize) -> Lent {
    let mut smaller = set.clone();
    if length < set.length {
        smaller.length = length;
        trim(&mut smaller);
    }
    smaller
}

fn without_word(set: &Lent, k: usize) -> Option<Lent> {
    let length = set.length.checked_sub(64)?;
    let mut words = set.words.clone();
    words.remove(k);
    Some(Lent { length, words })
}

/// The call with each of its numbers replaced.
fn with_numbers(call: Call, f: &mut dyn FnMut(usize) -> usize) -> Call {
    match call {
        Call::Edit(edit) => {
            let [_, code, x, y, z] = edit.encode(0, 0);
            Call::Edit(Edit::decode(&[], code, f(x as usize), f(y as usize), z != 0).unwrap_or(edit))
        }
        Call::WithCapacity(n) => Call::WithCapacity(f(n)),
        Call::WithCapacityAndBlocks(n) => Call::WithCapacityAndBlocks(f(n)),
        Call::Contains(p) => Call::Contains(f(p)),
        Call::ContainsAllInRange(start, end) => Call::ContainsAllInRange(f(start), f(end)),
        Call::ContainsAnyInRange(start, end) => Call::ContainsAnyInRange(f(start), f(end)),
        Call::CountOnes(start, end) => Call::CountOnes(f(start), f(end)),
        Call::CountZeroes(start, end) => Call::CountZeroes(f(start), f(end)),
        Call::Step { walk, back, one, two } => Call::Step { walk, back, one: record(one, f), two: record(two, f) },
        Call::NextMany { walk, one, two } => Call::NextMany { walk, one: record(one, f), two: record(two, f) },
        Call::WalkerStep { back, part } => Call::WalkerStep { back, part: record(part, f) },
        Call::WordCountOnes(word) => Call::WordCountOnes(f(word as usize) as u64),
        Call::WordLeadingZeros(word) => Call::WordLeadingZeros(f(word as usize) as u64),
        Call::WordTrailingZeros(word) => Call::WordTrailingZeros(f(word as usize) as u64),
        Call::LastPositiveBitAndUnset(word) => Call::LastPositiveBitAndUnset(f(word as usize) as u64),
        Call::LowMask(r) => Call::LowMask(f(r)),
        Call::AskRange { start, end, length } => Call::AskRange { start: f(start), end: f(end), length: f(length) },
        Call::RangeMask { start, end, word } => Call::RangeMask { start: f(start), end: f(end), word: f(word) },
        Call::Masks { start, end } => Call::Masks { start: f(start), end: f(end) },
        call => call,
    }
}

fn record(record: Record, f: &mut dyn FnMut(usize) -> usize) -> Record {
    Record { low: f(record.low), high: f(record.high) }
}

/// The numbers of a call.
fn numbers(call: Call) -> Vec<usize> {
    let mut numbers = Vec::new();
    with_numbers(call, &mut |n| {
        numbers.push(n);
        n
    });
    numbers
}

pub fn case(case: &Case) -> Vec<Case> {
    let mut smaller = Vec::new();
    for (a, b) in pairs(&case.a, &case.b) {
        smaller.push(Case { a, b, ..case.clone() });
    }
    if case.call == Call::InsertAll {
        let list = &case.b.words;
        for words in shorter(list, unit(list.len())).into_iter().chain(lower(list)) {
            smaller.push(Case { b: Lent { length: 0, words }, ..case.clone() });
        }
    }
    for out in simpler_words(&case.out) {
        smaller.push(Case { out, ..case.clone() });
    }
    for (place, number) in numbers(case.call).into_iter().enumerate() {
        for less in below(number) {
            let mut at = 0;
            let call = with_numbers(case.call, &mut |n| {
                at += 1;
                if at == place + 1 {
                    less
                } else {
                    n
                }
            });
            smaller.push(Case { call, ..case.clone() });
        }
    }
    smaller.retain(|candidate| candidate != case);
    smaller
}

/// Without the pairs start..end, and without the members that they move.
fn without_pairs(case: &Renumbering, start: usize, end: usize) -> Renumbering {
    let mut smaller = case.clone();
    let sided = case.sided();
    Rc::make_mut(&mut smaller.pairs).drain(start..end);
    for pair in &sided[start..end] {
        put(&mut smaller.set, pair.old, false);
    }
    smaller
}

/// A pair with a lower offset on one of its sides; a member goes with its old one.
fn lower_pairs(case: &Renumbering) -> Vec<Renumbering> {
    let mut smaller = Vec::new();
    let sided = case.sided();
    for (k, pair) in case.pairs.iter().enumerate().take(8) {
        for (old, new) in below(pair.old as usize)
            .into_iter()
            .map(|old| (old as u64, pair.new))
            .chain(below(pair.new as usize).into_iter().map(|new| (pair.old, new as u64)))
        {
            let mut other = case.clone();
            Rc::make_mut(&mut other.pairs)[k] = Pair { old, new };
            smaller.push(other.clone());
            let (from, to) = (sided[k].old, other.sided()[k].old);
            if from != to && put(&mut other.set, from, false) {
                put(&mut other.set, to, true);
                smaller.push(other);
            }
        }
    }
    smaller
}

/// Gives a position of the set's own words a state, and tells whether it was a member.
fn put(set: &mut Lent, p: u64, member: bool) -> bool {
    match set.words.get_mut((p / 64) as usize) {
        Some(word) if p < set.length as u64 => {
            let (was, bit) = (*word, 1 << (p % 64));
            *word = if member { was | bit } else { was & !bit };
            was & bit != 0
        }
        _ => false,
    }
}

pub fn renumbering(case: &Renumbering) -> Vec<Renumbering> {
    let (length, n) = (case.set.length, case.pairs.len());
    let mut smaller: Vec<Renumbering> = Vec::new();
    smaller.extend(bare(&case.set.words).into_iter().map(|words| Renumbering { set: Lent { length, words }, ..case.clone() }));
    smaller.extend(bare(&case.out).into_iter().map(|out| Renumbering { out, ..case.clone() }));
    smaller.extend(bare(&case.again).into_iter().map(|again| Renumbering { again, ..case.clone() }));
    smaller.extend(parts(n, unit(n)).into_iter().map(|(start, end)| without_pairs(case, start, end)));
    smaller.extend(shorter(&case.pairs, unit(n)).into_iter().map(|pairs| Renumbering { pairs: Rc::new(pairs), ..case.clone() }));
    smaller.extend(lents(&case.set).into_iter().map(|set| Renumbering { set, ..case.clone() }));
    smaller.extend(below(case.bits).into_iter().map(|bits| Renumbering { bits, ..case.clone() }));
    smaller.extend(lower_pairs(case));
    smaller.extend(simpler_words(&case.out).into_iter().map(|out| Renumbering { out, ..case.clone() }));
    smaller.extend(simpler_words(&case.again).into_iter().map(|again| Renumbering { again, ..case.clone() }));
    smaller.retain(|candidate| candidate != case);
    smaller
}

pub fn walk(case: &WalkCase) -> Vec<WalkCase> {
    let mut smaller = Vec::new();
    for (a, b) in pairs(&case.a, &case.b) {
        smaller.push(WalkCase { a, b, ..case.clone() });
    }
    for steps in shorter(&case.steps, 1) {
        if !steps.is_empty() {
            smaller.push(WalkCase { steps, ..case.clone() });
        }
    }
    for (k, step) in case.steps.iter().enumerate() {
        if let Step::Many(size) = step {
            for less in below(*size) {
                let mut steps = case.steps.clone();
                steps[k] = Step::Many(less);
                smaller.push(WalkCase { steps, ..case.clone() });
            }
        }
    }
    smaller.retain(|candidate| candidate != case);
    smaller
}

/// The history without a part of its positions; the calls name what is left of theirs.
fn without_positions(history: &History, start: usize, end: usize) -> History {
    let mut smaller = history.clone();
    smaller.positions.drain(start..end);
    for five in smaller.calls.chunks_exact_mut(5).filter(|five| five[1] == 17) {
        for place in &mut five[2..4] {
            *place -= place.saturating_sub(start as u64).min((end - start) as u64);
        }
    }
    smaller
}

pub fn history(history: &History) -> Vec<History> {
    let mut smaller = Vec::new();
    for a_bits in below(history.a_bits) {
        smaller.push(History { a_bits, ..history.clone() });
    }
    for b_bits in below(history.b_bits) {
        smaller.push(History { b_bits, ..history.clone() });
    }
    for calls in shorter(&history.calls, 5) {
        smaller.push(History { calls, ..history.clone() });
    }
    let listed = history.positions.len();
    for (start, end) in parts(listed, unit(listed)) {
        smaller.push(without_positions(history, start, end));
    }
    for positions in lower(&history.positions) {
        smaller.push(History { positions, ..history.clone() });
    }
    for steps in shorter(&history.steps, 1) {
        smaller.push(History { steps, ..history.clone() });
    }
    for a_words in simpler_words(&history.a_words) {
        smaller.push(History { a_words, ..history.clone() });
    }
    for b_words in simpler_words(&history.b_words) {
        smaller.push(History { b_words, ..history.clone() });
    }
    for out in simpler_words(&history.out) {
        smaller.push(History { out, ..history.clone() });
    }
    for place in 0..history.calls.len() {
        if place % 5 >= 2 {
            for less in below(history.calls[place] as usize) {
                let mut calls = history.calls.clone();
                calls[place] = less as u64;
                smaller.push(History { calls, ..history.clone() });
            }
        }
    }
    smaller.retain(|candidate| candidate != history);
    smaller
}
