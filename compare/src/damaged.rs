//! Every call with every kind of damage to its inputs, one and several at a time: which question comes first.

use crate::cases::{Call, Case, Edit, Lent, Record, Walk};
use crate::inputs::{at_position, one, over_range, set, to_length, words_of, CALLERS, MOST, OF_TWO, PLAIN};
use crate::judge::{Difference, Judge};
use crate::lists::{insert_all, short};

pub fn run(judge: &mut Judge) -> Result<(), Difference> {
    for length in [1, 5, 63, 65, 70, 127, 130] {
        for a in sets(length) {
            single(judge, length, &a)?;
            for other in [length, 3, 66] {
                for b in sets(other) {
                    pair(judge, length, &a, other, &b)?;
                }
            }
        }
    }
    for length in [1, 63, 100] {
        every_stray_bit(judge, length)?;
    }
    Ok(())
}

/// A set of `length` bits, whole and with each kind of damage, and with several.
pub fn sets(length: usize) -> Vec<Lent> {
    let whole = set(length, 1, |p| p % 3 == 1);
    let own = words_of(length);
    let short = Lent { length, words: whole.words[..own - 1].to_vec() };
    let mut sets = vec![whole.clone(), short, Lent { length, words: Vec::new() }];
    for longer in [MOST, MOST + 1, usize::MAX - 62, usize::MAX] {
        sets.push(Lent { length: longer, words: whole.words.clone() });
        sets.push(Lent { length: longer, words: Vec::new() });
    }
    for j in [length % 64, 63] {
        let mut stray = whole.clone();
        stray.words[own - 1] |= u64::from(length % 64 != 0) << j;
        sets.push(stray);
    }
    sets
}

fn records(length: usize) -> [Record; 5] {
    let record = |low, high| Record { low, high };
    [record(0, length), record(length, length), record(1, 0), record(0, length + 1), record(usize::MAX, usize::MAX)]
}

fn single(judge: &mut Judge, length: usize, a: &Lent) -> Result<(), Difference> {
    let mut calls = PLAIN.to_vec();
    for p in [0, length - 1, length, a.length, usize::MAX] {
        calls.extend(at_position(p));
        calls.extend([Call::Edit(Edit::CopyBit(p, 0)), Call::Edit(Edit::CopyBit(0, p))]);
        calls.extend(to_length(p));
        for q in [0, length, length + 1, a.length, usize::MAX] {
            calls.extend(over_range(p, q));
        }
    }
    for n in [MOST, MOST + 1, length + 64, length + 128] {
        calls.extend(to_length(n));
    }
    for part in records(length).into_iter().chain(records(a.length.min(usize::MAX - 1))) {
        for back in [false, true] {
            calls.push(Call::Step { walk: Walk::Ones, back, one: part, two: Record::EMPTY });
            calls.push(Call::WalkerStep { back, part });
        }
        calls.push(Call::Step { walk: Walk::Zeroes, back: false, one: part, two: Record::EMPTY });
        for walk in [Walk::Ones, Walk::Zeroes] {
            for size in [0, 1, 200] {
                let call = Call::NextMany { walk, one: part, two: Record::EMPTY };
                judge.check(&Case { call, a: a.clone(), b: Lent::EMPTY, out: vec![CALLERS; size] })?;
            }
        }
    }
    for list in short(length).into_iter().chain(short(a.length.min(usize::MAX - 1))) {
        judge.check(&insert_all(&list, a.clone()))?;
    }
    calls.into_iter().try_for_each(|call| judge.check(&one(call, a.clone())))
}

fn pair(judge: &mut Judge, length: usize, a: &Lent, other: usize, b: &Lent) -> Result<(), Difference> {
    for call in OF_TWO {
        for room in [0, 1, 4] {
            judge.check(&Case { call, a: a.clone(), b: b.clone(), out: vec![CALLERS; room] })?;
        }
    }
    for walk in Walk::OF_TWO_SETS {
        for one in records(length) {
            for two in records(other) {
                for back in [false, true] {
                    let call = Call::Step { walk, back, one, two };
                    judge.check(&Case { call, a: a.clone(), b: b.clone(), out: Vec::new() })?;
                }
                for size in [0, 1, 70] {
                    let call = Call::NextMany { walk, one, two };
                    judge.check(&Case { call, a: a.clone(), b: b.clone(), out: vec![CALLERS; size] })?;
                }
            }
        }
    }
    Ok(())
}

/// A single bit from the length up, in the set's last word and in the caller's words after it.
fn every_stray_bit(judge: &mut Judge, length: usize) -> Result<(), Difference> {
    for p in length..64 * (words_of(length) + 1) {
        let mut stray = Lent { length, words: vec![0; words_of(length) + 1] };
        stray.words[p / 64] |= 1 << (p % 64);
        let whole = set(length, 0, |p| p == 0);
        let calls = PLAIN.into_iter().chain(at_position(0)).chain(over_range(0, length)).chain(to_length(length + 1));
        for call in calls {
            judge.check(&one(call, stray.clone()))?;
        }
        for list in short(length) {
            judge.check(&insert_all(&list, stray.clone()))?;
        }
        let record = Record { low: 0, high: length };
        let many = Walk::ALL.map(|walk| Call::NextMany { walk, one: record, two: record });
        for call in OF_TWO.into_iter().chain(many) {
            judge.check(&Case { call, a: stray.clone(), b: whole.clone(), out: vec![CALLERS; 2] })?;
            judge.check(&Case { call, a: whole.clone(), b: stray.clone(), out: vec![CALLERS; 2] })?;
        }
    }
    Ok(())
}
