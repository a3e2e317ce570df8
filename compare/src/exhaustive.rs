//! Every set of 0 to 6 bits, at every position, range and short list of positions, every pair of such sets, every mix of steps, and every short history;
//! and the same sets across a word's edge, from position 61 on.

use crate::cases::{Call, Case, Edit, History, Lent, Record, Step, Walk, WalkCase};
use crate::inputs::{at_position, one, over_range, set, to_length, CALLERS, OF_TWO, PLAIN};
use crate::judge::{Difference, Judge};
use crate::lists::{insert_all, of_size};

const LONGEST: usize = 6;

/// Sets from here on have members on both sides of a word's edge.
const ACROSS: usize = 61;

/// How far the larger families go.
pub struct Depth {
    /// Pairs of sets up to this length are walked by every mix of steps.
    pub mixed: usize,
    /// Every n-th history of two calls is run.
    pub every: usize,
}

pub fn run(judge: &mut Judge, depth: &Depth) -> Result<(), Difference> {
    for from in [0, ACROSS] {
        let sets = sets(from);
        for set in &sets {
            single(judge, set, from)?;
            lists(judge, set, from)?;
            records(judge, set, from)?;
            ones(judge, set)?;
        }
        for a in &sets {
            for b in &sets {
                let longer = a.length.max(b.length) - from;
                pair(judge, a, b)?;
                walks(judge, a, b, longer <= depth.mixed)?;
                if longer <= 2 {
                    pair_records(judge, a, b, from)?;
                }
            }
        }
    }
    histories(judge, depth.every)
}

/// Every set of 0 to 6 bits after `from` bits that are no members, with no word after it.
fn sets(from: usize) -> Vec<Lent> {
    (0..=LONGEST).flat_map(|n| (0..1usize << n).map(move |bits| set(from + n, 0, |p| p >= from && bits >> (p - from) & 1 == 1))).collect()
}

/// The set with words of the caller up to `size`.
fn lent(set: &Lent, size: usize) -> Lent {
    let mut words = set.words.clone();
    words.resize(size, CALLERS);
    Lent { length: set.length, words }
}

/// Positions of the set, just past it, at a word's edge, and one that no set has.
fn positions(set: &Lent, from: usize) -> Vec<usize> {
    let mut positions: Vec<usize> = (from..=set.length + 1).chain([0, 63, 64, usize::MAX]).collect();
    positions.sort_unstable();
    positions.dedup();
    positions
}

fn single(judge: &mut Judge, set: &Lent, from: usize) -> Result<(), Difference> {
    let positions = positions(set, from);
    for size in [set.words.len(), set.words.len() + 2] {
        let mut check = |call: Call| judge.check(&one(call, lent(set, size)));
        PLAIN.into_iter().try_for_each(&mut check)?;
        for x in &positions {
            at_position(*x).into_iter().try_for_each(&mut check)?;
            for y in &positions {
                check(Call::Edit(Edit::CopyBit(*x, *y)))?;
                over_range(*x, *y).into_iter().try_for_each(&mut check)?;
            }
        }
        for n in positions.iter().copied().chain([65, 127, 128, 129, 65_535, 65_536, 65_537]) {
            to_length(n).into_iter().try_for_each(&mut check)?;
        }
    }
    Ok(())
}

/// Every list of up to three positions.
fn lists(judge: &mut Judge, set: &Lent, from: usize) -> Result<(), Difference> {
    let positions = positions(set, from);
    for size in 0..=3 {
        of_size(&positions, size).try_for_each(|list| judge.check(&insert_all(&list, lent(set, 2))))?;
    }
    Ok(())
}

/// Steps with every record, right and wrong.
fn records(judge: &mut Judge, set: &Lent, from: usize) -> Result<(), Difference> {
    let ends: Vec<usize> = (from..=set.length + 1).chain([0, 128, usize::MAX]).collect();
    for low in &ends {
        for high in &ends {
            let part = Record { low: *low, high: *high };
            let step = |walk, back| Call::Step { walk, back, one: part, two: Record::EMPTY };
            let steps = [step(Walk::Ones, false), step(Walk::Ones, true), step(Walk::Zeroes, false)];
            let walker = [false, true].map(|back| Call::WalkerStep { back, part });
            for call in steps.into_iter().chain(walker) {
                judge.check(&one(call, lent(set, 2)))?;
            }
            for walk in [Walk::Ones, Walk::Zeroes] {
                let call = Call::NextMany { walk, one: part, two: Record::EMPTY };
                buffers(judge, call, &lent(set, 2), &Lent::EMPTY, &[0, 1, 2, 5, 70])?;
            }
        }
    }
    Ok(())
}

/// Steps of the walks of two sets with every record of each part, right and wrong.
fn pair_records(judge: &mut Judge, a: &Lent, b: &Lent, from: usize) -> Result<(), Difference> {
    let records = |length: usize| {
        let ends = move || from..=length + 1;
        ends().flat_map(move |low| ends().map(move |high| Record { low, high }))
    };
    for one in records(a.length) {
        for two in records(b.length) {
            for walk in Walk::OF_TWO_SETS {
                for back in [false, true] {
                    let call = Call::Step { walk, back, one, two };
                    judge.check(&Case { call, a: lent(a, 2), b: lent(b, 3), out: Vec::new() })?;
                }
                buffers(judge, Call::NextMany { walk, one, two }, &lent(a, 2), &lent(b, 3), &[0, 1, 2, 5])?;
            }
        }
    }
    Ok(())
}

/// The call with a buffer of each size.
fn buffers(judge: &mut Judge, call: Call, a: &Lent, b: &Lent, sizes: &[usize]) -> Result<(), Difference> {
    sizes.iter().try_for_each(|size| judge.check(&Case { call, a: a.clone(), b: b.clone(), out: vec![CALLERS; *size] }))
}

/// Every mix of n steps, as the bits of a number.
fn mix(bits: usize, n: usize) -> Vec<Step> {
    (0..n).map(|k| Step::at(bits >> k & 1 == 1)).collect()
}

/// Every mix of n steps at both ends and of one, two or three front steps in one call; then all that is left, and a step past the end.
fn many_mixes(n: usize) -> impl Iterator<Item = Vec<Step>> {
    let choices = [Step::Front, Step::Back, Step::Many(1), Step::Many(2), Step::Many(3)];
    (0..choices.len().pow(n as u32)).map(move |mix| {
        let mut rest = mix;
        let mut steps = Vec::with_capacity(n + 3);
        for _ in 0..n {
            steps.push(choices[rest % choices.len()]);
            rest /= choices.len();
        }
        steps.extend([Step::Many(0), Step::Many(9), Step::Front]);
        steps
    })
}

/// Every mix of steps of `ones`, to one step past its end, and all of `zeroes`.
fn ones(judge: &mut Judge, set: &Lent) -> Result<(), Difference> {
    let n = set.words.iter().map(|word| word.count_ones() as usize).sum::<usize>() + 2;
    let mut walk = |walk, steps| judge.check(&WalkCase { walk, a: lent(set, 2), b: Lent::EMPTY, steps });
    for bits in 0..1 << n {
        walk(Walk::Ones, mix(bits, n))?;
    }
    many_mixes(3).try_for_each(|steps| walk(Walk::Ones, steps))?;
    walk(Walk::Zeroes, vec![Step::Front; set.length + 2])?;
    for size in [1, 2, 3, 64, 70] {
        walk(Walk::Zeroes, vec![Step::Many(size), Step::Front, Step::Many(size), Step::Many(70)])?;
    }
    Ok(())
}

fn pair(judge: &mut Judge, a: &Lent, b: &Lent) -> Result<(), Difference> {
    for call in OF_TWO {
        judge.check(&Case { call, a: lent(a, 3), b: lent(b, 2), out: vec![CALLERS; 3] })?;
    }
    // The same with no word to spare, where the lengths may need one.
    for call in [Call::Edit(Edit::UnionWith), Call::Edit(Edit::SymmetricDifferenceWith), Call::BitAnd, Call::BitOr, Call::BitXor] {
        judge.check(&Case { call, a: a.clone(), b: b.clone(), out: Vec::new() })?;
    }
    Ok(())
}

fn walks(judge: &mut Judge, a: &Lent, b: &Lent, mixed: bool) -> Result<(), Difference> {
    let bits = |set: &Lent| (0..2).map(|k| u128::from(set.words.get(k).copied().unwrap_or(0)) << (64 * k)).sum::<u128>();
    let (x, y) = (bits(a), bits(b));
    for (walk, list) in [(Walk::Intersection, x & y), (Walk::Difference, x & !y), (Walk::Union, x | y), (Walk::SymmetricDifference, x ^ y)] {
        let n = list.count_ones() as usize + 1;
        let mixes: Vec<usize> = if mixed { (0..1 << n).collect() } else { vec![0, (1 << n) - 1, 0x5555, 0xAAAA, 0x6666, 0x1111] };
        for bits in mixes {
            judge.check(&WalkCase { walk, a: lent(a, 2), b: lent(b, 3), steps: mix(bits, n) })?;
        }
        let mixes = if mixed { many_mixes(2).collect() } else { vec![vec![Step::Many(2), Step::Back, Step::Many(9), Step::Front]] };
        for steps in mixes {
            judge.check(&WalkCase { walk, a: lent(a, 2), b: lent(b, 3), steps })?;
        }
    }
    Ok(())
}

/// Histories of one and two calls on sets of 0 to 2 bits, with every walk in turn.
fn histories(judge: &mut Judge, every: usize) -> Result<(), Difference> {
    let calls = small_calls();
    let mut made = 0;
    for a_bits in 0..=2 {
        for b_bits in 0..=2 {
            for first in &calls {
                judge.check_history(&history(a_bits, b_bits, &[*first], made))?;
                made += 1;
                for second in &calls {
                    made += 1;
                    if made % every == 0 {
                        judge.check_history(&history(a_bits, b_bits, &[*first, *second], made / every))?;
                    }
                }
            }
        }
    }
    Ok(())
}

fn history(a_bits: usize, b_bits: usize, calls: &[[u64; 5]], made: usize) -> History {
    let steps: Vec<u64> = (0..6).map(|k| (made as u64 / 5) >> k & 1).collect();
    History {
        a_bits,
        a_words: vec![CALLERS; 2],
        b_bits,
        b_words: vec![CALLERS; 1 + made % 2],
        calls: calls.concat(),
        positions: LISTED.to_vec(),
        walk: (made % 5) as u64,
        steps,
        out: vec![CALLERS; 7],
    }
}

/// The positions of which calls name parts. A set of up to 2 bits has all of a part, or not its first, a middle one or its last.
const LISTED: [u64; 5] = [2, 0, 1, 1, 2];

/// Every call with positions 0 to 2 and with every part of `LISTED`, on both sets; and with parts that it does not have.
fn small_calls() -> Vec<[u64; 5]> {
    let mut edits = vec![Edit::Clear, Edit::UnionWith, Edit::IntersectWith, Edit::DifferenceWith, Edit::SymmetricDifferenceWith];
    for x in 0..=2 {
        edits.extend([Edit::Insert(x), Edit::Remove(x), Edit::Put(x), Edit::Toggle(x), Edit::Set(x, true), Edit::Set(x, false)]);
        edits.extend([Edit::Grow(x + 1), Edit::GrowAndInsert(x)]);
        for y in 0..=2 {
            edits.push(Edit::CopyBit(x, y));
            edits.extend([
                Edit::InsertRange(x, y),
                Edit::RemoveRange(x, y),
                Edit::ToggleRange(x, y),
                Edit::SetRange(x, y, true),
                Edit::SetRange(x, y, false),
            ]);
        }
    }
    edits.extend([Edit::GrowAndInsert(64), Edit::Grow(65), Edit::Grow(129), Edit::GrowAndInsert(65_536)]);
    let mut calls: Vec<[u64; 5]> = edits.iter().flat_map(|edit| [edit.encode(0, 0), edit.encode(0, 1)]).collect();
    let parts = (0..=5).flat_map(|x| (x..=5).map(move |y| (x, y)));
    for (x, y) in parts.chain([(1, 0), (5, 4), (0, 6), (5, 6), (6, 6), (0, u64::MAX)]) {
        calls.extend([0, 1].map(|on| [on, 17, x, y, 0]));
    }
    calls
}
