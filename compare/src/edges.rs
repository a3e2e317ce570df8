//! Sets at the edges of words, up to the longest.

use crate::cases::{Call, Case, Edit, Lent, Record, Step, Walk, WalkCase};
use crate::inputs::{at_position, one, over_range, random_set, set, to_length, words_of, BUFFERS, CALLERS, MOST, OF_TWO, PLAIN};
use crate::judge::{Difference, Judge};
use crate::lists::{insert_all, long, random_list, short};
use crate::prng::Prng;

/// Every call at the ends that matter most, then some calls at `every` word's edge: 1 for all of them.
pub fn run(judge: &mut Judge, random: &mut Prng, every: usize) -> Result<(), Difference> {
    for n in [0, 1, 2, 63, 64, 65, 127, 128, 129, 191, 192, 193, 4_095, 4_096, 4_097, 65_471, 65_472, 65_473, 65_534, 65_535, 65_536] {
        around(judge, random, n, true)?;
    }
    for edge in (64..=MOST).step_by(64 * every) {
        for n in [edge - 1, edge, edge + 1] {
            if n <= MOST {
                around(judge, random, n, false)?;
            }
        }
    }
    words(judge, random)
}

/// All the calls, or some of them.
fn picked<const N: usize>(random: &mut Prng, calls: [Call; N], all: bool, some: usize) -> Vec<Call> {
    if all {
        calls.to_vec()
    } else {
        (0..some).map(|_| random.one_of(&calls)).collect()
    }
}

/// A set of n bits: at its end, at the word's edge below it, and beside sets a little shorter and longer.
fn around(judge: &mut Judge, random: &mut Prng, n: usize, all: bool) -> Result<(), Difference> {
    let further = random.below(2);
    let full = set(n, further, |_| true);
    let ends = set(n, further, |p| p == 0 || p + 1 == n);
    let mixed = random_set(random, n, further);
    let bare = set(n, further, |_| false);
    let sets = [&mixed, &full, &bare];
    let edge = n.saturating_sub(1) / 64 * 64;
    for call in PLAIN {
        judge.check(&one(call, ends.clone()))?;
        judge.check(&one(call, full.clone()))?;
    }
    for p in [0, edge.saturating_sub(1), edge, n.saturating_sub(1), n] {
        let calls = picked(random, at_position(p), all, 1);
        on_each(judge, random, &calls, sets, all)?;
        judge.check(&one(Call::Edit(Edit::CopyBit(n.saturating_sub(1), p)), ends.clone()))?;
    }
    for (start, end) in [(0, n), (edge, n), (0, edge), (n, n), (n.saturating_sub(1), n), (edge.saturating_sub(1), edge + 1), (n, n + 1), (n + 1, n)] {
        let calls = picked(random, over_range(start, end), all, 2);
        on_each(judge, random, &calls, sets, all)?;
    }
    for longer in [n, n + 1, n + 64, edge + 64, edge + 65, MOST, MOST + 1] {
        for call in picked(random, to_length(longer), all, 1) {
            let room = if random.yes() { MOST / 64 } else { words_of(n) + random.below(3) };
            let mut a = set(n, 0, |p| p % 3 == 0);
            a.words.resize(room.max(words_of(n)), CALLERS);
            let b = random_set(random, n, 0);
            judge.check(&Case { call, a, b, out: Vec::new() })?;
        }
    }
    lists(judge, random, n, sets, all)?;
    beside(judge, random, n, &mixed, all)?;
    last_steps(judge, random, n, &mixed, &ends)?;
    many(judge, random, n, [&mixed, &ends, &full], all)
}

/// The calls on each of the sets, or on some.
fn on_each(judge: &mut Judge, random: &mut Prng, calls: &[Call], sets: [&Lent; 3], all: bool) -> Result<(), Difference> {
    for call in calls {
        for set in sets {
            if all || random.once_in(2) {
                judge.check(&one(*call, set.clone()))?;
            }
        }
    }
    Ok(())
}

/// Every list on each of the sets, or a random one on one.
fn lists(judge: &mut Judge, random: &mut Prng, n: usize, sets: [&Lent; 3], all: bool) -> Result<(), Difference> {
    if !all {
        return judge.check(&insert_all(&random_list(random, n), random.one_of(&sets).clone()));
    }
    for list in short(n).into_iter().chain(long(n)) {
        sets.iter().try_for_each(|set| judge.check(&insert_all(&list, (*set).clone())))?;
    }
    Ok(())
}

/// With a second set of about the same length.
fn beside(judge: &mut Judge, random: &mut Prng, n: usize, mixed: &Lent, all: bool) -> Result<(), Difference> {
    let lengths = [n.saturating_sub(1), n, n + 1, n.saturating_sub(64), n + 64, 1];
    let others = if all { lengths.to_vec() } else { vec![random.one_of(&lengths)] };
    for other in others {
        let second = random_set(random, other.min(MOST), 0);
        let room = words_of(n.max(second.length));
        for call in picked(random, OF_TWO, all, 4) {
            let mut a = mixed.clone();
            a.words.resize((room + random.below(2)).max(words_of(n)), CALLERS);
            judge.check(&Case { call, a, b: second.clone(), out: vec![CALLERS; room + random.below(2)] })?;
        }
    }
    // The same set a second time, so that equality and subset say yes.
    let calls = [Call::Eq, Call::Cmp, Call::IsSubset, Call::IsSuperset, Call::Longer];
    for call in picked(random, calls, all, 1) {
        judge.check(&Case { call, a: mixed.clone(), b: mixed.clone(), out: Vec::new() })?;
    }
    Ok(())
}

/// Some steps at both ends, and steps with a record that stands at the end.
fn last_steps(judge: &mut Judge, random: &mut Prng, n: usize, mixed: &Lent, ends: &Lent) -> Result<(), Difference> {
    let walk = Walk::OF_HISTORIES[random.below(5)];
    let steps: Vec<Step> = (0..6).map(|_| Step::at(random.yes())).collect();
    judge.check(&WalkCase { walk, a: mixed.clone(), b: ends.clone(), steps: steps.clone() })?;
    judge.check(&WalkCase { walk: Walk::Ones, a: ends.clone(), b: mixed.clone(), steps })?;
    judge.check(&WalkCase { walk: Walk::Zeroes, a: ends.clone(), b: mixed.clone(), steps: vec![Step::Front; 4] })?;
    for part in
        [Record { low: n.saturating_sub(1), high: n }, Record { low: n, high: n }, Record { low: 0, high: n + 1 }, Record { low: n + 1, high: n }]
    {
        let two = Record { low: 0, high: n };
        let call = Call::Step { walk, back: random.yes(), one: part, two };
        judge.check(&Case { call, a: ends.clone(), b: mixed.clone(), out: Vec::new() })?;
    }
    Ok(())
}

/// Many steps in one call: buffers about a word's size from records at the edges, and whole walks in buffers of one size with steps between them.
fn many(judge: &mut Judge, random: &mut Prng, n: usize, sets: [&Lent; 3], all: bool) -> Result<(), Difference> {
    let edge = n.saturating_sub(1) / 64 * 64;
    let walks = if all { Walk::ALL.to_vec() } else { vec![random.one_of(&Walk::ALL)] };
    for walk in walks {
        let sizes = if all { BUFFERS.to_vec() } else { vec![random.one_of(&BUFFERS)] };
        for size in sizes {
            let (a, b) = (random.one_of(&sets), random.one_of(&sets));
            let low = random.one_of(&[0, edge.saturating_sub(65), edge.saturating_sub(64), edge.saturating_sub(1), edge, n]);
            let one = Record { low, high: n };
            let two = Record { low: n - low, high: n };
            let out = (0..size).map(|_| random.word()).collect();
            judge.check(&Case { call: Call::NextMany { walk, one, two }, a: a.clone(), b: b.clone(), out })?;
        }
        let count = listed(walk, sets[0], sets[1]);
        let size = random.one_of(&[64, 65, 256, count + 1]);
        let mut steps = Vec::new();
        for _ in 0..=count / size {
            steps.extend([Step::Many(size), Step::Many(1), Step::at(walk != Walk::Zeroes && random.yes())]);
        }
        steps.extend([Step::Front, Step::Many(3)]);
        // The second set has few positions of its own: the model looks through a first part that is over at each of them.
        judge.check(&WalkCase { walk, a: sets[0].clone(), b: sets[1].clone(), steps })?;
    }
    Ok(())
}

/// How many positions a walk over two sets of one length has.
fn listed(walk: Walk, a: &Lent, b: &Lent) -> usize {
    let words = a.words.iter().zip(&b.words).take(words_of(a.length));
    let count = |word: fn(u64, u64) -> u64| words.map(|(x, y)| word(*x, *y).count_ones() as usize).sum::<usize>();
    match walk {
        Walk::Ones => count(|x, _| x),
        Walk::Zeroes => a.length - count(|x, _| x),
        Walk::Intersection => count(|x, y| x & y),
        Walk::Difference => count(|x, y| x & !y),
        Walk::Union => count(|x, y| x | y),
        Walk::SymmetricDifference => count(|x, y| x ^ y),
    }
}

/// One word and the masks of ranges.
fn words(judge: &mut Judge, random: &mut Prng) -> Result<(), Difference> {
    let mut plain: Vec<u64> = vec![0, 1, 2, 12, u64::MAX, u64::MAX - 1, 1 << 63];
    plain.extend((0..64).flat_map(|j| [1 << j, u64::MAX << j, u64::MAX >> j]));
    plain.extend((0..2_000).map(|_| random.word() >> (random.word() % 64)));
    for word in plain {
        let calls = [Call::WordCountOnes(word), Call::WordLeadingZeros(word), Call::WordTrailingZeros(word), Call::LastPositiveBitAndUnset(word)];
        for call in calls {
            judge.check(&one(call, Lent::EMPTY))?;
        }
    }
    for r in (0..=70).chain([usize::MAX]) {
        judge.check(&one(Call::LowMask(r), Lent::EMPTY))?;
    }
    let ends: Vec<usize> =
        vec![0, 1, 62, 63, 64, 65, 100, 127, 128, 129, 192, 65_535, 65_536, usize::MAX - 64, usize::MAX - 63, usize::MAX - 1, usize::MAX];
    for start in &ends {
        for end in &ends {
            let (start, end) = (*start, *end);
            judge.check(&one(Call::Masks { start, end }, Lent::EMPTY))?;
            for number in [0, 1, 2, 3, 1_022, 1_023, 1_024, usize::MAX / 64 - 1, usize::MAX / 64, usize::MAX / 64 + 1, usize::MAX] {
                judge.check(&one(Call::RangeMask { start, end, word: number }, Lent::EMPTY))?;
                judge.check(&one(Call::AskRange { start, end, length: number }, Lent::EMPTY))?;
            }
        }
    }
    Ok(())
}
