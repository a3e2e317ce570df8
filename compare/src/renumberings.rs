//! Renumberings: every short list of pairs on every set of 0 to 3 bits, lists at the edges, damaged sets and buffers with every mix of bad pairs, and random
//! lists. Each input is asked of all three calls.

use crate::cases::{Direction, Lent, Pair, Renumbering};
use crate::damaged;
use crate::inputs::{random_length, random_number, random_set, set, words_of, CALLERS, HUGE, MOST};
use crate::judge::{Difference, Judge};
use crate::prng::Prng;
use crate::random::damage_set;
use std::rc::Rc;

/// How far a run goes.
pub struct Extent {
    /// Every n-th call with a list of three pairs is made on the smallest sets: of the calls with each list some, where n is 4.
    pub every: usize,
    /// How many random inputs.
    pub random: usize,
}

const DIRECTIONS: [Direction; 3] = [Direction::Forward, Direction::Back, Direction::ForwardAndBack];

pub fn run(judge: &mut Judge, random: &mut Prng, extent: &Extent) -> Result<(), Difference> {
    small(judge, extent.every)?;
    edges(judge, random)?;
    long(judge, random)?;
    damaged(judge)?;
    (0..extent.random).try_for_each(|_| check(judge, &any(random)))
}

fn check(judge: &mut Judge, case: &Renumbering) -> Result<(), Difference> {
    DIRECTIONS.into_iter().try_for_each(|direction| judge.check(&Renumbering { direction, ..case.clone() }))
}

/// With the words that both sets need and `further` ones of the caller.
fn whole(set: &Lent, pairs: &[Pair], bits: usize, further: usize) -> Renumbering {
    let out = vec![CALLERS; words_of(bits) + further];
    let again = vec![CALLERS; words_of(set.length) + further];
    Renumbering { direction: Direction::Forward, set: set.clone(), pairs: Rc::new(pairs.to_vec()), bits, out, again }
}

fn pair(old: usize, new: usize) -> Pair {
    Pair { old: old as u64, new: new as u64 }
}

/// Every list of up to three pairs over the offsets 0 to 4 and one that no set has, from every set of 0 to 3 bits to every length of 0 to 4.
fn small(judge: &mut Judge, every: usize) -> Result<(), Difference> {
    let offsets = [0, 1, 2, 3, 4, MOST];
    let pairs: Vec<Pair> = offsets.iter().flat_map(|old| offsets.map(|new| pair(*old, new))).collect();
    let sets: Vec<Lent> = (0..=3).flat_map(|n| (0..1 << n).map(move |bits: usize| set(n, 1, |p| bits >> p & 1 == 1))).collect();
    let calls = || (0..=4).flat_map(|bits| DIRECTIONS.map(|direction| (bits, direction)));
    let mut made = 0;
    for size in 0..=3 {
        for list in 0..pairs.len().pow(size) {
            let further = list % 2;
            let list: Vec<Pair> = (0..size).map(|place| pairs[list / pairs.len().pow(place) % pairs.len()]).collect();
            for set in &sets {
                for (bits, direction) in calls() {
                    made += 1;
                    if size < 3 || made % every == 0 {
                        judge.check(&Renumbering { direction, ..whole(set, &list, bits, further) })?;
                    }
                }
            }
        }
    }
    Ok(())
}

/// Sets at the edges of words, from each length to each, by lists with the pairs that matter most at the first place, a middle one and the last.
fn edges(judge: &mut Judge, random: &mut Prng) -> Result<(), Difference> {
    const LENGTHS: [usize; 9] = [0, 1, 5, 63, 64, 65, 130, MOST - 1, MOST];
    for length in LENGTHS {
        for bits in LENGTHS {
            // Three new offsets are left for further pairs. Of the longest sets only the ends are moved.
            let most = length.min(bits.saturating_sub(3));
            let moved: Vec<usize> = (0..most).filter(|p| *p < 70 || p + 70 > most).collect();
            let mut list: Vec<Pair> = moved.iter().map(|p| pair(*p, bits - 1 - p)).collect();
            random.shuffle(&mut list);
            let members = set(length, 1, |p| moved.binary_search(&p).is_ok() && p % 5 != 2);
            for further in further(length, bits) {
                for place in [0, list.len() / 2, list.len()] {
                    let mut pairs = list.clone();
                    pairs.splice(place..place, further.iter().copied());
                    check(judge, &whole(&members, &pairs, bits, 1))?;
                }
            }
            for place in [0, list.len() / 2, list.len().saturating_sub(1)] {
                let mut pairs = list.clone();
                pairs.splice(place..list.len().min(place + 1), []);
                check(judge, &whole(&members, &pairs, bits, 0))?;
            }
        }
    }
    Ok(())
}

/// Further pairs for a set of `length` bits that goes to `bits` bits with its new offsets 0 to 2 free: old offsets from the length up, new ones from `bits` up,
/// and the same offset twice, small and large.
fn further(length: usize, bits: usize) -> Vec<Vec<Pair>> {
    let mut lists = vec![vec![]];
    for p in [0, length.saturating_sub(1), length, length + 1, MOST - 1, MOST, MOST + 1, 1 << 32, usize::MAX - 1, usize::MAX] {
        lists.push(vec![pair(p, 0)]);
        lists.push(vec![pair(p, 0), pair(p, 1)]);
        lists.push(vec![pair(length, 0), pair(p, 0)]);
        lists.push(vec![pair(length + 2, p)]);
        lists.push(vec![pair(length + 2, p), pair(usize::MAX, p)]);
        lists.push(vec![pair(p, p), pair(length + 3, 2), pair(p, p)]);
    }
    for q in [bits.saturating_sub(1), bits, bits + 1] {
        lists.push(vec![pair(length + 2, q)]);
        lists.push(vec![pair(length + 2, q), pair(length + 3, q)]);
        lists.push(vec![pair(length + 2, q), pair(length + 2, q + 1)]);
    }
    // Large offsets that are equal in their low bits alone.
    lists.push(vec![pair(MOST, 0), pair(2 * MOST, 1), pair(1 << 40, 2)]);
    lists
}

/// Every position of the longest sets moved, in a random order; and with one pair changed, taken away or put in at the first place, a middle one and the last.
fn long(judge: &mut Judge, random: &mut Prng) -> Result<(), Difference> {
    for length in [MOST, MOST - 1] {
        let mut news: Vec<usize> = (0..length).collect();
        random.shuffle(&mut news);
        let mut list: Vec<Pair> = news.into_iter().enumerate().map(|(p, q)| pair(p, q)).collect();
        random.shuffle(&mut list);
        let full = set(length, 0, |_| true);
        let mixed = random_set(random, length, 1);
        check(judge, &whole(&mixed, &list, length, 1))?;
        check(judge, &whole(&full, &list, MOST, 1))?;
        let last = length - 1;
        for place in [0, length / 2, last] {
            let other = list[last - place / 2];
            for changed in [
                None,
                Some((other.old, u64::MAX)),
                Some((u64::MAX, other.new)),
                Some((u64::MAX, list[place].new)),
                Some((list[place].old, MOST as u64)),
            ] {
                let mut pairs = list.clone();
                pairs.splice(place..=place, changed.map(|(old, new)| Pair { old, new }));
                check(judge, &whole(&full, &pairs, length, 0))?;
            }
            // More pairs than a set has positions.
            for put_in in [pair(MOST, MOST), pair(MOST, 0), pair(0, MOST)] {
                let mut pairs = list.clone();
                pairs.splice(place..place, [put_in, pair(MOST + 1, MOST + 1)]);
                check(judge, &whole(&full, &pairs, length, 0))?;
            }
        }
    }
    Ok(())
}

/// Every kind of damage to the old set with every new length and buffer, and every mix of pairs that share an old offset, share a new one, have a new one that
/// is too high, and lack a member.
fn damaged(judge: &mut Judge) -> Result<(), Difference> {
    for length in [1, 5, 63, 65, 70, 130] {
        for old in damaged::sets(length) {
            for bits in [0, 1, 64, length, length + 64, MOST, MOST + 1, usize::MAX] {
                let own = words_of(bits.min(MOST));
                for room in [0, own.saturating_sub(1), own, own + 1] {
                    for mix in 0..16 {
                        let (out, again) = (vec![CALLERS; room], vec![CALLERS; words_of(length) + room % 2 - mix % 2]);
                        let (set, pairs) = (old.clone(), Rc::new(mixed(length, bits, mix)));
                        let case = Renumbering { direction: Direction::Forward, set, pairs, bits, out, again };
                        check(judge, &case)?;
                    }
                }
            }
        }
    }
    Ok(())
}

/// Pairs for the members of a damaged set, and what is wrong with them by the bits of `mix`.
fn mixed(length: usize, bits: usize, mix: usize) -> Vec<Pair> {
    let wrong = |bit: usize| mix >> bit & 1 == 1;
    let mut pairs: Vec<Pair> = (0..length).filter(|p| p % 3 == 1).map(|p| pair(p, p)).collect();
    if wrong(0) {
        pairs.pop();
    }
    if wrong(1) {
        pairs.push(pair(length, bits));
    }
    if wrong(2) {
        pairs.extend([pair(length + 1, 0), pair(length + 2, 0)]);
    }
    if wrong(3) {
        pairs.extend([pair(length + 3, 2), pair(length + 3, 3)]);
    }
    pairs
}

/// A random set with a random list: mostly one that moves each member, with other pairs among them.
fn any(random: &mut Prng) -> Renumbering {
    let length = random_length(random).min(2_000);
    let bits = if random.once_in(4) { length } else { random_length(random).min(2_000) };
    let further = random.below(2);
    let mut set = random_set(random, length, further);
    let mut pairs = if random.once_in(4) { anything(random, length, bits) } else { moving(random, &mut set, bits) };
    if random.once_in(3) {
        spoil(random, &mut pairs, length, bits);
    }
    let mut case = whole(&set, &pairs, bits, further);
    if random.once_in(8) {
        damage(random, &mut case);
    }
    case
}

/// Any pairs.
fn anything(random: &mut Prng, length: usize, bits: usize) -> Vec<Pair> {
    (0..random.few(6, 60)).map(|_| pair(random_number(random, length), random_number(random, bits))).collect()
}

/// A pair for each member, where `bits` bits have room for all, and for some other offsets; each has a new offset of its own. Members beyond that are taken out.
fn moving(random: &mut Prng, set: &mut Lent, bits: usize) -> Vec<Pair> {
    let mut news: Vec<usize> = (0..bits).collect();
    random.shuffle(&mut news);
    let others = random.below(4);
    let mut pairs = Vec::new();
    for p in 0..set.length {
        let (k, bit) = (p / 64, 1 << (p % 64));
        if set.words[k] & bit != 0 || random.below(8) < others {
            match news.pop() {
                Some(new) => pairs.push(pair(p, new)),
                None => set.words[k] &= !bit,
            }
        }
    }
    if random.once_in(4) {
        let above = [set.length, set.length + 1, MOST, usize::MAX];
        pairs.extend(above.into_iter().zip(news).map(|(old, new)| pair(old, new)));
    }
    random.shuffle(&mut pairs);
    pairs
}

/// One pair less, one offset of another pair, or any offset.
fn spoil(random: &mut Prng, pairs: &mut Vec<Pair>, length: usize, bits: usize) {
    if pairs.is_empty() {
        return;
    }
    let (place, other) = (random.below(pairs.len()), random.one_of(pairs));
    match random.below(6) {
        0 => drop(pairs.remove(place)),
        1 => pairs[place].old = other.old,
        2 => pairs[place].new = other.new,
        3 => pairs[place].old = random_number(random, length) as u64,
        4 => pairs[place].new = random_number(random, bits) as u64,
        _ => pairs[place] = pair(random.one_of(&HUGE), random.one_of(&HUGE)),
    }
}

/// A damaged set, a new length that no set has, or too few words in a buffer.
fn damage(random: &mut Prng, case: &mut Renumbering) {
    match random.below(4) {
        0 => damage_set(random, &mut case.set),
        1 => case.bits = random.one_of(&HUGE),
        2 => case.out.truncate(random.below(case.out.len() + 1)),
        _ => case.again.truncate(random.below(case.again.len() + 1)),
    }
}
