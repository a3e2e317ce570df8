//! Rows of single calls: on positions, ranges and whole sets.

use super::again;
use super::sets::{pair, Twice};
use super::Bench;
use crate::prng::Prng;
use fixedbitset::FixedBitSet as Rust;
use lent_bit_sets::ffi::*;
use lent_bit_sets::FixedBitSet;
use std::hint::black_box;

/// Calls on single positions in a run, positions of a list, calls on short ranges, and on whole sets.
const POSITIONS: usize = 1_000;
const LISTED: usize = 10_000;
const SHORT: usize = 1_000;
const WHOLE: usize = 20;

/// One call for each input, on a set that is read anew from where its owner keeps it, as in a program that calls from many places.
fn each<S, T: Copy>(set: &mut S, inputs: &[T], mut call: impl FnMut(&mut S, T) -> usize) {
    black_box(inputs.iter().fold(0, |sum: usize, input| sum.wrapping_add(call(black_box(&mut *set), *input))));
}

fn edited(edited: FbsEdited) -> usize {
    edited.number as usize
}

/// A set of the engine as its owner keeps it: the length, the pointer and the number of words.
type Raw = (FbsSet, *mut u64, usize);

pub fn positions(bench: &mut Bench, random: &mut Prng, length: usize) {
    let (mut set, _) = pair(random, length, 2);
    let inputs: Vec<usize> = (0..POSITIONS).map(|_| random.below(length)).collect();
    let pairs: Vec<(usize, usize)> = inputs.iter().map(|p| (*p, length - 1 - p)).collect();
    let mut raw = set.raw_mut();
    let rust = &mut set.rust;
    macro_rules! row {
        ($name:literal, $set:expr, $inputs:expr, $ours:expr, $rust:expr) => {
            bench.row($name, length, POSITIONS, || each($set, $inputs, $ours), || each(rust, $inputs, $rust));
        };
    }
    // SAFETY: the pointer and the number of words are those of a vector that lives as long, and nothing else reads or writes it meanwhile.
    unsafe {
        row!("insert", &mut raw, &inputs, |(s, w, n): &mut Raw, p| edited(fbs_insert(*s, *w, *n, p)), |set: &mut Rust, p| {
            set.insert(p);
            0
        });
        row!("remove", &mut raw, &inputs, |(s, w, n): &mut Raw, p| edited(fbs_remove(*s, *w, *n, p)), |set: &mut Rust, p| {
            set.remove(p);
            0
        });
        row!("put", &mut raw, &inputs, |(s, w, n): &mut Raw, p| usize::from(fbs_put(*s, *w, *n, p).was), |set: &mut Rust, p| {
            usize::from(set.put(p))
        });
        row!("toggle", &mut raw, &inputs, |(s, w, n): &mut Raw, p| edited(fbs_toggle(*s, *w, *n, p)), |set: &mut Rust, p| {
            set.toggle(p);
            0
        });
        row!("set", &mut raw, &inputs, |(s, w, n): &mut Raw, p| edited(fbs_set(*s, *w, *n, p, p % 2 == 0)), |set: &mut Rust, p| {
            set.set(p, p % 2 == 0);
            0
        });
        row!("copy_bit", &mut raw, &pairs, |(s, w, n): &mut Raw, (x, y)| edited(fbs_copy_bit(*s, *w, *n, x, y)), |set: &mut Rust, (x, y)| {
            set.copy_bit(x, y);
            0
        });
        row!("contains", &mut raw, &inputs, |(s, w, n): &mut Raw, p| usize::from(fbs_contains(*s, *w, *n, p).yes), |set: &mut Rust, p| {
            usize::from(set.contains(p))
        });
    }
    let mut lent = FixedBitSet::from_parts(length, &mut set.words).expect("a whole set");
    row!("insert, bindings", &mut lent, &inputs, |set: &mut FixedBitSet, p| usize::from(set.insert(p).is_err()), |set: &mut Rust, p| {
        set.insert(p);
        0
    });
    row!("contains, bindings", &mut lent, &inputs, |set: &mut FixedBitSet, p| usize::from(set.contains(p)), |set: &mut Rust, p| {
        usize::from(set.contains(p))
    });
}

/// A list in one call, beside a loop over it.
pub fn lists(bench: &mut Bench, random: &mut Prng, length: usize) {
    let (mut set, _) = pair(random, length, 2);
    let list: Vec<u64> = (0..LISTED).map(|_| random.below(length) as u64).collect();
    let (s, w, n) = set.raw_mut();
    let rust = &mut set.rust;
    // SAFETY: the pointers and the numbers of words are those of vectors that live as long, and nothing else reads or writes the set's meanwhile.
    let ours = || unsafe { again(1, || edited(fbs_insert_all(s, w, n, list.as_ptr(), list.len()))) };
    bench.row("insert_all, 10,000 positions", length, LISTED, ours, || {
        let set = black_box(&mut *rust);
        list.iter().for_each(|p| set.insert(*p as usize));
    });
}

/// The same as a loop of the Rust: what `renumber` asks of the pairs, by two sets of offsets, then every member inserted at its new offset.
fn renumbered(set: &Rust, pairs: &[FbsPair], olds: &mut Rust, news: &mut Rust, out: &mut Rust) -> usize {
    olds.clear();
    news.clear();
    if pairs.iter().any(|pair| olds.put(pair.old_offset as usize)) {
        return 10;
    }
    if pairs.iter().any(|pair| news.put(pair.new_offset as usize)) {
        return 11;
    }
    if !set.is_subset(olds) {
        return 12;
    }
    out.clear();
    for pair in pairs.iter().filter(|pair| set.contains(pair.old_offset as usize)) {
        out.insert(pair.new_offset as usize);
    }
    0
}

/// A full set, with a pair for each of its members in random order.
pub fn renumberings(bench: &mut Bench, random: &mut Prng, length: usize) {
    let full = Twice::new(length, |_| true);
    let mut news: Vec<u64> = (0..length as u64).collect();
    random.shuffle(&mut news);
    let mut pairs: Vec<FbsPair> = (0..).zip(news).map(|(old_offset, new_offset)| FbsPair { old_offset, new_offset }).collect();
    random.shuffle(&mut pairs);
    let (s, w, n) = full.raw();
    let mut words = vec![0; full.words.len()];
    let [mut olds, mut news, mut out] = [(); 3].map(|()| Rust::with_capacity(length));
    // SAFETY: the pointers and the numbers of words and pairs are those of vectors that live as long, and nothing else reads or writes the last meanwhile.
    let ours = || unsafe { again(1, || edited(fbs_renumber(s, w, n, pairs.as_ptr(), pairs.len(), length, words.as_mut_ptr(), words.len()))) };
    let rust = || again(1, || renumbered(black_box(&full.rust), &pairs, &mut olds, &mut news, &mut out));
    bench.row("renumber, a full set", length, length, ours, rust);
}

pub fn ranges(bench: &mut Bench, random: &mut Prng, length: usize) {
    for (name, start, end, times) in [("100..120, one word", 100, 120, SHORT), ("100..140, two words", 100, 140, SHORT), ("0..L", 0, length, WHOLE)] {
        let (mut set, _) = pair(random, length, 2);
        let inputs = vec![(start, end); times];
        let mut raw = set.raw_mut();
        let rust = &mut set.rust;
        macro_rules! row {
            ($call:literal, $ours:expr, $rust:expr) => {
                bench.row(&format!("{} {name}", $call), length, times, || each(&mut raw, &inputs, $ours), || each(rust, &inputs, $rust));
            };
        }
        // SAFETY: the pointer and the number of words are those of a vector that lives as long, and nothing else reads or writes it meanwhile.
        unsafe {
            row!("count_ones", |(s, w, n): &mut Raw, (x, y)| fbs_count_ones(*s, *w, *n, x, y).count, |set: &mut Rust, (x, y)| set.count_ones(x..y));
            row!("insert_range", |(s, w, n): &mut Raw, (x, y)| edited(fbs_insert_range(*s, *w, *n, x, y)), |set: &mut Rust, (x, y)| {
                set.insert_range(x..y);
                0
            });
            // Every position of the range is a member now, so all of it is read.
            row!(
                "contains_all_in_range",
                |(s, w, n): &mut Raw, (x, y)| usize::from(fbs_contains_all_in_range(*s, *w, *n, x, y).yes),
                |set: &mut Rust, (x, y)| usize::from(set.contains_all_in_range(x..y))
            );
        }
    }
}

pub fn whole_sets(bench: &mut Bench, random: &mut Prng, length: usize) {
    let (mut a, b) = pair(random, length, 2);
    let last = Twice::new(length, |p| p + 1 == length);
    let (s, w, n) = a.raw_mut();
    let (t, v, m) = b.raw();
    let (l, x, k) = last.raw();
    let rust = &mut a.rust;
    macro_rules! row {
        ($name:literal, $times:expr, $ours:expr, $rust:expr) => {
            bench.row($name, length, $times, || again($times, || $ours), || each(rust, &[(); $times], $rust));
        };
    }
    // SAFETY: the pointers and the numbers of words are those of vectors that live as long, and nothing else reads or writes the first meanwhile.
    unsafe {
        row!("union_count", WHOLE, fbs_union_count(s, w, n, t, v, m).count, |set: &mut Rust, ()| set.union_count(&b.rust));
        row!("union_with", WHOLE, edited(fbs_union_with(s, w, n, t, v, m)), |set: &mut Rust, ()| {
            set.union_with(&b.rust);
            0
        });
        row!("is_subset, yes", WHOLE, usize::from(fbs_is_subset(t, v, m, s, w, n).yes), |set: &mut Rust, ()| usize::from(b.rust.is_subset(set)));
        row!("minimum, the last position", WHOLE, fbs_minimum(l, x, k).at, |_: &mut Rust, ()| black_box(&last.rust).minimum().unwrap_or(0));
        row!("grow, no change", SHORT, edited(fbs_grow(s, w, n, 100)), |set: &mut Rust, ()| {
            set.grow(100);
            0
        });
    }
}
