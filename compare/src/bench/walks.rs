//! Rows of walks: steps one by one, and whole walks by iterators.

use super::again;
use super::sets::Twice;
use super::Bench;
use crate::inputs::MOST;
use lent_bit_sets::ffi::*;
use std::hint::black_box;

/// About so many steps are taken in a run, from the start of the walk.
const STEPS: usize = 2_048;

/// Iterators that are made in a run for their first position alone.
const FIRSTS: usize = 100;

/// A step as the engine gives it.
trait Stepped {
    type Records: Copy;
    fn at(&self) -> usize;
    fn records(&self) -> Self::Records;
}

impl Stepped for FbsStepped {
    type Records = FbsPart;

    fn at(&self) -> usize {
        self.at
    }

    fn records(&self) -> FbsPart {
        self.part
    }
}

impl Stepped for FbsSteppedPair {
    type Records = (FbsPart, FbsPart);

    fn at(&self) -> usize {
        self.at
    }

    fn records(&self) -> (FbsPart, FbsPart) {
        (self.one, self.two)
    }
}

/// Sets and name of the rows of a walk; at most so many steps are taken.
struct Steps<'b> {
    bench: &'b mut Bench,
    name: String,
    length: usize,
    most: usize,
}

impl Steps<'_> {
    /// Steps from the first records on, one call each, beside the Rust's iterator; a short walk is taken again.
    fn row<S: Stepped, I: Iterator<Item = usize>>(&mut self, name: &str, first: S::Records, step: impl Fn(S::Records) -> S, walk: impl Fn() -> I) {
        let n = walk().count().min(self.most);
        if n == 0 {
            return;
        }
        let times = self.most.div_ceil(n);
        let ours = || {
            again(times, || {
                let mut records = first;
                let mut sum = 0_usize;
                for _ in 0..n {
                    let stepped = step(records);
                    sum = sum.wrapping_add(stepped.at());
                    records = stepped.records();
                }
                sum
            })
        };
        let rust = || {
            again(times, || {
                let mut walk = walk();
                let mut sum = 0_usize;
                for _ in 0..n {
                    sum = sum.wrapping_add(walk.next().unwrap_or(0));
                }
                sum
            })
        };
        self.bench.row(&format!("{name}, {}", self.name), self.length, times * n, ours, rust);
    }
}

pub fn steps(bench: &mut Bench, name: &str, a: &Twice, b: &Twice) {
    // The non-members of the complement are as many as the members of the first set.
    let complement = Twice::new(a.length, |p| !a.rust.contains(p));
    let ((s, w, n), (t, v, m), (c, u, k)) = (a.raw(), b.raw(), complement.raw());
    let first = a.first();
    let mut rows = Steps { bench: &mut *bench, name: name.into(), length: a.length, most: STEPS };
    // SAFETY: the pointers and the numbers of words are those of vectors that live as long.
    unsafe {
        rows.row("step of ones", first, |p| fbs_ones_next(s, w, n, p), || a.rust.ones());
        rows.row("back step of ones", first, |p| fbs_ones_next_back(s, w, n, p), || a.rust.ones().rev());
        rows.row("step of zeroes", first, |p| fbs_zeroes_next(c, u, k, p), || complement.rust.zeroes());
        rows.row("step of intersection", first, |p| fbs_intersection_next(s, w, n, t, v, m, p), || a.rust.intersection(&b.rust));
        rows.row("back step of intersection", first, |p| fbs_intersection_next_back(s, w, n, t, v, m, p), || a.rust.intersection(&b.rust).rev());
        rows.row("step of difference", first, |p| fbs_difference_next(s, w, n, t, v, m, p), || a.rust.difference(&b.rust));
        rows.row("back step of difference", first, |p| fbs_difference_next_back(s, w, n, t, v, m, p), || a.rust.difference(&b.rust).rev());
    }
    steps_of_union(bench, name, a, b, STEPS);
    let mut rows = Steps { bench, name: name.into(), length: a.length, most: STEPS };
    let both = (first, b.first());
    // SAFETY: as above.
    unsafe {
        rows.row(
            "step of symmetric_difference",
            both,
            |(p, q)| fbs_symmetric_difference_next(s, w, n, t, v, m, p, q),
            || a.rust.symmetric_difference(&b.rust),
        );
        rows.row(
            "back step of symmetric_difference",
            both,
            |(p, q)| fbs_symmetric_difference_next_back(s, w, n, t, v, m, p, q),
            || a.rust.symmetric_difference(&b.rust).rev(),
        );
    }
}

pub fn steps_of_union(bench: &mut Bench, name: &str, a: &Twice, b: &Twice, most: usize) {
    let ((s, w, n), (t, v, m)) = (a.raw(), b.raw());
    let both = (a.first(), b.first());
    let mut rows = Steps { bench, name: name.into(), length: a.length, most };
    // SAFETY: the pointers and the numbers of words are those of vectors that live as long.
    unsafe {
        rows.row("step of union", both, |(p, q)| fbs_union_next(s, w, n, t, v, m, p, q), || a.rust.union(&b.rust));
        rows.row("back step of union", both, |(p, q)| fbs_union_next_back(s, w, n, t, v, m, p, q), || a.rust.union(&b.rust).rev());
    }
}

/// Many steps as the engine gives them.
trait Many {
    type Records: Copy;
    fn count(&self) -> usize;
    fn records(&self) -> Self::Records;
}

impl Many for FbsNextMany {
    type Records = FbsPart;

    fn count(&self) -> usize {
        self.count
    }

    fn records(&self) -> FbsPart {
        self.part
    }
}

impl Many for FbsNextManyPair {
    type Records = (FbsPart, FbsPart);

    fn count(&self) -> usize {
        self.count
    }

    fn records(&self) -> (FbsPart, FbsPart) {
        (self.one, self.two)
    }
}

/// Whole walks by calls for as many positions as a buffer has words, beside the Rust's iterator into a vector that has room.
fn many<M: Many, I: Iterator<Item = usize>>(
    bench: &mut Bench,
    name: &str,
    length: usize,
    first: M::Records,
    next_many: impl Fn(M::Records, *mut u64, usize) -> M,
    walk: impl Fn() -> I,
) {
    let per = walk().count().max(1);
    for size in [256, MOST] {
        let mut buffer = vec![0_u64; size];
        let mut vector: Vec<usize> = Vec::with_capacity(length);
        let ours = || {
            let mut records = first;
            loop {
                let many = next_many(records, buffer.as_mut_ptr(), size);
                black_box(&buffer);
                records = many.records();
                if many.count() < size {
                    break;
                }
            }
        };
        let rust = || {
            vector.clear();
            vector.extend(walk());
            black_box(&vector);
        };
        bench.row(&format!("next_many {size}, {name}"), length, per, ours, rust);
    }
}

/// Many steps in one call. The Rust's side is `collect` into a vector that has room.
pub fn next_many(bench: &mut Bench, name: &str, a: &Twice, b: &Twice) {
    let complement = Twice::new(a.length, |p| !a.rust.contains(p));
    let ((s, w, n), (t, v, m), (c, u, k)) = (a.raw(), b.raw(), complement.raw());
    let (first, length) = (a.first(), a.length);
    // SAFETY: the pointers and the numbers of words are those of vectors that live as long, and nothing else reads or writes the buffer meanwhile.
    unsafe {
        many(bench, &format!("ones, {name}"), length, first, |p, o, l| fbs_ones_next_many(s, w, n, p, o, l), || a.rust.ones());
        many(bench, &format!("zeroes, {name}"), length, first, |p, o, l| fbs_zeroes_next_many(c, u, k, p, o, l), || complement.rust.zeroes());
        let ours = |p, o, l| fbs_intersection_next_many(s, w, n, t, v, m, p, o, l);
        many(bench, &format!("intersection, {name}"), length, first, ours, || a.rust.intersection(&b.rust));
        let ours = |p, o, l| fbs_difference_next_many(s, w, n, t, v, m, p, o, l);
        many(bench, &format!("difference, {name}"), length, first, ours, || a.rust.difference(&b.rust));
        next_many_of_union(bench, name, a, b);
        let ours = |(p, q), o, l| fbs_symmetric_difference_next_many(s, w, n, t, v, m, p, q, o, l);
        many(bench, &format!("symmetric_difference, {name}"), length, (first, b.first()), ours, || a.rust.symmetric_difference(&b.rust));
    }
}

pub fn next_many_of_union(bench: &mut Bench, name: &str, a: &Twice, b: &Twice) {
    let ((s, w, n), (t, v, m)) = (a.raw(), b.raw());
    // SAFETY: as above.
    let ours = |(p, q), o, l| unsafe { fbs_union_next_many(s, w, n, t, v, m, p, q, o, l) };
    many(bench, &format!("union, {name}"), a.length, (a.first(), b.first()), ours, || a.rust.union(&b.rust));
}

/// The sum of a walk by a caller's loop.
fn sum(walk: impl Iterator<Item = usize>) {
    let mut sum = 0_usize;
    for p in walk {
        sum = sum.wrapping_add(p);
    }
    black_box(sum);
}

/// The iterators of the bindings beside the Rust's, whole walks: a loop, and `collect`.
fn iterator<I: Iterator<Item = usize>, J: Iterator<Item = usize>>(
    bench: &mut Bench,
    name: &str,
    length: usize,
    ours: impl Fn() -> I,
    rust: impl Fn() -> J,
) {
    let per = rust().count().max(1);
    bench.row(&format!("for, {name}"), length, per, || sum(ours()), || sum(rust()));
    bench.row(
        &format!("collect, {name}"),
        length,
        per,
        || drop(black_box(ours().collect::<Vec<_>>())),
        || drop(black_box(rust().collect::<Vec<_>>())),
    );
}

pub fn iterators(bench: &mut Bench, name: &str, a: &Twice, b: &Twice) {
    let complement = Twice::new(a.length, |p| !a.rust.contains(p));
    let (x, y, length) = (a.view(), b.view(), a.length);
    let first = |walk: &mut dyn FnMut() -> Option<usize>| again(FIRSTS, || walk().unwrap_or(0));
    let (ours, rust) = (|| first(&mut || black_box(x).ones().next()), || first(&mut || black_box(&a.rust).ones().next()));
    bench.row(&format!("first position, ones, {name}"), length, FIRSTS, ours, rust);
    iterator(bench, &format!("ones, {name}"), length, || x.ones(), || a.rust.ones());
    iterator(bench, &format!("ones back, {name}"), length, || x.ones().rev(), || a.rust.ones().rev());
    iterator(bench, &format!("zeroes, {name}"), length, || complement.view().zeroes(), || complement.rust.zeroes());
    iterator(bench, &format!("intersection, {name}"), length, || x.intersection(y), || a.rust.intersection(&b.rust));
    iterator(bench, &format!("difference, {name}"), length, || x.difference(y), || a.rust.difference(&b.rust));
    iterators_of_union(bench, name, a, b);
    iterator(bench, &format!("symmetric_difference, {name}"), length, || x.symmetric_difference(y), || a.rust.symmetric_difference(&b.rust));
}

pub fn iterators_of_union(bench: &mut Bench, name: &str, a: &Twice, b: &Twice) {
    let (x, y) = (a.view(), b.view());
    iterator(bench, &format!("union, {name}"), a.length, || x.union(y), || a.rust.union(&b.rust));
}
