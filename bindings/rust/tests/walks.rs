//! The iterators against lists written out position by position: every mix of front steps, back steps and many steps in one call.

use lent_bit_sets::{Difference, Intersection, Ones, SymmetricDifference, Union, View, Zeroes};
use std::collections::VecDeque;

/// What the tests ask of an iterator.
trait Walk: ExactSizeIterator<Item = usize> + Clone {
    fn next_many(&mut self, out: &mut [u64]) -> usize;
}

/// A walk that has steps at the back too.
trait BothEnds: Walk + DoubleEndedIterator {}

macro_rules! walks {
    ($($name:ident)*) => {
        $(impl Walk for $name<'_> {
            fn next_many(&mut self, out: &mut [u64]) -> usize {
                $name::next_many(self, out)
            }
        })*
    };
}

walks! { Ones Zeroes Intersection Difference Union SymmetricDifference }

impl BothEnds for Ones<'_> {}
impl BothEnds for Intersection<'_> {}
impl BothEnds for Difference<'_> {}
impl BothEnds for Union<'_> {}
impl BothEnds for SymmetricDifference<'_> {}

#[derive(Clone, Copy, Debug)]
enum Step {
    Front,
    Back,
    Many(usize),
}

/// What stands in words that no call writes.
const MARK: u64 = u64::MAX;

fn many(walk: &mut impl Walk, list: &mut VecDeque<usize>, size: usize) {
    let mut out = vec![MARK; size];
    let count = walk.next_many(&mut out);
    let expected: Vec<usize> = list.drain(..size.min(list.len())).collect();
    assert_eq!(count, expected.len());
    for (k, word) in out.into_iter().enumerate() {
        assert_eq!(word, expected.get(k).map_or(MARK, |p| *p as u64), "word {k}");
    }
}

/// How many are left, and which.
fn rest(walk: &impl Walk, list: &VecDeque<usize>) {
    assert_eq!(walk.size_hint(), (list.len(), Some(list.len())));
    assert_eq!(walk.clone().count(), list.len());
    assert_eq!(&walk.clone().collect::<VecDeque<_>>(), list);
    assert_eq!(walk.clone().fold(VecDeque::new(), push), *list);
}

fn push(mut list: VecDeque<usize>, p: usize) -> VecDeque<usize> {
    list.push_back(p);
    list
}

/// After the steps the walk and the list have the same left.
fn both_ends(mut walk: impl BothEnds, list: &[usize], steps: &[Step]) {
    let mut list = VecDeque::from(list.to_vec());
    for step in steps {
        match step {
            Step::Front => assert_eq!(walk.next(), list.pop_front(), "{steps:?}"),
            Step::Back => assert_eq!(walk.next_back(), list.pop_back(), "{steps:?}"),
            Step::Many(size) => many(&mut walk, &mut list, *size),
        }
        assert_eq!(walk.len(), list.len(), "{steps:?}");
    }
    rest(&walk, &list);
    let back: Vec<usize> = walk.clone().rev().collect();
    assert_eq!(back, list.iter().rev().copied().collect::<Vec<_>>());
    let mut over = walk;
    over.by_ref().for_each(drop);
    assert_eq!((over.next(), over.next_back(), over.next_many(&mut [0]), over.len()), (None, None, 0, 0));
}

fn front_only(mut walk: Zeroes<'_>, list: &[usize], steps: &[Step]) {
    let mut list = VecDeque::from(list.to_vec());
    for step in steps {
        match step {
            Step::Front | Step::Back => assert_eq!(walk.next(), list.pop_front(), "{steps:?}"),
            Step::Many(size) => many(&mut walk, &mut list, *size),
        }
        assert_eq!(walk.len(), list.len(), "{steps:?}");
    }
    rest(&walk, &list);
}

fn every_walk(a: View<'_>, b: View<'_>, steps: &[Step]) {
    let listed = |length: usize, is_in: &dyn Fn(usize) -> bool| (0..length).filter(|p| is_in(*p)).collect::<Vec<_>>();
    let (x, y) = (|p| a.contains(p), |p| b.contains(p));
    both_ends(a.ones(), &listed(a.len(), &x), steps);
    front_only(a.zeroes(), &listed(a.len(), &|p| !x(p)), steps);
    both_ends(a.intersection(b), &listed(a.len(), &|p| x(p) && y(p)), steps);
    let (first, second) = (listed(a.len(), &|p| x(p) && !y(p)), listed(b.len(), &|p| y(p) && !x(p)));
    both_ends(a.difference(b), &first, steps);
    both_ends(a.symmetric_difference(b), &[first, second.clone()].concat(), steps);
    both_ends(a.union(b), &[listed(a.len(), &x), second].concat(), steps);
}

/// Every mix of four steps of five kinds.
fn mixes() -> impl Iterator<Item = [Step; 4]> {
    let kinds = [Step::Front, Step::Back, Step::Many(0), Step::Many(1), Step::Many(3)];
    (0..5_usize.pow(4)).map(move |mix| [1, 5, 25, 125].map(|place| kinds[mix / place % 5]))
}

#[test]
fn every_mix_of_few_steps() {
    let words = [[0b1011, 1], [0b0110, 3], [0, 0], [u64::MAX, 3]];
    let views: Vec<View<'_>> = words.iter().map(|words| View::new(66, words).unwrap()).collect();
    for steps in mixes() {
        for a in &views {
            for b in &views {
                every_walk(*a, *b, &steps);
            }
        }
    }
}

/// Walks of more positions than a call gives for the front.
#[test]
fn mixes_of_many_steps() {
    let mut state = 1_u64;
    let mut random = move |limit: usize| {
        state = state.wrapping_mul(6_364_136_223_846_793_005).wrapping_add(1_442_695_040_888_963_407);
        (state >> 33) as usize % limit
    };
    for round in 0..150 {
        let lengths = [random(1_400), random(1_400)];
        let sets = lengths.map(|length| {
            let mut words = vec![0_u64; length.div_ceil(64)];
            let one_of = [1, 2, 9, 300][random(4)];
            for p in (0..length).filter(|_| random(one_of) == 0).collect::<Vec<_>>() {
                words[p / 64] |= 1 << (p % 64);
            }
            words
        });
        let (a, b) = (View::new(lengths[0], &sets[0]).unwrap(), View::new(lengths[1], &sets[1]).unwrap());
        // Few steps at one end, or so many that the ends meet.
        let (n, lean) = ([6, 40, 400][random(3)], random(4));
        let steps: Vec<Step> = (0..n)
            .map(|_| match random(4) {
                kind if kind < lean => Step::Back,
                3 if round % 2 == 0 => Step::Many([0, 1, 2, 7, 63, 64, 65, 255, 256, 257, 300][random(11)]),
                _ => Step::Front,
            })
            .collect();
        every_walk(a, b, &steps);
    }
}

#[test]
fn back_steps_take_what_the_front_has_asked_for() {
    let words = [0b1111_1111];
    let mut ones = View::new(64, &words).unwrap().ones();
    assert_eq!(ones.next(), Some(0));
    assert_eq!(ones.by_ref().rev().collect::<Vec<_>>(), [7, 6, 5, 4, 3, 2, 1]);
    assert_eq!((ones.next(), ones.next_back(), ones.len()), (None, None, 0));
}
