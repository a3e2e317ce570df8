//! The types themselves: refusals, ranges, views, iterators, third buffers.

use lent_bit_sets::history::{run_history, Walk, NONE};
use lent_bit_sets::{masks, words, words_for, FixedBitSet, Refusal, View};
use std::ops::Bound;

#[test]
fn every_refusal_has_its_number() {
    for number in 1..=12 {
        let refusal = Refusal::from_number(number).unwrap();
        assert_eq!(refusal.number(), number);
        assert!(!refusal.to_string().is_empty());
    }
    assert_eq!((Refusal::from_number(0), Refusal::from_number(13)), (None, None));
}

#[test]
fn a_set_is_asked_when_it_is_made() {
    assert_eq!(View::new(65_537, &[0; 1_025]), Err(Refusal::Length));
    assert_eq!(View::new(usize::MAX, &[]), Err(Refusal::Length));
    assert_eq!(View::new(65, &[0]), Err(Refusal::Words));
    assert_eq!(View::new(1, &[2]), Err(Refusal::StrayBits));
    assert_eq!(View::new(64, &[2, 2]).unwrap().as_slice(), [2]);
    assert_eq!(FixedBitSet::from_parts(1, &mut [3]).err(), Some(Refusal::StrayBits));
}

#[test]
fn ranges_of_every_kind() {
    let mut words = [0; 2];
    let mut set = FixedBitSet::with_capacity(70, &mut words).unwrap();
    set.insert_range(..).unwrap();
    assert!(set.is_full());
    set.remove_range(..60).unwrap();
    set.toggle_range(65..).unwrap();
    set.set_range(0..=1, true).unwrap();
    assert_eq!(set.ones().collect::<Vec<_>>(), [0, 1, 60, 61, 62, 63, 64]);
    assert_eq!(set.count_zeroes((Bound::Excluded(60), Bound::Included(65))), Ok(1));
    assert_eq!(set.count_ones(..=usize::MAX), Err(Refusal::Range));
    let inverted = std::ops::Range { start: 5, end: 4 };
    assert_eq!(set.contains_all_in_range(inverted), Err(Refusal::Range));
    assert_eq!((set.contains_all_in_range(60..65), set.contains_any_in_range(2..60)), (Ok(true), Ok(false)));
}

#[test]
fn a_refused_edit_changes_nothing() {
    let mut words = [4, 9];
    let mut set = FixedBitSet::from_parts(3, &mut words).unwrap();
    assert_eq!(set.insert(3), Err(Refusal::Position));
    assert_eq!(set.remove(64), Err(Refusal::Position));
    assert_eq!(set.toggle(usize::MAX), Err(Refusal::Position));
    assert_eq!(set.set(3, false), Err(Refusal::Position));
    assert_eq!(set.copy_bit(0, 3), Err(Refusal::Position));
    assert_eq!(set.put(3), Err(Refusal::Position));
    assert_eq!(set.grow(65_537), Err(Refusal::NewLength));
    assert_eq!(set.grow(129), Err(Refusal::Room));
    assert_eq!(set.into_parts(), (3, &mut [4, 9][..]));
}

#[test]
fn edits_of_two_sets() {
    let (mut one, mut two) = ([0; 2], [0; 2]);
    let mut a = FixedBitSet::with_capacity_and_blocks(70, &[0b1011, 1], &mut one).unwrap();
    let b = FixedBitSet::with_capacity_and_blocks(5, &[0b0110], &mut two).unwrap();
    assert!(!a.is_disjoint(&b) && !a.is_subset(&b) && !a.is_superset(&b));
    assert_eq!((a.union_count(&b), a.intersection_count(&b)), (5, 1));
    assert_eq!((a.difference_count(&b), a.symmetric_difference_count(&b)), (3, 4));
    assert_eq!(a.longer(&b), a.as_slice());
    assert_eq!(b.longer(a.view()), [0b1011, 1]);
    a.symmetric_difference_with(&b).unwrap();
    assert_eq!(a.as_slice(), [0b1101, 1]);
    a.intersect_with(&b);
    assert_eq!((a.len(), a.as_slice()), (70, &[0b0100, 0][..]));
    a.difference_with(&b);
    assert!(a.is_clear() && a != b);
    a.insert(69).unwrap();
    a.clear();
    assert!(a.is_clear());
}

#[test]
fn third_buffers() {
    let (a, b) = (View::new(70, &[6, 1]).unwrap(), View::new(4, &[3]).unwrap());
    let mut out = [9; 3];
    assert_eq!(a.bitand(b, &mut out).unwrap().into_parts().0, 4);
    assert_eq!(out, [2, 9, 9]);
    assert_eq!(a.bitor(b, &mut out).unwrap().len(), 70);
    assert_eq!(out, [7, 1, 9]);
    assert_eq!(b.bitxor(a, &mut out).unwrap().as_slice(), [5, 1]);
    assert_eq!(a.bitand(b, &mut []).err(), Some(Refusal::Room));
}

#[test]
fn walks_are_iterators() {
    let (a, b) = (View::new(130, &[0b110, 0, 0b11]).unwrap(), View::new(128, &[0b011, 1]).unwrap());
    assert_eq!(a.ones().rev().collect::<Vec<_>>(), [129, 128, 2, 1]);
    assert_eq!(a.intersection(b).collect::<Vec<_>>(), [1]);
    assert_eq!(a.difference(b).rev().collect::<Vec<_>>(), [129, 128, 2]);
    assert_eq!(a.symmetric_difference(b).collect::<Vec<_>>(), [2, 128, 129, 0, 64]);
    let mut union = a.union(b);
    assert_eq!((union.next_back(), union.next(), union.next_back(), union.next_back()), (Some(64), Some(1), Some(0), Some(129)));
    let rest = union.clone();
    assert_eq!(rest.collect::<Vec<_>>(), [2, 128]);
    assert_eq!(b.zeroes().count(), 128 - 3);
}

#[test]
fn words_and_masks() {
    assert_eq!((words::count_ones(7), words::leading_zeros(1), words::trailing_zeros(0)), (3, 63, 64));
    assert_eq!(words::low_mask(64), u64::MAX);
    assert_eq!(masks::ask_range(2, 1, 5), Err(Refusal::Range));
    let met = masks::masks(60, 130);
    assert_eq!((met.first_block, met.end_block, met.first_mask, met.last_mask), (0, 3, 0xF << 60, 3));
    assert_eq!(words_for(65_536), 1_024);
}

#[test]
fn a_refused_history() {
    let mut out = [5];
    let ran = run_history(65, &mut [0], 0, &mut [], &[], &[], Walk::Ones, &[0], &mut out);
    assert_eq!((ran, out), (Err(Refusal::Room), [5]));
    let ran = run_history(0, &mut [], 65_537, &mut [], &[], &[], Walk::Ones, &[], &mut []);
    assert_eq!(ran, Err(Refusal::NewLength));
    let ran = run_history(1, &mut [1], 0, &mut [], &[], &[], Walk::Difference, &[1], &mut out).unwrap();
    assert_eq!((ran.count, out), (0, [NONE]));
}
