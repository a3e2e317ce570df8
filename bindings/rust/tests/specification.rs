//! The lines of document 01, "Sets at their edges", through the safe types.

use lent_bit_sets::{words, FixedBitSet, Refusal, View};
use std::cmp::Ordering;

#[test]
fn a_set_of_no_bits() {
    let set = View::new(0, &[]).unwrap();
    assert!(set.is_empty() && set.is_full() && set.is_clear());
    assert_eq!((set.minimum(), set.maximum(), set.as_slice().len()), (None, None, 0));
}

#[test]
fn a_range_at_the_end() {
    let mut words = [0, 9];
    let mut set = FixedBitSet::with_capacity(64, &mut words).unwrap();
    assert_eq!(set.insert_range(64..64), Ok(()));
    assert_eq!(set.insert_range(64..65), Err(Refusal::Range));
    assert_eq!(words, [0, 9]);
}

#[test]
fn a_range_over_two_words() {
    let mut words = [0; 2];
    let mut set = FixedBitSet::with_capacity(70, &mut words).unwrap();
    set.insert_range(60..70).unwrap();
    assert_eq!(words, [0xF000_0000_0000_0000, 0x3F]);
}

#[test]
fn a_count_and_a_copied_bit() {
    let mut words = [0];
    let mut set = FixedBitSet::with_capacity(10, &mut words).unwrap();
    set.insert(2).unwrap();
    set.insert(8).unwrap();
    assert_eq!((set.as_slice(), set.count_ones(2..8)), (&[0x104][..], Ok(1)));
    set.copy_bit(99, 2).unwrap();
    assert_eq!(words, [0x100]);
}

#[test]
fn the_union_is_not_sorted() {
    let (a, b) = (View::new(71, &[2, 64]).unwrap(), View::new(2, &[3]).unwrap());
    assert_eq!(a.union(b).collect::<Vec<_>>(), [1, 70, 0]);
    assert_eq!(a.union_count(b), 3);
    assert_eq!(a.symmetric_difference(b).collect::<Vec<_>>(), [70, 0]);
}

#[test]
fn both_ends_of_a_walk() {
    let mut ones = View::new(65, &[1 << 63 | 1, 1]).unwrap().ones();
    assert_eq!((ones.next(), ones.next_back(), ones.next()), (Some(0), Some(64), Some(63)));
    assert_eq!((ones.next(), ones.next_back()), (None, None));
}

#[test]
fn a_union_that_grows() {
    let other = View::new(130, &[0, 0, 2]).unwrap();
    let mut words = [8, 5, 5];
    let mut set = FixedBitSet::from_parts(4, &mut words).unwrap();
    set.union_with(other).unwrap();
    assert_eq!(set.into_parts(), (130, &mut [8, 0, 2][..]));
    let mut words = [8, 5];
    let mut set = FixedBitSet::from_parts(4, &mut words).unwrap();
    assert_eq!(set.union_with(other), Err(Refusal::Room));
    assert_eq!(set.into_parts(), (4, &mut [8, 5][..]));
}

#[test]
fn the_lowest_bit() {
    assert_eq!(words::last_positive_bit_and_unset(12), Ok((2, 8)));
    assert_eq!(words::last_positive_bit_and_unset(0), Err(Refusal::NoBit));
}

#[test]
fn stray_bits_and_zeroes() {
    assert_eq!(View::new(65, &[0, 2]), Err(Refusal::StrayBits));
    assert_eq!(View::new(3, &[2]).unwrap().zeroes().collect::<Vec<_>>(), [0, 2]);
}

#[test]
fn the_longest_set() {
    let mut words = vec![1; 1_024];
    let mut set = FixedBitSet::with_capacity(0, &mut words).unwrap();
    assert_eq!(set.grow_and_insert(65_536), Err(Refusal::NewLength));
    set.grow_and_insert(65_535).unwrap();
    assert_eq!((set.len(), set.maximum(), set.count_ones(..)), (65_536, Some(65_535), Ok(1)));
}

#[test]
fn order_is_length_then_words() {
    let (zero, one, longer) = (View::new(2, &[1]).unwrap(), View::new(2, &[2]).unwrap(), View::new(3, &[0]).unwrap());
    assert_eq!(zero.cmp(&one), Ordering::Less);
    assert!(one < longer && zero < longer && zero == zero && zero != one);
}
