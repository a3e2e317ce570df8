//! Renumberings through the safe types: what arrives, every refusal in its order, and the way back.

use lent_bit_sets::{FixedBitSet, Pair, Refusal, View};

fn pairs(offsets: &[(u64, u64)]) -> Vec<Pair> {
    offsets.iter().map(|(old, new)| Pair { old: *old, new: *new }).collect()
}

/// The refusal of a set of three members, 0, 2 and 65, renumbered to 66 bits; the buffer has to be as it was.
fn refused(offsets: &[(u64, u64)]) -> Option<Refusal> {
    let set = View::new(66, &[0b101, 2]).unwrap();
    let mut out = [5, 6, 7];
    let refusal = set.renumber(&pairs(offsets), 66, &mut out).err();
    assert!(refusal.is_none() || out == [5, 6, 7]);
    refusal
}

const WHOLE: [(u64, u64); 3] = [(0, 65), (65, 1), (2, 64)];

fn with(further: &[(u64, u64)]) -> Vec<(u64, u64)> {
    [&WHOLE, further].concat()
}

#[test]
fn each_member_arrives_at_its_new_offset() {
    let set = View::new(66, &[0b101, 2]).unwrap();
    let mut out = [5, 6, 7];
    let moved = set.renumber(&pairs(&with(&[(1, 0), (66, 2), (u64::MAX, 3)])), 66, &mut out).unwrap();
    assert_eq!((moved.len(), moved.ones().collect::<Vec<_>>()), (66, vec![1, 64, 65]));
    assert_eq!((moved.count_ones(..), out), (set.count_ones(..), [2, 3, 7]));
}

#[test]
fn every_refusal_in_its_order() {
    assert_eq!(refused(&WHOLE), None);
    assert_eq!(refused(&WHOLE[1..]), Some(Refusal::NoPair));
    assert_eq!(refused(&with(&[(1, 66)])), Some(Refusal::Position));
    assert_eq!(refused(&[(1, 66)]), Some(Refusal::Position));
    assert_eq!(refused(&[(1, 66), (3, 66)]), Some(Refusal::SharedNew));
    assert_eq!(refused(&[(1, 66), (3, 66), (3, 4)]), Some(Refusal::SharedOld));
    assert_eq!(refused(&with(&[(2, 64)])), Some(Refusal::SharedOld));
    assert_eq!(refused(&with(&[(u64::MAX, 0), (u64::MAX, 2)])), Some(Refusal::SharedOld));
}

#[test]
fn the_new_length_and_its_room_come_first() {
    let set = View::new(1, &[1]).unwrap();
    let twice = pairs(&[(0, 0), (0, 0)]);
    assert_eq!(set.renumber(&twice, 65_537, &mut [0; 1_025]).err(), Some(Refusal::NewLength));
    assert_eq!(set.renumber(&twice, 65, &mut [0]).err(), Some(Refusal::Room));
    assert_eq!(set.renumber(&[], 0, &mut []).err(), Some(Refusal::NoPair));
    assert_eq!(View::new(0, &[]).unwrap().renumber(&[], 0, &mut []).unwrap().len(), 0);
}

#[test]
fn the_way_back() {
    let (mut words, mut out, mut again) = ([0; 2], [5; 3], [6; 3]);
    let set = FixedBitSet::with_capacity_and_blocks(66, &[0b101, 2], &mut words).unwrap();
    let list = pairs(&WHOLE);
    let moved = set.renumber(&list, 66, &mut out).unwrap();
    let back = moved.renumber_back(&list, 66, &mut again).unwrap();
    assert_eq!((back.view() == set.view(), again), (true, [0b101, 2, 6]));

    let (mut out, mut again) = ([5; 3], [6; 3]);
    assert_eq!(set.renumber_and_back(&list, 66, &mut out, &mut again), Ok(true));
    assert_eq!((out, again), ([2, 3, 5], [0b101, 2, 6]));
}

#[test]
fn the_way_back_refused() {
    let set = View::new(66, &[0b101, 2]).unwrap();
    let (mut out, mut again) = ([5; 3], [6; 3]);
    // The first call refuses: nothing is written. The second does: the new set stands.
    assert_eq!(set.renumber_and_back(&pairs(&WHOLE[1..]), 66, &mut out, &mut again), Err(Refusal::NoPair));
    assert_eq!((out, again), ([5; 3], [6; 3]));
    assert_eq!(set.renumber_and_back(&pairs(&with(&[(66, 0)])), 66, &mut out, &mut again), Err(Refusal::Position));
    assert_eq!((out, again), ([2, 3, 5], [6; 3]));
    assert_eq!(set.renumber_and_back(&pairs(&WHOLE), 66, &mut out, &mut again[..1]), Err(Refusal::Room));
}
