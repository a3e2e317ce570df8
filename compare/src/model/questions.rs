//! The questions before any work: 0 for yes, else the number.

use super::members::{bit, has, words_of};
use crate::cases::{Edit, Lent, Pair, Record};

pub const MOST: u128 = 65_536;

/// The first "no" gives the number.
pub fn first(numbers: &[u64]) -> u64 {
    numbers.iter().copied().find(|number| *number != 0).unwrap_or(0)
}

fn ask(yes: bool, number: u64) -> u64 {
    if yes {
        0
    } else {
        number
    }
}

/// 1 to 3.
pub fn of_set(set: &Lent) -> u64 {
    if set.length as u128 > MOST {
        return 1;
    }
    let needed = words_of(set.length);
    if set.words.len() < needed {
        return 2;
    }
    ask((set.length..64 * needed).all(|p| !bit(&set.words, p)), 3)
}

/// 1 to 3 of the first, then of the second.
pub fn of_both(a: &Lent, b: &Lent) -> u64 {
    first(&[of_set(a), of_set(b)])
}

/// 4.
pub fn position(p: usize, length: usize) -> u64 {
    ask(p < length, 4)
}

/// 4 of every position of a list.
pub fn positions(list: &[u64], length: usize) -> u64 {
    ask(list.iter().all(|p| *p < length as u64), 4)
}

/// 5.
pub fn range(start: usize, end: usize, length: usize) -> u64 {
    ask(start <= end && end <= length, 5)
}

/// 6, then 7 of a buffer of `size` words. The new length may be more than a length can be.
pub fn new_length(length: u128, size: usize) -> u64 {
    if length > MOST {
        return 6;
    }
    ask(words_of(length as usize) <= size, 7)
}

/// 8.
pub fn record(record: Record, length: usize) -> u64 {
    ask(record.low <= record.high && record.high <= length, 8)
}

/// 10 of the old offsets and 11 of the new ones: no two of them are equal.
fn shared(sorted: &[u64], number: u64) -> u64 {
    ask(sorted.windows(2).all(|two| two[0] != two[1]), number)
}

/// 10, 11 and 4 of all pairs, then 12 of the members.
pub fn of_pairs(pairs: &[Pair], bits: usize, members: &[bool]) -> u64 {
    let sorted = |side: fn(&Pair) -> u64| {
        let mut offsets: Vec<u64> = pairs.iter().map(side).collect();
        offsets.sort_unstable();
        offsets
    };
    let (olds, news) = (sorted(|pair| pair.old), sorted(|pair| pair.new));
    let paired = (0..members.len()).all(|p| !has(members, p) || olds.binary_search(&(p as u64)).is_ok());
    first(&[shared(&olds, 10), shared(&news, 11), positions(&news, bits), ask(paired, 12)])
}

/// 4 to 7 of an edit of a set of `length` bits in `size` words, beside a set of `other` bits.
pub fn of_edit(edit: Edit, length: usize, size: usize, other: usize) -> u64 {
    match edit {
        Edit::Insert(p) | Edit::Remove(p) | Edit::Put(p) | Edit::Toggle(p) | Edit::Set(p, _) => position(p, length),
        Edit::CopyBit(_, to) => position(to, length),
        Edit::InsertRange(start, end) | Edit::RemoveRange(start, end) | Edit::ToggleRange(start, end) | Edit::SetRange(start, end, _) => {
            range(start, end, length)
        }
        Edit::Grow(n) => new_length(length.max(n) as u128, size),
        Edit::GrowAndInsert(p) => new_length((length as u128).max(p as u128 + 1), size),
        Edit::UnionWith | Edit::SymmetricDifferenceWith => new_length(length.max(other) as u128, size),
        Edit::InsertAll(list) => positions(list, length),
        Edit::Clear | Edit::IntersectWith | Edit::DifferenceWith => 0,
    }
}
