//! Inputs that the runs share: sets in lent words, numbers near the edges, and every call at given numbers.

use crate::cases::{Call, Case, Edit, Lent};
use crate::prng::Prng;

/// The most bits that a set can have.
pub const MOST: usize = 65_536;

/// What stands in lent words that belong to the caller.
pub const CALLERS: u64 = 0xC3A5_9669_5AC3_3C69;

/// Numbers that no set has room for.
pub const HUGE: [usize; 7] = [MOST + 1, MOST + 64, 1 << 32, usize::MAX / 2 + 1, usize::MAX - 63, usize::MAX - 1, usize::MAX];

/// Sizes of buffers for many positions, about those of a word.
pub const BUFFERS: [usize; 8] = [0, 1, 2, 63, 64, 65, 130, 200];

pub fn words_of(length: usize) -> usize {
    length.div_ceil(64)
}

/// A set of `length` bits with the members that `is_in` names, and `further` words of the caller after it.
pub fn set(length: usize, further: usize, is_in: impl Fn(usize) -> bool) -> Lent {
    let mut words = vec![0; words_of(length)];
    for p in (0..length).filter(|p| is_in(*p)) {
        words[p / 64] |= 1 << (p % 64);
    }
    words.resize(words.len() + further, CALLERS);
    Lent { length, words }
}

/// A set of random words.
pub fn random_set(random: &mut Prng, length: usize, further: usize) -> Lent {
    let density = random.below(5);
    let mut set = Lent { length, words: (0..words_of(length)).map(|_| random_word(random, density)).collect() };
    trim(&mut set);
    set.words.extend((0..further).map(|_| random.word()));
    set
}

/// Clears the bits from the length up in the set's own words.
pub fn trim(set: &mut Lent) {
    if let Some(last) = set.words.get_mut(set.length / 64) {
        if set.length % 64 != 0 {
            *last &= (1 << (set.length % 64)) - 1;
        }
    }
}

/// Empty, sparse, half full, dense or full.
fn random_word(random: &mut Prng, density: usize) -> u64 {
    match density {
        0 if random.once_in(8) => 1 << random.below(64),
        0 => 0,
        1 => random.word() & random.word() & random.word(),
        2 => random.word(),
        3 => random.word() | random.word() | random.word(),
        _ if random.once_in(8) => !(1 << random.below(64)),
        _ => u64::MAX,
    }
}

/// Mostly short, often at a word's edge, seldom as long as a set can be.
pub fn random_length(random: &mut Prng) -> usize {
    match random.below(100) {
        0..=39 => random.below(200),
        40..=69 => (64 * random.below(5) + random.below(3)).saturating_sub(1),
        70..=94 => random.below(20),
        95..=98 => random.below(2_000),
        _ => random_long(random),
    }
}

/// Up to the most, often at a word's edge.
pub fn random_long(random: &mut Prng) -> usize {
    match random.below(4) {
        0 => random.below(MOST + 1),
        1 => MOST - random.below(3),
        2 => 4_096 + random.below(3) - 1,
        _ => (64 * random.below(MOST / 64 + 1) + random.below(3)).saturating_sub(1).min(MOST),
    }
}

/// A position or an end of a range for a set of `length` bits: in it, at its edges, at a word's edge, just past it, or huge.
pub fn random_number(random: &mut Prng, length: usize) -> usize {
    match random.below(16) {
        0..=7 if length > 0 => random.below(length),
        8 => length,
        9 => length + 1 + random.below(3),
        10 => length.saturating_sub(1),
        11..=13 => (64 * random.below(length / 64 + 2) + random.below(3)).saturating_sub(1),
        14 if random.once_in(4) => random.one_of(&HUGE),
        _ => random.below(length + 70),
    }
}

/// A range that is mostly in the set and in order.
pub fn random_range(random: &mut Prng, length: usize) -> (usize, usize) {
    let (x, y) = (random_number(random, length), random_number(random, length));
    if random.once_in(8) {
        return (x, y);
    }
    let (x, y) = (x.min(length), y.min(length));
    (x.min(y), x.max(y))
}

/// A random call of a history, of numbers alone.
pub fn random_edit(random: &mut Prng, length: usize) -> Edit<'static> {
    let code = random.word() % Edit::OF_NUMBERS;
    let (x, y) = match code {
        6..=9 => random_range(random, length),
        11 | 12 if random.once_in(2) => (length + random.below(70), 0),
        _ => (random_number(random, length), random_number(random, length)),
    };
    Edit::decode(&[], code, x, y, random.yes()).expect("a call of numbers alone")
}

/// A case of one set; the second and the third buffer are empty.
pub fn one(call: Call, a: Lent) -> Case {
    Case { call, a, b: Lent::EMPTY, out: Vec::new() }
}

/// The calls of one set that take no number.
pub const PLAIN: [Call; 9] =
    [Call::Len, Call::IsEmpty, Call::AsSlice, Call::IsFull, Call::IsClear, Call::Minimum, Call::Maximum, Call::FirstPart, Call::Edit(Edit::Clear)];

/// The calls of two sets.
pub const OF_TWO: [Call; 17] = [
    Call::Edit(Edit::UnionWith),
    Call::Edit(Edit::IntersectWith),
    Call::Edit(Edit::DifferenceWith),
    Call::Edit(Edit::SymmetricDifferenceWith),
    Call::BitAnd,
    Call::BitOr,
    Call::BitXor,
    Call::UnionCount,
    Call::IntersectionCount,
    Call::DifferenceCount,
    Call::SymmetricDifferenceCount,
    Call::IsDisjoint,
    Call::IsSubset,
    Call::IsSuperset,
    Call::Eq,
    Call::Cmp,
    Call::Longer,
];

/// The calls at a position.
pub fn at_position(p: usize) -> [Call; 7] {
    [
        Call::Edit(Edit::Insert(p)),
        Call::Edit(Edit::Remove(p)),
        Call::Edit(Edit::Put(p)),
        Call::Edit(Edit::Toggle(p)),
        Call::Edit(Edit::Set(p, true)),
        Call::Edit(Edit::Set(p, false)),
        Call::Contains(p),
    ]
}

/// The calls over a range.
pub fn over_range(start: usize, end: usize) -> [Call; 9] {
    [
        Call::Edit(Edit::InsertRange(start, end)),
        Call::Edit(Edit::RemoveRange(start, end)),
        Call::Edit(Edit::ToggleRange(start, end)),
        Call::Edit(Edit::SetRange(start, end, true)),
        Call::Edit(Edit::SetRange(start, end, false)),
        Call::ContainsAllInRange(start, end),
        Call::ContainsAnyInRange(start, end),
        Call::CountOnes(start, end),
        Call::CountZeroes(start, end),
    ]
}

/// The calls that make a set longer, or a fresh one.
pub fn to_length(n: usize) -> [Call; 4] {
    [Call::Edit(Edit::Grow(n)), Call::Edit(Edit::GrowAndInsert(n)), Call::WithCapacity(n), Call::WithCapacityAndBlocks(n)]
}
