//! What the engines are asked and what they answer: calls, renumberings, walks and histories as data.

use std::rc::Rc;

/// A length and the words that are lent for it. The words may be more than the length needs, or fewer.
#[derive(Clone, Debug, PartialEq, Eq)]
pub struct Lent {
    pub length: usize,
    pub words: Vec<u64>,
}

impl Lent {
    pub const EMPTY: Lent = Lent { length: 0, words: Vec::new() };
}

/// The calls of a history, in the order of their numbers. A list is lent beside them.
#[derive(Clone, Copy, Debug, PartialEq, Eq)]
pub enum Edit<'p> {
    Insert(usize),
    Remove(usize),
    Put(usize),
    Toggle(usize),
    Set(usize, bool),
    CopyBit(usize, usize),
    InsertRange(usize, usize),
    RemoveRange(usize, usize),
    ToggleRange(usize, usize),
    SetRange(usize, usize, bool),
    Clear,
    Grow(usize),
    GrowAndInsert(usize),
    UnionWith,
    IntersectWith,
    DifferenceWith,
    SymmetricDifferenceWith,
    InsertAll(&'p [u64]),
}

impl<'p> Edit<'p> {
    /// How many calls take numbers alone. The one after them takes a list, and a number above it names none.
    pub const OF_NUMBERS: u64 = 17;

    /// The call of a number, with two numbers and a yes or no. That of a list names a part of the positions; one that they do not have is no call.
    pub fn decode(positions: &'p [u64], code: u64, x: usize, y: usize, z: bool) -> Option<Edit<'p>> {
        Some(match code {
            0 => Edit::Insert(x),
            1 => Edit::Remove(x),
            2 => Edit::Put(x),
            3 => Edit::Toggle(x),
            4 => Edit::Set(x, z),
            5 => Edit::CopyBit(x, y),
            6 => Edit::InsertRange(x, y),
            7 => Edit::RemoveRange(x, y),
            8 => Edit::ToggleRange(x, y),
            9 => Edit::SetRange(x, y, z),
            10 => Edit::Clear,
            11 => Edit::Grow(x),
            12 => Edit::GrowAndInsert(x),
            13 => Edit::UnionWith,
            14 => Edit::IntersectWith,
            15 => Edit::DifferenceWith,
            16 => Edit::SymmetricDifferenceWith,
            17 => Edit::InsertAll(positions.get(x..y)?),
            _ => return None,
        })
    }

    /// The call of five numbers, of which the first is the set; none of fewer.
    pub fn of_five(positions: &'p [u64], five: &[u64]) -> Option<Edit<'p>> {
        match *five {
            [_, code, x, y, z] => Edit::decode(positions, code, x as usize, y as usize, z != 0),
            _ => None,
        }
    }

    /// The set (0 or 1), the call, two numbers and a yes or no. A list begins at `at` in the lent positions.
    pub fn encode(self, at: usize, on: u64) -> [u64; 5] {
        let (code, x, y, z) = match self {
            Edit::Insert(x) => (0, x, 0, false),
            Edit::Remove(x) => (1, x, 0, false),
            Edit::Put(x) => (2, x, 0, false),
            Edit::Toggle(x) => (3, x, 0, false),
            Edit::Set(x, z) => (4, x, 0, z),
            Edit::CopyBit(x, y) => (5, x, y, false),
            Edit::InsertRange(x, y) => (6, x, y, false),
            Edit::RemoveRange(x, y) => (7, x, y, false),
            Edit::ToggleRange(x, y) => (8, x, y, false),
            Edit::SetRange(x, y, z) => (9, x, y, z),
            Edit::Clear => (10, 0, 0, false),
            Edit::Grow(x) => (11, x, 0, false),
            Edit::GrowAndInsert(x) => (12, x, 0, false),
            Edit::UnionWith => (13, 0, 0, false),
            Edit::IntersectWith => (14, 0, 0, false),
            Edit::DifferenceWith => (15, 0, 0, false),
            Edit::SymmetricDifferenceWith => (16, 0, 0, false),
            Edit::InsertAll(list) => (17, at, at + list.len(), false),
        };
        [on, code, x as u64, y as u64, u64::from(z)]
    }

    pub fn reads_other(self) -> bool {
        matches!(self, Edit::UnionWith | Edit::IntersectWith | Edit::DifferenceWith | Edit::SymmetricDifferenceWith)
    }
}

/// The six walks; all but `Zeroes` have steps at both ends.
#[derive(Clone, Copy, Debug, PartialEq, Eq)]
pub enum Walk {
    Ones,
    Zeroes,
    Intersection,
    Difference,
    Union,
    SymmetricDifference,
}

impl Walk {
    /// The walks of a history, in the order of their numbers.
    pub const OF_HISTORIES: [Walk; 5] = [Walk::Ones, Walk::Intersection, Walk::Difference, Walk::Union, Walk::SymmetricDifference];

    pub const OF_TWO_SETS: [Walk; 4] = [Walk::Intersection, Walk::Difference, Walk::Union, Walk::SymmetricDifference];

    pub const ALL: [Walk; 6] = [Walk::Ones, Walk::Zeroes, Walk::Intersection, Walk::Difference, Walk::Union, Walk::SymmetricDifference];

    /// Does the walk read a second set?
    pub fn of_two_sets(self) -> bool {
        !matches!(self, Walk::Ones | Walk::Zeroes)
    }

    pub fn of_two_parts(self) -> bool {
        matches!(self, Walk::Union | Walk::SymmetricDifference)
    }
}

/// The record of a part of a walk.
#[derive(Clone, Copy, Debug, PartialEq, Eq)]
pub struct Record {
    pub low: usize,
    pub high: usize,
}

impl Record {
    pub const EMPTY: Record = Record { low: 0, high: 0 };
}

/// A call with its numbers. The first set is `a` of the case, the second `b`.
#[derive(Clone, Copy, Debug, PartialEq, Eq)]
pub enum Call {
    /// An edit of numbers alone.
    Edit(Edit<'static>),
    /// The positions are the words of `b`.
    InsertAll,
    WithCapacity(usize),
    /// The blocks are the words of `b`.
    WithCapacityAndBlocks(usize),
    Len,
    IsEmpty,
    AsSlice,
    Contains(usize),
    ContainsAllInRange(usize, usize),
    ContainsAnyInRange(usize, usize),
    IsFull,
    IsClear,
    CountOnes(usize, usize),
    CountZeroes(usize, usize),
    Minimum,
    Maximum,
    BitAnd,
    BitOr,
    BitXor,
    UnionCount,
    IntersectionCount,
    DifferenceCount,
    SymmetricDifferenceCount,
    IsDisjoint,
    IsSubset,
    IsSuperset,
    Eq,
    Cmp,
    Longer,
    FirstPart,
    Step {
        walk: Walk,
        back: bool,
        one: Record,
        two: Record,
    },
    /// As many front steps as `out` has words.
    NextMany {
        walk: Walk,
        one: Record,
        two: Record,
    },
    /// A step of the walker that keeps the set's words.
    WalkerStep {
        back: bool,
        part: Record,
    },
    WordCountOnes(u64),
    WordLeadingZeros(u64),
    WordTrailingZeros(u64),
    LastPositiveBitAndUnset(u64),
    LowMask(usize),
    AskRange {
        start: usize,
        end: usize,
        length: usize,
    },
    RangeMask {
        start: usize,
        end: usize,
        word: usize,
    },
    Masks {
        start: usize,
        end: usize,
    },
}

impl Call {
    /// The edit that it is, if it is one, with its list.
    pub fn edit(self, positions: &[u64]) -> Option<Edit<'_>> {
        match self {
            Call::Edit(edit) => Some(edit),
            Call::InsertAll => Some(Edit::InsertAll(positions)),
            _ => None,
        }
    }

    pub fn reads_second(self) -> bool {
        match self {
            Call::Edit(edit) => edit.reads_other(),
            Call::Step { walk, .. } | Call::NextMany { walk, .. } => walk.of_two_sets(),
            Call::BitAnd | Call::BitOr | Call::BitXor => true,
            Call::UnionCount | Call::IntersectionCount | Call::DifferenceCount | Call::SymmetricDifferenceCount => true,
            Call::IsDisjoint | Call::IsSubset | Call::IsSuperset | Call::Eq | Call::Cmp | Call::Longer => true,
            _ => false,
        }
    }
}

/// A call with the sets and buffers that are lent for it. `out` is the third buffer.
#[derive(Clone, Debug, PartialEq, Eq)]
pub struct Case {
    pub call: Call,
    pub a: Lent,
    pub b: Lent,
    pub out: Vec<u64>,
}

#[derive(Clone, Copy, Debug, PartialEq, Eq)]
pub enum Answer {
    /// An edit: the length after it.
    Length(usize),
    Put {
        length: usize,
        was: bool,
    },
    Yes(bool),
    Count(usize),
    /// 0 equal, 1 below, 2 above.
    Order(u64),
    Found(Option<usize>),
    /// A part of the first slice or of the second, an empty one too.
    Part {
        second: bool,
        offset: usize,
        count: usize,
    },
    Record(Record),
    Stepped {
        found: Option<usize>,
        one: Record,
        two: Record,
    },
    /// How many positions are in the first words of `out`.
    Many {
        count: usize,
        one: Record,
        two: Record,
    },
    LastBit {
        position: usize,
        rest: u64,
    },
    Masks {
        first_block: usize,
        end_block: usize,
        first_mask: u64,
        last_mask: u64,
    },
    Word(u64),
    /// A new set: its length, and how many members it has.
    Renumbered {
        length: usize,
        count: usize,
    },
}

/// The number, 0 for an accepted call, and the answer. The buffers after the call are in the case.
#[derive(Clone, Copy, Debug, PartialEq, Eq)]
pub struct Outcome {
    pub number: u64,
    pub answer: Answer,
}

pub fn accepted(answer: Answer) -> Outcome {
    Outcome { number: 0, answer }
}

/// A position of the old set and its place in the new one.
#[derive(Clone, Copy, Debug, PartialEq, Eq)]
pub struct Pair {
    pub old: u64,
    pub new: u64,
}

impl Pair {
    pub fn swapped(self) -> Pair {
        Pair { old: self.new, new: self.old }
    }
}

#[derive(Clone, Copy, Debug, PartialEq, Eq)]
pub enum Direction {
    /// `renumber`.
    Forward,
    /// `renumber_back`: with every pair swapped.
    Back,
    /// `renumber_and_back`: into `out`, then back into `again` with the old length.
    ForwardAndBack,
}

/// A set moved to another layout, into a buffer for a set of `bits` bits.
#[derive(Clone, Debug, PartialEq, Eq)]
pub struct Renumbering {
    pub direction: Direction,
    pub set: Lent,
    /// Shared by the copies of the input, since they can be many.
    pub pairs: Rc<Vec<Pair>>,
    pub bits: usize,
    pub out: Vec<u64>,
    pub again: Vec<u64>,
}

impl Renumbering {
    /// The pairs from old to new as the call reads them.
    pub fn sided(&self) -> Rc<Vec<Pair>> {
        match self.direction {
            Direction::Back => Rc::new(swapped(&self.pairs)),
            _ => Rc::clone(&self.pairs),
        }
    }
}

pub fn swapped(pairs: &[Pair]) -> Vec<Pair> {
    pairs.iter().map(|pair| pair.swapped()).collect()
}

/// A step of a walk, or many front steps in one call.
#[derive(Clone, Copy, Debug, PartialEq, Eq)]
pub enum Step {
    Front,
    Back,
    Many(usize),
}

impl Step {
    pub fn at(back: bool) -> Step {
        if back {
            Step::Back
        } else {
            Step::Front
        }
    }

    /// How many answers it has.
    pub fn answers(self) -> usize {
        match self {
            Step::Front | Step::Back => 1,
            Step::Many(size) => size,
        }
    }
}

/// A walk from its first records on.
#[derive(Clone, Debug, PartialEq, Eq)]
pub struct WalkCase {
    pub walk: Walk,
    pub a: Lent,
    pub b: Lent,
    pub steps: Vec<Step>,
}

impl WalkCase {
    pub fn answers(&self) -> usize {
        self.steps.iter().map(|step| step.answers()).sum()
    }
}

/// The position of each step, and the records after the last; the reference has no records. Many front steps have an answer each.
#[derive(Clone, Debug, PartialEq, Eq)]
pub struct Walked {
    pub number: u64,
    pub answers: Vec<Option<usize>>,
    pub records: Option<(Record, Record)>,
}

/// A whole history: two fresh sets, calls of five numbers each, the positions of which calls name parts, a walk by its number, steps, and a buffer for the
/// answers.
#[derive(Clone, Debug, PartialEq, Eq)]
pub struct History {
    pub a_bits: usize,
    pub a_words: Vec<u64>,
    pub b_bits: usize,
    pub b_words: Vec<u64>,
    pub calls: Vec<u64>,
    pub positions: Vec<u64>,
    pub walk: u64,
    pub steps: Vec<u64>,
    pub out: Vec<u64>,
}

/// The buffers after the history are in the history itself.
#[derive(Clone, Copy, Debug, PartialEq, Eq)]
pub struct Ran {
    pub number: u64,
    pub a_length: usize,
    pub b_length: usize,
    pub count: usize,
}

/// An answer of none in the buffer of a history.
pub const NONE: u64 = u64::MAX;

/// Something that answers calls, renumberings, walks and histories. None where the input is outside what it can be asked.
pub trait Engine {
    fn name(&self) -> &'static str;
    /// Makes the call on the buffers of the case.
    fn call(&self, case: &mut Case) -> Option<Outcome>;
    /// Makes the call on the buffers of the renumbering.
    fn renumber(&self, renumbering: &mut Renumbering) -> Option<Outcome>;
    fn walk(&self, case: &WalkCase) -> Option<Walked>;
    /// Runs the history on its buffers.
    fn history(&self, history: &mut History) -> Option<Ran>;
}
