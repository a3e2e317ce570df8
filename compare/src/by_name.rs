//! The safe bindings have the names of the Rust, so what asks a set by name is written once for both.

use crate::cases::Step;

/// The position of each step.
pub fn steps(mut walk: impl DoubleEndedIterator<Item = usize>, steps: &[Step]) -> Vec<Option<usize>> {
    let mut answers = Vec::new();
    for step in steps {
        match step {
            Step::Back => answers.push(walk.next_back()),
            step => answers.extend((0..step.answers()).map(|_| walk.next())),
        }
    }
    answers
}

/// The same of a walk that has no steps at the back; none where there is one.
pub fn front_steps(mut walk: impl Iterator<Item = usize>, steps: &[Step]) -> Option<Vec<Option<usize>>> {
    if steps.contains(&Step::Back) {
        return None;
    }
    let answers = steps.iter().map(|step| step.answers()).sum();
    Some((0..answers).map(|_| walk.next()).collect())
}

/// Functions that ask a `$set`, which can be copied. Of the place that uses this, `ranged` gives the outcome of a call that can refuse its range, and `steps` and
/// `front_steps` the answers of a walk.
macro_rules! ask_by_name {
    ($set:ty) => {
        /// Views, tests and counts of one set.
        fn of_one(call: Call, set: $set) -> Option<Outcome> {
            Some(match call {
                Call::Len => accepted(Answer::Count(set.len())),
                Call::IsEmpty => accepted(Answer::Yes(set.is_empty())),
                Call::AsSlice => accepted(Answer::Part { second: false, offset: 0, count: set.as_slice().len() }),
                Call::Contains(p) => accepted(Answer::Yes(set.contains(p))),
                Call::ContainsAllInRange(start, end) => ranged(|| set.contains_all_in_range(start..end), Answer::Yes),
                Call::ContainsAnyInRange(start, end) => ranged(|| set.contains_any_in_range(start..end), Answer::Yes),
                Call::IsFull => accepted(Answer::Yes(set.is_full())),
                Call::IsClear => accepted(Answer::Yes(set.is_clear())),
                Call::CountOnes(start, end) => ranged(|| set.count_ones(start..end), Answer::Count),
                Call::CountZeroes(start, end) => ranged(|| set.count_zeroes(start..end), Answer::Count),
                Call::Minimum => accepted(Answer::Found(set.minimum())),
                Call::Maximum => accepted(Answer::Found(set.maximum())),
                _ => return None,
            })
        }

        /// Counts, tests, equality and order of two sets.
        fn of_two(call: Call, a: $set, b: $set) -> Option<Outcome> {
            Some(accepted(match call {
                Call::UnionCount => Answer::Count(a.union_count(b)),
                Call::IntersectionCount => Answer::Count(a.intersection_count(b)),
                Call::DifferenceCount => Answer::Count(a.difference_count(b)),
                Call::SymmetricDifferenceCount => Answer::Count(a.symmetric_difference_count(b)),
                Call::IsDisjoint => Answer::Yes(a.is_disjoint(b)),
                Call::IsSubset => Answer::Yes(a.is_subset(b)),
                Call::IsSuperset => Answer::Yes(a.is_superset(b)),
                Call::Eq => Answer::Yes(a == b),
                Call::Cmp => Answer::Order(match a.cmp(&b) {
                    Ordering::Equal => 0,
                    Ordering::Less => 1,
                    Ordering::Greater => 2,
                }),
                _ => return None,
            }))
        }

        /// A walk's steps by the iterators of the sets.
        fn walk_sets(walk: Walk, a: $set, b: $set, given: &[Step]) -> Option<Vec<Option<usize>>> {
            Some(match walk {
                Walk::Ones => steps(a.ones(), given),
                Walk::Zeroes => front_steps(a.zeroes(), given)?,
                Walk::Intersection => steps(a.intersection(b), given),
                Walk::Difference => steps(a.difference(b), given),
                Walk::Union => steps(a.union(b), given),
                Walk::SymmetricDifference => steps(a.symmetric_difference(b), given),
            })
        }
    };
}
pub(crate) use ask_by_name;
