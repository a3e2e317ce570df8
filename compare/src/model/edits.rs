//! What an accepted edit does to a set, position by position.

use super::members::{has, Members};
use crate::cases::Edit;

/// Gives what was at the position, for `put`.
pub fn apply(edit: Edit, set: &mut Members, other: &[bool]) -> bool {
    match edit {
        Edit::Insert(p) => set[p] = true,
        Edit::Remove(p) => set[p] = false,
        Edit::Put(p) => return std::mem::replace(&mut set[p], true),
        Edit::Toggle(p) => set[p] = !set[p],
        Edit::Set(p, enabled) => set[p] = enabled,
        Edit::CopyBit(from, to) => set[to] = has(set, from),
        Edit::InsertRange(start, end) => set[start..end].fill(true),
        Edit::RemoveRange(start, end) => set[start..end].fill(false),
        Edit::ToggleRange(start, end) => set[start..end].iter_mut().for_each(|member| *member = !*member),
        Edit::SetRange(start, end, enabled) => set[start..end].fill(enabled),
        Edit::Clear => set.fill(false),
        Edit::Grow(n) => lengthen(set, n),
        Edit::GrowAndInsert(p) => {
            lengthen(set, p + 1);
            set[p] = true;
        }
        Edit::UnionWith => {
            lengthen(set, other.len());
            join(set, other, |x, y| x || y);
        }
        Edit::IntersectWith => join(set, other, |x, y| x && y),
        Edit::DifferenceWith => join(set, other, |x, y| x && !y),
        Edit::SymmetricDifferenceWith => {
            lengthen(set, other.len());
            join(set, other, |x, y| x != y);
        }
        Edit::InsertAll(list) => list.iter().for_each(|p| set[*p as usize] = true),
    }
    false
}

/// The length becomes the larger of the two.
fn lengthen(set: &mut Members, n: usize) {
    if n > set.len() {
        set.resize(n, false);
    }
}

fn join(set: &mut Members, other: &[bool], operation: fn(bool, bool) -> bool) {
    for (p, member) in set.iter_mut().enumerate() {
        *member = operation(*member, has(other, p));
    }
}
