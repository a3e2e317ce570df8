//! Ranges as two numbers.

use std::ops::{Bound, RangeBounds};

/// Start and end, end not included; open ends are 0 and the length. An end that no number can say is above every length.
pub(crate) fn ends(range: impl RangeBounds<usize>, length: usize) -> (usize, usize) {
    let start = match range.start_bound() {
        Bound::Included(start) => *start,
        Bound::Excluded(before) => before.saturating_add(1),
        Bound::Unbounded => 0,
    };
    let end = match range.end_bound() {
        Bound::Included(last) => last.saturating_add(1),
        Bound::Excluded(end) => *end,
        Bound::Unbounded => length,
    };
    (start, end)
}
