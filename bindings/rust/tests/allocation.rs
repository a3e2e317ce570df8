//! No walk allocates.

use lent_bit_sets::View;
use std::alloc::{GlobalAlloc, Layout, System};
use std::cell::Cell;

struct Counting;

thread_local! {
    static ALLOCATED: Cell<usize> = const { Cell::new(0) };
}

// SAFETY: each call goes to the system's allocator as it came.
unsafe impl GlobalAlloc for Counting {
    unsafe fn alloc(&self, layout: Layout) -> *mut u8 {
        ALLOCATED.set(ALLOCATED.get() + 1);
        System.alloc(layout)
    }

    unsafe fn dealloc(&self, place: *mut u8, layout: Layout) {
        System.dealloc(place, layout);
    }
}

#[global_allocator]
static ALLOCATOR: Counting = Counting;

fn walked(mut walk: impl DoubleEndedIterator<Item = usize> + ExactSizeIterator + Clone) -> usize {
    let whole = walk.clone().sum::<usize>() + walk.clone().rev().sum::<usize>();
    let ends = walk.next().max(walk.next_back());
    whole + walk.len() + ends.unwrap_or(0) + walk.map(|p| p + 1).max().unwrap_or(0)
}

#[test]
fn no_walk_allocates() {
    let (words, other) = ([0x5555_5555_5555_5555; 20], [0x1111_1111_1111_1111; 18]);
    let before = ALLOCATED.get();
    let (a, b) = (View::new(64 * 20, &words).unwrap(), View::new(64 * 18, &other).unwrap());
    let mut sum = walked(a.ones()) + a.zeroes().sum::<usize>();
    sum += walked(a.intersection(b)) + walked(a.difference(b)) + walked(a.union(b)) + walked(a.symmetric_difference(b));
    let mut out = [0; 100];
    sum += a.union(b).next_many(&mut out);
    assert_eq!(ALLOCATED.get(), before);
    assert!(sum > 0 && Box::new(sum) > Box::new(0) && ALLOCATED.get() > before);
}
